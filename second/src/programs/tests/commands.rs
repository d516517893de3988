//! `show_commands` and `write_commands`: words, statuses, and that the two undo each other on good lines.

use super::*;
use crate::maker::Maker;

const LINES: &str = "reset\nbuttons 4\nrelative\nabsolute 640 400\nthreshold 1 255\nscale 255 1\nwhere\nload 258 772\n\
                     set clock 99 12 31 00 09 59\nask clock\n";
const BYTES: [u8; 31] = [
    0x80, 1, 7, 4, 8, 9, 2, 0x80, 1, 0x90, 0x0B, 1, 255, 0x0C, 255, 1, 0x0D, 0x0E, 0, 1, 2, 3, 4, 0x1B, 0x99, 0x12,
    0x31, 0, 9, 0x59, 0x1C,
];

#[test]
fn each_command_both_ways() {
    assert_eq!(said("show_commands", &BYTES, false), strings(Accepted, LINES, ""));
    let written = answers("write_commands", LINES.as_bytes(), 3, false);
    assert_eq!(written, (Accepted, BYTES.to_vec(), String::new()));
}

#[test]
fn bytes_that_are_no_good_command() {
    let bytes = [0x80, 2, 7, 5, 0x0A, 0x0E, 1, 8, 8, 8, 8, 8, 0x1B, 0xFA];
    let lines = "lost\nrefused 11\nnot for us\nrefused 11\nrelative\n";
    assert_eq!(said("show_commands", &bytes, false), (Refused, format!("{lines}unfinished\n"), String::new()));
    let lost = format!("show_commands: {LOST}");
    assert_eq!(said("show_commands", &bytes, true), (Failed, format!("{lines}input lost\n"), lost));
    assert_eq!(said("show_commands", &[0x80, 0x80, 3], false), strings(Accepted, "lost\nnot for us\n", ""));
}

#[test]
fn lines_that_are_no_good_command() {
    let text = "buttons 5\nreset\nthreshold 0 1\n\nreset \nbuttons 256\nset clock 0A 00 00 00 00 00\nbuttons +1\n\
                set clock 1 00 00 00 00 000\nask clock";
    let ranges = "buttons are 0 to 4, threshold and scale 1 to 255, absolute and load 0 to 65535, a clock's numbers two digits each";
    let commands = "a command is reset, buttons A, relative, absolute X Y, threshold X Y, scale X Y, where, load X Y, \
                    set clock YY MM DD hh mm ss or ask clock";
    let err = format!(
        "line 1 refused 11\nwrite_commands: {ranges}; nothing was sent for this line\nline 3 refused 11\n\
         line 4 is not a command\nwrite_commands: {commands}; nothing was sent for this line\n\
         line 5 is not a command\nline 6 refused 11\nline 7 is not a command\nline 8 is not a command\nline 9 refused 11\n"
    );
    let written = answers("write_commands", text.as_bytes(), 5, false);
    assert_eq!(written, (Refused, vec![0x80, 1, 0x1C], err.clone()));
    // The line that a failed read cut is lost with it.
    let lost = format!("{err}write_commands: {LOST}write_commands: input was lost, and no command can say so\n");
    assert_eq!(answers("write_commands", text.as_bytes(), 5, true), (Failed, vec![0x80, 1], lost));
    let long = format!("buttons {}1\nreset\n", "0".repeat(300));
    assert_eq!(answers("write_commands", long.as_bytes(), 7, false).1, [0x80, 1]);
}

#[test]
fn any_commands_both_ways() {
    let mut maker = Maker::new(5);
    let bytes: Vec<u8> = (0..2_000).flat_map(|_| maker.command().bytes()).collect();
    let (status, lines, _) = answers("show_commands", &bytes, 100, false);
    assert_eq!((status, answers("write_commands", &lines, 100, false)), (Accepted, (Accepted, bytes, String::new())));
}
