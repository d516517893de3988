//! Lines read, written and answered as docs/DRIVE.md says.

use super::*;
use crate::table::SLOTS;

fn answer(line: &str) -> String {
    answer_line(line.as_bytes())
}

const UNUSED: &str = "-1 0 0 0 0 0 ";

fn empty() -> String {
    UNUSED.repeat(SLOTS)
}

/// What a writer holds for a display with the option off.
fn off() -> String {
    "0 ".repeat(POINTER_NUMBERS)
}

fn crane_empty() -> String {
    "-1 0 0 0 ".repeat(16)
}

#[test]
fn as_many_numbers_as_the_page_says() {
    assert_eq!(reader_numbers(Layout::Panel), 392);
    assert_eq!(WRITER_NUMBERS, 237);
    assert_eq!(reader_numbers(Layout::Crane), 134);
    assert_eq!(PIECES_NUMBERS, 400);
}

#[test]
fn the_example_of_the_format() {
    let (table, landed) = (empty(), format!("0 0 0 0 0 0 {}", UNUSED.repeat(SLOTS - 1)));
    assert_eq!(
        answer(&format!("one 1 4000 4000 255 255 255 0 0 {table}{table}3 57 0")),
        format!("0 1 4000 4000 255 255 255 0 0 {table}{landed}0 0 0 0 0 none")
    );
    let (table, landed) = (crane_empty(), format!("0 0 0 0 {}", "-1 0 0 0 ".repeat(15)));
    assert_eq!(
        answer(&format!("crane_one 1 4000 4000 255 0 0 {table}{table}3 57 0")),
        format!("0 1 4000 4000 255 0 0 {table}{landed}0 0 0 0 0 none")
    );
}

#[test]
fn a_touch_size_is_set_here_and_skipped_there() {
    let (table, sized) = (empty(), format!("-1 0 0 0 7 0 {}", UNUSED.repeat(SLOTS - 1)));
    assert_eq!(
        answer(&format!("one 1 4000 4000 255 255 255 0 0 {table}{table}3 48 7")),
        format!("0 1 4000 4000 255 255 255 0 0 {table}{sized}0 0 0 0 0 none")
    );
    let reader = format!("1 4000 4000 255 0 0 {0}{0}", crane_empty());
    assert_eq!(answer(&format!("crane_one {reader}3 48 7")), format!("0 {reader}0 0 1 0 0 3 48"));
    assert_eq!(answer(&format!("crane_one {reader}3 49 -7")), format!("0 {reader}0 0 1 0 0 3 49"));
}

#[test]
fn a_contact_has_six_numbers_here_and_four_there() {
    let table = format!("5 1 2 3 4 5 {}", UNUSED.repeat(SLOTS - 1));
    assert_eq!(answer(&format!("ask 1 9 9 9 9 9 0 0 {table}{table}0")), "contact 5 1 2 3 4 5");
    let table = format!("5 1 2 3 {}", "-1 0 0 0 ".repeat(15));
    assert_eq!(answer(&format!("crane_ask 1 9 9 9 0 0 {table}{table}0")), "contact 5 1 2 3");
    let stale = format!("1 9 9 9 0 2 {table}{table}");
    assert_eq!(answer(&format!("crane_load {stale}0 5 1 2 3")), format!("0 1 9 9 9 0 0 {table}{table}").trim_end());
    assert_eq!(answer(&format!("crane_load {stale}0 5 1 2 3 4 5")), format!("8 {stale}").trim_end());
}

/// A report in two pieces with an empty one between them, behind two of its bytes.
#[test]
fn pieces_are_answered_one_by_one() {
    let reader = format!("1 4000 4000 255 255 255 0 0 {0}{0}", empty());
    let nothing = "0 0 0 0 0 none";
    assert_eq!(
        answer(&format!("pieces_take {reader}2 0 0 0 0 0 0 0 3 3 0 4 0 0 0 7 8 9 5")),
        format!(
            "0 {reader}5 0 0 0 0 0 0 0 {nothing} / 0 {reader}5 0 0 0 0 0 0 0 {nothing} / \
             0 {reader}1 5 0 0 0 0 0 0 1 0 0 0 0 none"
        )
    );
    let broken = format!("{reader}8 0 0 0 0 0 0 0");
    assert_eq!(answer(&format!("pieces_take {broken} 2 0 0")), format!("2 {broken} {nothing} / 2 {broken} {nothing}"));
    assert_eq!(answer(&format!("pieces_ask {broken} 0")), "refused 2");
    assert_eq!(answer(&format!("pieces_ask {reader}1 9 0 0 0 0 0 0 0")), "empty");
    assert_eq!(answer(&format!("pieces_load {reader}1 9 0 0 0 0 0 0 0")), format!("7 {reader}1 9 0 0 0 0 0 0"));
    assert_eq!(answer("pieces_fresh 1 4000 4000 255 255 255"), format!("0 {reader}0 0 0 0 0 0 0 0"));
    assert_eq!(answer("pieces_fresh 33 1 1 1 1 1"), format!("1{}", " 0".repeat(PIECES_NUMBERS)));
}

#[test]
fn pieces_that_are_not_the_bytes() {
    let state = format!("1 9 9 9 9 9 0 0 {0}{0}0 0 0 0 0 0 0 0", empty());
    for cut in ["1 0", "2 0 0", "1 2 7 7", "3 0 2 0 7 7"] {
        assert_ne!(answer(&format!("pieces_take {state} {cut}")), BAD_LINE, "{cut}");
    }
    for cut in [
        "",
        "0",
        "1",
        "0 7",
        "1 1",
        "1 0 7",
        "1 2 7",
        "2 1 7",
        "1 1 256",
        "1 -1",
        "2 18446744073709551615 1",
        "2 18446744073709551615 2 7",
        "18446744073709551615 1 7",
    ] {
        assert_eq!(answer(&format!("pieces_take {state} {cut}")), BAD_LINE, "{cut}");
    }
}

#[test]
fn what_was_skipped_first_comes_last() {
    let reader = format!("1 4000 4000 255 255 255 0 0 {0}{0}", empty());
    assert_eq!(answer(&format!("one {reader}3 50 7")), format!("0 {reader}0 0 1 0 0 3 50"));
    assert_eq!(answer(&format!("one {reader}1 330 1")), format!("0 {reader}0 1 0 0 0 1 330"));
    let records = "4 0 4 0 7 0 0 0 0 0 2 0 0 0 0 0 0 0 0 0 0 0 0 0";
    assert_eq!(answer(&format!("run {reader}{records}")), format!("0 {reader}1 1 1 0 0 4 4"));
    assert_eq!(answer(&format!("run {reader}{records} 0")), format!("6 {reader}0 0 0 0 0 none"));
}

#[test]
fn a_carriage_return_is_part_of_its_line() {
    assert_eq!(lines_of("start\r\n\nstart").collect::<Vec<_>>(), ["start\r", "", "start"]);
    assert_eq!(lines_of("").count(), 0);
    assert_eq!(answer("start\r"), BAD_LINE);
}

#[test]
fn a_refused_setup_leaves_zeros() {
    for option in [0, 1] {
        assert_eq!(answer(&format!("new 0 1 1 1 1 1 {option}")), format!("1{}", " 0".repeat(WRITER_NUMBERS)));
    }
    let most = SLOTS + 1;
    assert_eq!(answer(&format!("fresh {most} 1 1 1 1 1")), format!("1{}", " 0".repeat(reader_numbers(Layout::Panel))));
    assert_eq!(answer("fresh 1 1 1 1 1 256"), format!("1{}", " 0".repeat(reader_numbers(Layout::Panel))));
    assert_eq!(answer("crane_fresh 17 1 1 1"), format!("1{}", " 0".repeat(reader_numbers(Layout::Crane))));
}

#[test]
fn blocks_made_laid_and_read() {
    let event = "3 0 57 0 0 0 0 0";
    let block = format!("1 0 0 0 1 0 0 0 {event}{} 148 2 0 0", " 0".repeat(492));
    assert_eq!(answer(&format!("recorder_block 1 {event}")), format!("0 : {block}"));
    assert_eq!(answer("recorder_block 1"), format!("4 :{}", " 0".repeat(512)));
    assert_eq!(answer("recorder_block 1 7"), format!("6 :{}", " 0".repeat(512)));
    assert_eq!(answer(&format!("recorder_lay 1 1 514 {event}")), format!("0 1 2 0 : 11 {block} 48"));
    assert_eq!(answer(&format!("recorder_lay 1 0 3 {event}")), "5 0 1 512 : 11 48 85");
    assert_eq!(answer("recorder_lay 4294967295 0 1"), "0 0 4294967295 0 : 11");
    assert_eq!(answer("recorder_lay 0 0 1"), "4 0 0 0 : 11");
    assert_eq!(answer(&format!("recorder_read 1 {block}")), "0 8 1");
    assert_eq!(answer(&format!("recorder_read 2 {block}")), "2");
    assert_eq!(answer(&format!("recorder_read 1 {block} 0")), "1");
    assert_eq!(answer("recorder_read 1"), "1");
    for line in [
        "recorder_block",
        "recorder_block 4294967296",
        "recorder_block -1 0",
        "recorder_block 1 256",
        "recorder_lay 1 0",
        "recorder_lay 1 0 4097",
        "recorder_lay 1 -1 0",
        "recorder_read",
        "crane_recorder_read 1",
        "recorder_ 1",
    ] {
        assert_eq!(answer(line), BAD_LINE, "{line}");
    }
}

#[test]
fn commands_read_and_written() {
    for (line, said) in [
        ("commands_read 0 128 1 8", "2 reset"),
        ("commands_read 0 27 153 18 49 0 9 89", "7 set clock 99 12 31 00 09 59"),
        ("commands_read 0 14 0 1 2 3 4", "6 load 258 772"),
        ("commands_read 0 128 2", "2 lost"),
        ("commands_read 1 8 10", "2 not for us"),
        ("commands_read 0 7 5", "2 refused 11"),
        ("commands_read 1 8 7", "1 unfinished"),
        ("commands_read 9 8", "1 nothing"),
        ("commands_write 0 1 248 0 0 0 0 0 1 4 0", "0 1 0 0 0 0 0 0 0 0 : 11 128 1 122"),
        ("commands_write 0 1 248 0 0 0 0 0 0 1 2", "0 0 1 248 0 0 0 0 0 0 : 8"),
        ("commands_write 0 1 248 0 0 0 0 0 0 0 9", "5 0 1 248 0 0 0 0 0 1 :"),
        ("commands_write 0 1 248 0 0 0 0 0 0 2 1 5", "11 0 1 248 0 0 0 0 0 0 : 11 48"),
        ("commands_write 0 1 0 0 0 0 0 0 0 2 1 5", "2 0 1 0 0 0 0 0 0 0 : 11 48"),
        ("pod 1 6 252 153 18 49 0 9 89", "1 0 0 0 0 0 0 0 time 99 12 31 00 09 59"),
    ] {
        assert_eq!(answer(line), said, "{line}");
    }
    for line in [
        "commands_read",
        "commands_read 0 256",
        "commands_write 1 0 0 0 0 0 0 0 0 0",
        "commands_write 1 0 0 0 0 0 0 0 0 0 10",
        "commands_write 1 0 0 0 0 0 0 0 0 0 1",
        "commands_write 1 0 0 0 0 0 0 0 0 0 1 256",
        "commands_write 1 0 0 0 0 0 0 0 0 0 3 1 65536",
        "commands_write 1 0 0 0 0 0 0 0 0 0 4 256 1",
        "commands_write 1 0 0 0 0 0 0 0 0 0 8 0 0 0 0 0",
        "commands_write 1 0 0 0 0 0 0 0 0 0 9 0",
        "commands_write 2 0 0 0 0 0 0 0 0 0 9",
    ] {
        assert_eq!(answer(line), BAD_LINE, "{line}");
    }
}

#[test]
fn packets_read_and_written() {
    let packet = "43 1 8 1 0 254 255 3 164 101 249 25";
    for (line, said) in [
        (format!("force_read 0 7 {packet} 43"), "0 1 -2 3 1444 6 -7 13"),
        ("force_read 0 43 2 0 41 7".to_string(), "1 2 0 4"),
        ("force_read 0 7 43 1 17".to_string(), "2 2"),
        ("force_read 0 43 2 0 40".to_string(), "3 1"),
        ("force_read 0 7 43".to_string(), "4 1"),
        ("force_read 1 43 7".to_string(), "5 2"),
        ("force_read 18446744073709551615 43 7".to_string(), "5 2"),
        ("force_write 0 0 0 4096 0 0 0 2".to_string(), "4 0 : 11 48"),
        ("force_write 0 0 0 0 0 0 0 2".to_string(), "5 12 : 11 48"),
    ] {
        assert_eq!(answer(&line), said, "{line}");
    }
    assert_eq!(answer("force_write 1 -2 3 1444 6 -7 1 14"), format!("0 0 : 11 {packet} 236"));
    for line in [
        "force_read",
        "force_read -1",
        "force_read 0 256",
        "force_write 0 0 0 0 0 0 0",
        "force_write 0 0 0 0 0 0 0 4097",
        "force_write 32768 0 0 0 0 0 0 0",
        "force_write 0 0 -1 0 0 0 0 0",
        "force_write 0 0 0 65536 0 0 0 0",
        "force_write 0 0 0 0 256 0 0 0",
        "force_write 0 0 0 0 0 128 0 0",
        "force_write 0 0 0 0 0 0 0 0 0",
    ] {
        assert_eq!(answer(line), BAD_LINE, "{line}");
    }
}

/// Option, touch, tool, X, Y and the ranks, in this order behind the table.
#[test]
fn a_writer_with_a_display() {
    let (head, ranks) = ("2 9 9 9 9 9 0", "0 ".repeat(SLOTS - 2));
    let fresh = format!("0 {}1 0 0 0 0 0 0 {ranks}", empty());
    assert_eq!(answer("new 2 9 9 9 9 9 1"), format!("0 {head} {fresh}").trim_end());
    let rest = UNUSED.repeat(SLOTS - 2);
    let two = format!("2 0 3 4 5 0 0 1 6 7 5 0 0 {rest}1 1 333 6 7 1 0 {ranks}");
    let lifted = format!("2 0 3 4 5 0 0 -1 6 7 5 0 0 {rest}1 1 325 3 4 0 0 {ranks}");
    let slot = "3 0 47 0 1 0 0 0 3 0 57 0 255 255 255 255";
    let tools = "1 0 77 1 0 0 0 0 1 0 69 1 1 0 0 0";
    let place = "3 0 0 0 3 0 0 0 3 0 1 0 4 0 0 0";
    assert_eq!(
        answer(&format!("write {head} {two}0 56 1 3 4 5 0 0 0 0 0 0 0 0")),
        format!("0 2 9 9 9 9 9 1 {lifted}7 2 0 : {slot} {tools} {place} 0 0 0 0 0 0 0 0")
    );
    let marks: String = marks(55).iter().map(|mark| format!(" {mark}")).collect();
    assert_eq!(
        answer(&format!("write {head} {two}0 55 1 3 4 5 0 0 0 0 0 0 0 0")),
        format!("5 {head} {two}0 0 56 :{marks}")
    );
}

/// Answered as `write` is; the records may be none, and of any count of bytes.
#[test]
fn a_type_a_frame() {
    let (table, off) = (empty(), off());
    let landed = format!("0 3 4 5 0 0 {}", UNUSED.repeat(SLOTS - 1));
    let numbers = "3 0 53 0 3 0 0 0 3 0 54 0 4 0 0 0 3 0 58 0 5 0 0 0";
    let records = format!("{numbers} 0 0 2 0 0 0 0 0 0 0 0 0 0 0 0 0");
    let fresh = format!("1 9 9 9 9 9 0 0 {table}{off}");
    assert_eq!(
        answer(&format!("anonymous {fresh}1 42 {records}")),
        format!("0 1 9 9 9 9 9 0 1 {landed}{off}5 1 0 : 11 3 0 57 0 0 0 0 0 {numbers} 0 0 0 0 0 0 0 0 248")
    );
    assert_eq!(answer(&format!("anonymous {fresh}0 3 {records}")), format!("5 {fresh}0 0 40 : 11 48 85"));
    assert_eq!(answer(&format!("anonymous {fresh}0 0 0 0 0 0 0 0 0 0")), format!("0 {fresh}0 0 0 :"));
    assert_eq!(answer(&format!("anonymous {fresh}0 0")), format!("10 {fresh}0 0 0 :"));
    assert_eq!(answer(&format!("anonymous {fresh}0 1 7")), format!("6 {fresh}0 0 0 : 11"));
    let twice = format!("{} {0} 0 0 0 0 0 0 0 0", &records[..records.len() - 16]);
    assert_eq!(answer(&format!("anonymous {fresh}0 1 {twice}")), format!("9 {fresh}0 0 0 : 11"));
}

#[test]
fn a_buffer_keeps_its_marks() {
    let writer = format!("1 9 9 9 9 9 0 0 {}{}", empty(), off());
    assert_eq!(answer(&format!("write {writer}0 4 0 0 0 0 0 0")), format!("0 {writer}0 0 0 : 11 48 85 122"));
    assert_eq!(answer(&format!("write {writer}0 0 0 0 0 0 0 0")), format!("0 {writer}0 0 0 :"));
}

#[test]
fn lines_that_are_no_call() {
    let (table, crane, off) = (empty(), crane_empty(), off());
    let ranks = "0 ".repeat(SLOTS);
    for line in [
        " ".to_string(),
        "zero 1 2 3 4".to_string(),
        "1 2 3 4".to_string(),
        "fresh 1 2 3 4".to_string(),
        "fresh 1 2 3 4 5".to_string(),
        "fresh 1 2 3 4 5 6 7".to_string(),
        "fresh 1 2 3 4 5 x".to_string(),
        "fresh 1 2 3 4 5 +6".to_string(),
        "fresh 1 2 3 4 5 -".to_string(),
        "fresh -1 2 3 4 5 6".to_string(),
        "fresh 1 2 3 4 5 4294967296".to_string(),
        "fresh 18446744073709551616 2 3 4 5 6".to_string(),
        "crane_fresh 1 2 3".to_string(),
        "crane_fresh 1 2 3 4 5 6".to_string(),
        "new 1 2 3 4 5 6".to_string(),
        "new 1 2 3 4 5 6 2".to_string(),
        "new 1 2 3 4 5 6 -1".to_string(),
        "new 1 2 3 4 5 6 1 0".to_string(),
        "crane_new 1 2 3 4 5 6 0".to_string(),
        "crane_new 1 2 3 4".to_string(),
        "crane_start".to_string(),
        "crane_".to_string(),
        "crane_crane_fresh 1 2 3 4".to_string(),
        "crane_pieces_fresh 1 2 3 4 5 6".to_string(),
        "pieces_fresh 1 2 3 4".to_string(),
        "pieces_".to_string(),
        "pieces_run 1 2 3 4 5 6".to_string(),
        "pod 0 0 0 0 0 0 0 0 256".to_string(),
        "pod 0 0 0 0 0 0 0 0".to_string(),
        "pod 2 0 0 0 0 0 0 0 1".to_string(),
        "pod -1 0 0 0 0 0 0 0 1".to_string(),
        "pod 256 0 0 0 0 0 0 0 1".to_string(),
        "start 0".to_string(),
        format!("write 1 9 9 9 9 9 0 0 {table}{off}0 4097 0 0 0 0 0 0"),
        format!("write 1 9 9 9 9 9 0 0 {table}{off}0 0 0 0 0 0 0 2147483648"),
        format!("write 1 9 9 9 9 9 0 0 {table}0 0 0 0 0 0 0 0"),
        format!("write 1 9 9 9 9 9 0 0 {table}2 0 0 0 0 {ranks}0 0 0 0 0 0 0 0"),
        format!("write 1 9 9 9 9 9 0 0 {table}0 256 0 0 0 {ranks}0 0 0 0 0 0 0 0"),
        format!("write 1 9 9 9 9 9 0 0 {table}0 0 65536 0 0 {ranks}0 0 0 0 0 0 0 0"),
        format!("write 1 9 9 9 9 9 0 0 {table}0 0 0 -1 0 {ranks}0 0 0 0 0 0 0 0"),
        format!("write 1 9 9 9 9 9 0 0 {table}0 0 0 0 4294967296 {ranks}0 0 0 0 0 0 0 0"),
        format!("write 1 9 9 9 9 9 0 0 {table}0 0 0 0 0 256 {}0 0 0 0 0 0 0 0", &ranks[2..]),
        format!("anonymous 1 9 9 9 9 9 0 0 {table}{off}0"),
        format!("anonymous 1 9 9 9 9 9 0 0 {table}{off}0 4097"),
        format!("anonymous 1 9 9 9 9 9 0 0 {table}{off}0 0 256"),
        format!("anonymous 1 9 9 9 9 9 0 0 {table}{off}0 0 -1"),
        format!("ask 1 9 9 9 9 9 0 3 {table}{table}0"),
        format!("crane_ask 1 9 9 9 0 3 {crane}{crane}0"),
        format!("ask 1 9 9 9 0 0 {crane}{crane}0"),
        format!("run 1 9 9 9 9 9 0 0 {table}{table}{}", "0 ".repeat(12_000)),
        format!("fresh 1 2 3 4 5 6{}", " ".repeat(LONGEST_LINE)),
    ] {
        assert_eq!(answer(&line), BAD_LINE, "{line}");
    }
}

const NAMES: [&str; 28] = [
    "fresh",
    "new",
    "run",
    "one",
    "load",
    "ask",
    "good",
    "write",
    "anonymous",
    "start",
    "pod",
    "crane_fresh",
    "crane_run",
    "crane_one",
    "crane_load",
    "crane_ask",
    "crane_good",
    "pieces_fresh",
    "pieces_take",
    "pieces_load",
    "pieces_ask",
    "recorder_block",
    "recorder_lay",
    "recorder_read",
    "force_read",
    "force_write",
    "commands_read",
    "commands_write",
];

/// Numbers with which that name is a call.
fn numbers_for(name: &str) -> String {
    let (layout, word) = layout_of(name);
    let reader = match layout {
        Layout::Panel => format!("1 9 9 9 9 9 0 0 {0}{0}", empty()),
        Layout::Crane => format!("1 9 9 9 0 0 {0}{0}", crane_empty()),
    };
    match (layout, word) {
        (Layout::Crane, "fresh") => "1 2 3 4".to_string(),
        (_, "fresh") => "1 2 3 4 5 6".to_string(),
        (_, "new") => "1 2 3 4 5 6 1".to_string(),
        (_, "run" | "good") => reader,
        (_, "one") => format!("{reader}3 57 0"),
        (_, "load" | "ask") => format!("{reader}0"),
        (_, "write") => format!("1 9 9 9 9 9 0 0 {}{}0 0 0 0 0 0 0 0", empty(), off()),
        (_, "anonymous") => format!("1 9 9 9 9 9 0 0 {}{}0 0 0 0", empty(), off()),
        (_, "pod") => "0 0 0 0 0 0 0 0 1".to_string(),
        (_, "pieces_fresh") => "1 2 3 4 5 6".to_string(),
        (_, "pieces_take") => format!("{reader}0 0 0 0 0 0 0 0 2 1 0 9"),
        (_, "recorder_block" | "recorder_read" | "force_read" | "commands_read") => "1".to_string(),
        (_, "commands_write") => "1 0 0 0 0 0 0 0 0 0 9".to_string(),
        (_, "force_write") => "0 0 0 0 0 0 0 12".to_string(),
        (_, "recorder_lay") => "1 0 0".to_string(),
        (_, "pieces_load" | "pieces_ask") => format!("{reader}0 0 0 0 0 0 0 0 0"),
        _ => String::new(),
    }
}

#[test]
fn a_word_is_written_out_whole() {
    for name in NAMES {
        let numbers = numbers_for(name);
        assert_ne!(answer(&format!("{name} {numbers}")), BAD_LINE, "{name}");
        let upper = name[..1].to_uppercase() + &name[1..];
        let longer = format!("{name}ly");
        let other = format!("{}oo", &name[..1]);
        for word in [&name[..1], &name[..name.len() - 1], &upper, &longer, &other, &format!("{name}\r")] {
            assert_eq!(answer(&format!("{word} {numbers}")), BAD_LINE, "{word}");
        }
    }
    for line in ["stop", "foo 1 2 3 4 5 6", "Fresh 1 2 3 4 5 6", "freshly 1 2 3 4 5 6", "start\t", "fresh\t1 2 3 4 5 6"]
    {
        assert_eq!(answer(line), BAD_LINE, "{line}");
    }
    assert_eq!(answer_line(b"fresh\xff 1 2 3 4 5 6"), BAD_LINE);
}

#[test]
fn spaces_and_zeros_too_many() {
    assert_eq!(answer("fresh  1 2  3 4 5 6"), answer("fresh 1 2 3 4 5 6"));
    assert_eq!(answer(" fresh 01 2 3 4 5 6 "), answer("fresh 1 2 3 4 5 6"));
    assert_eq!(answer("new -0 2 3 4 5 6 01"), answer("new 0 2 3 4 5 6 1"));
    assert_eq!(answer("  crane_fresh 01 2 3 -0 "), answer("crane_fresh 1 2 3 0"));
    assert_eq!(answer("pod 0 0 0 0 0 0 0 0 1"), "0 0 0 0 0 0 0 0 down 1");
    assert_eq!(answer("pod 1 1 255 0 0 0 0 0 16 245"), "1 0 0 0 0 0 0 0 bad report / 1 0 0 0 0 0 0 0 up 117");
    assert_eq!(answer("pod 1 0 0 0 0 0 0 0 240 240"), "0 0 0 0 0 0 0 0 self-test passed / 0 0 0 0 0 0 0 0 up 112");
    assert_eq!(answer("start"), "1 0 0 0 0 0 0 0");
    let full = MOST_NUMBERS - reader_numbers(Layout::Panel);
    assert!(answer(&format!("run {}{}", numbers_for("run"), "0 ".repeat(full))).starts_with('0'));
    assert_eq!(answer(&format!("run {}{}", numbers_for("run"), "0 ".repeat(full + 1))), BAD_LINE);
}
