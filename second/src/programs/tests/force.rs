//! `show_force` and `write_force`: words, statuses, and that the one reads what the other writes.

use super::*;

const PACKET: [u8; 12] = [43, 1, 8, 1, 0, 254, 255, 3, 164, 101, 249, 25];
const LINE: &str = "force 1 -2 3 1444 6 -7\n";
/// The same report as `write_force` reads it.
const REPORTED: [u8; 9] = [1, 0, 254, 255, 3, 164, 5, 6, 249];

#[test]
fn packets_in_lines() {
    let bytes = [&[7, 9][..], &PACKET, &[0, 43, 2, 0, 41], &PACKET].concat();
    let lines = format!("{LINE}not for us 2 0\n{LINE}");
    assert_eq!(said("show_force", &bytes, false), strings(Accepted, &lines, ""));
    let lost = format!("show_force: {LOST}");
    assert_eq!(said("show_force", &bytes, true), (Failed, format!("{lines}input lost\n"), lost.clone()));
    // What a failed read cut is not unfinished.
    assert_eq!(said("show_force", &PACKET[..11], true), (Failed, "input lost\n".to_string(), lost));
    assert_eq!(said("show_force", &PACKET[..11], false), strings(Refused, "unfinished\n", ""));
    assert_eq!(said("show_force", &[], false), strings(Accepted, "", ""));
}

/// Reading goes on at the very next byte, so a packet inside a refused one is read.
#[test]
fn behind_a_refused_packet() {
    let mut wrong = PACKET;
    wrong[11] ^= 1;
    assert_eq!(said("show_force", &wrong, false), strings(Refused, "wrong check\n", ""));
    let inside = [&[43, 1, 12][..], &PACKET, &[0]].concat();
    assert_eq!(said("show_force", &inside, false), strings(Refused, &format!("wrong check\n{LINE}"), ""));
    let over = [&[43, 43, 17][..], &PACKET].concat();
    assert_eq!(
        said("show_force", &over, false),
        strings(Refused, &format!("length over 16\nlength over 16\n{LINE}"), "")
    );
}

#[test]
fn a_packet_is_told_when_its_last_byte_came() {
    let seen = Seen::default();
    let turns: [(&[u8], &[u8]); 3] = [(&PACKET[..11], b""), (&PACKET[11..], b""), (&[43, 2, 17], LINE.as_bytes())];
    show_force(Talk { turns: &turns, seen: seen.clone() }, seen.clone(), io::sink());
    assert_eq!(*seen.0.borrow(), format!("{LINE}length over 16\n").as_bytes());
}

#[test]
fn reports_good_refused_and_cut() {
    let (mut buttons, mut hat) = (REPORTED, REPORTED);
    (buttons[6], hat[7]) = (16, 16);
    let write = |bytes: &[u8], fails| {
        let whole = answers("write_force", bytes, usize::MAX, fails);
        assert_eq!(answers("write_force", bytes, 4, fails), whole);
        whole
    };
    assert_eq!(write(&REPORTED, false), (Accepted, PACKET.to_vec(), String::new()));
    let bytes = [REPORTED, buttons, hat, REPORTED].concat();
    let both = [PACKET, PACKET].concat();
    let must = "write_force: buttons are 4260, and must be 0 to 4095; nothing was sent for this report\n";
    let err = format!("report 2 refused 4\n{must}report 3 refused 4\n");
    assert_eq!(write(&bytes, false), (Refused, both.clone(), err.clone()));
    let cut = [&bytes[..], &[0; 8]].concat();
    assert_eq!(write(&cut, false), (Refused, both.clone(), format!("{err}report 5 cut\n")));
    let lost = format!("{err}write_force: {LOST}write_force: input was lost, and no packet can say so\n");
    assert_eq!(write(&cut, true), (Failed, both, lost));
    hat[6] = 16;
    assert_eq!(
        write(&hat, false).2,
        "report 1 refused 4\nwrite_force: buttons are 4260, and must be 0 to 4095; the hat is 16, and must be 0 to 15; \
         nothing was sent for this report\n"
    );
}

#[test]
fn what_is_written_is_shown() {
    for index in 0..200 {
        let bytes = noise("write_force", 4, index).unwrap();
        let (status, packets, err) = answers("write_force", &bytes, usize::MAX, false);
        assert_eq!(packets.len() / 12 + err.matches("refused 4").count(), bytes.len() / REPORT);
        let shown = said("show_force", &packets, false);
        assert_eq!((shown.0, shown.1.matches("force ").count()), (Accepted, packets.len() / 12));
        assert_eq!(status == Accepted, err.is_empty());
    }
}
