//! A made-up shift for a class: hands that land, hold the lift key and lift, bare and in gloves.

use std::io::{self, Write};

use crate::events::{Event, RECORD};
use crate::random::Random;
use crate::table::{Setup, NUMBERS, SLOT_NUMBERS};
use crate::writer::{Writer, LARGEST_FRAME};

/// So many hands at the table; few, since each frame of the input tells of all of them.
const HANDS: usize = 4;
const SETUP: Setup = Setup { slots: HANDS as u64, largest: [4000, 4000, 255, 255, 255] };

/// The lift key's middle, and how far from it a finger lands.
const KEY: [u64; 2] = [3200, 600];
const NEAR: u64 = 150;

/// A contact's x, y, pressure and sizes, and for how many frames it still holds.
struct Hand {
    numbers: [u64; NUMBERS],
    holds: u64,
}

/// One frame after the other; the same seed gives the same ones.
pub struct Shift {
    random: Random,
    hands: [Option<Hand>; HANDS],
}

impl Shift {
    /// Nobody is at the table yet.
    pub fn new(seed: u64) -> Shift {
        Shift { random: Random::new(seed), hands: Default::default() }
    }

    /// The next frame, and whether a hand lifts in it.
    pub fn frame(&mut self) -> (Vec<i32>, bool) {
        let mut frame = Vec::new();
        let mut lifts = false;
        for s in 0..HANDS {
            let was_down = self.hands[s].is_some();
            self.go_on(s);
            lifts |= was_down && self.hands[s].is_none();
            match &self.hands[s] {
                Some(hand) => {
                    frame.push(1);
                    frame.extend(hand.numbers.map(|number| number as i32));
                }
                None => frame.extend([0; SLOT_NUMBERS]),
            }
        }
        (frame, lifts)
    }

    fn go_on(&mut self, s: usize) {
        match self.hands[s].take() {
            // The first hand works, the others only come by.
            None if self.random.once_in(if s == 0 { 20 } else { 150 }) => self.hands[s] = Some(self.land()),
            Some(Hand { holds: 0, .. }) | None => {}
            Some(mut hand) => {
                hand.holds -= 1;
                self.stir(&mut hand);
                self.hands[s] = Some(hand);
            }
        }
    }

    /// Mostly on the lift key. A glove is wide and presses hard.
    fn land(&mut self) -> Hand {
        let is_on_key = !self.random.once_in(3);
        let [x, y] = match is_on_key {
            true => KEY.map(|middle| middle - NEAR + self.random.below(2 * NEAR)),
            false => [0, 0].map(|_: u64| self.random.from_to(100, 3900)),
        };
        let (pressure, major) = match self.random.once_in(3) {
            true => (self.random.from_to(60, 160), self.random.from_to(60, 140)),
            false => (self.random.from_to(20, 60), self.random.from_to(8, 24)),
        };
        let numbers = [x, y, pressure, major, major * 2 / 3];
        Hand { numbers, holds: self.random.from_to(10, if is_on_key { 200 } else { 40 }) }
    }

    /// A finger is never quite still: now and then one of its numbers is another by a little.
    fn stir(&mut self, hand: &mut Hand) {
        if self.random.once_in(4) {
            let number = &mut hand.numbers[self.random.below(NUMBERS as u64) as usize];
            *number = if self.random.once_in(2) { *number + 1 } else { *number - 1 };
        }
    }
}

fn header() -> Vec<u8> {
    [SETUP.slots as u32].iter().chain(&SETUP.largest).flat_map(|number| number.to_le_bytes()).collect()
}

/// So many frames, as `write_frames` reads them.
pub fn frames(count: u64, seed: u64, out: &mut impl Write) -> io::Result<()> {
    let mut shift = Shift::new(seed);
    out.write_all(&header())?;
    for _ in 0..count {
        let (frame, _) = shift.frame();
        out.write_all(&frame.iter().flat_map(|number| number.to_le_bytes()).collect::<Vec<_>>())?;
    }
    Ok(())
}

/// What a panel sends of these frames, as `record` and `show_table` read it, with a loss: SYN_DROPPED stands for the first frame from `lost` on (from 1) in which a hand lifts. The place of that frame; `None` where there is none.
pub fn records(count: u64, seed: u64, lost: u64, out: &mut impl Write) -> io::Result<Option<u64>> {
    let mut shift = Shift::new(seed);
    let mut writer = Writer::fresh(SETUP, false).expect("a good setup");
    let mut found = None;
    out.write_all(&header())?;
    for place in 1..=count {
        let (frame, lifts) = shift.frame();
        let mut buffer = [0; LARGEST_FRAME];
        let written = writer.write(&frame, &mut buffer, 0).expect("a good frame");
        if found.is_none() && lifts && place >= lost {
            found = Some(place);
            out.write_all(&Event::DROPPED.to_bytes())?;
        } else {
            out.write_all(&buffer[..written.events as usize * RECORD])?;
        }
    }
    Ok(found)
}

#[cfg(test)]
mod tests {
    use super::*;
    use crate::events::ABS_MT_TRACKING_ID;
    use crate::programs::run;
    use crate::streams::Status;

    fn made(make: impl Fn(&mut Vec<u8>)) -> Vec<u8> {
        let mut out = Vec::new();
        make(&mut out);
        out
    }

    /// The output of an input that all of a program accepts.
    fn accepted(program: &str, input: &[u8]) -> Vec<u8> {
        made(|out| assert_eq!(run(program, input, out, io::sink()), Some(Status::Accepted)))
    }

    #[test]
    fn a_shift_is_written_recorded_and_replayed() {
        let sent = accepted("write_frames", &made(|out| frames(3_000, 1, out).unwrap()));
        let recording = accepted("record", &sent);
        assert!(recording.len() < 300_000, "{}", recording.len());
        let table = accepted("replay", &recording);
        assert_eq!(table, accepted("show_table", &sent));
        assert!(table.starts_with(b"following"));
    }

    /// Up to the loss the records are those of the frames, the lift is among what was lost, and from then on no table is shown.
    #[test]
    fn a_loss_hides_a_lift() {
        let all = accepted("write_frames", &made(|out| frames(3_000, 1, out).unwrap()));
        let sent = made(|out| assert!(records(3_000, 1, 1_500, out).unwrap().is_some_and(|place| place < 1_800)));
        let same = all.chunks(RECORD).zip(sent.chunks(RECORD)).take_while(|(a, b)| a == b).count() * RECORD;
        let (lost, dropped) = (&all[same..], &sent[same..same + RECORD]);
        assert_eq!(dropped, Event::DROPPED.to_bytes());
        let mut frame = lost.chunks(RECORD).take_while(|record| **record != Event::REPORT.to_bytes());
        assert!(frame.any(|record| *record == Event::abs(ABS_MT_TRACKING_ID, -1).to_bytes()));
        assert!(accepted("show_table", &sent[..same + RECORD]).starts_with(b"dropped"));
        assert!(accepted("replay", &accepted("record", &sent)).starts_with(b"stale"));
    }

    #[test]
    fn a_shift_without_a_lift_has_no_such_loss() {
        assert_eq!(records(2, 1, 1, &mut io::sink()).unwrap(), None);
    }
}
