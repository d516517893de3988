//! What K2 asks: blocks made, laid and read, each in the ways that their edges have.

use super::{Tally, Words};
use crate::recorder::{BLOCK, FULL};
use crate::script::RecorderCall;

impl Tally {
    pub(super) fn count_recorder(&mut self, call: &RecorderCall, said: &Words) {
        let verdict = said.at(0);
        match call {
            RecorderCall::Block { number, records } if verdict == "0" => {
                self.note_when(records.len() == 8, "recorder_block: 1 event");
                self.note_when(records.len() == FULL, "recorder_block: 62 events");
                self.note_when(*number == u32::MAX, "recorder_block: the last number");
            }
            RecorderCall::Lay { records, .. } if verdict == "0" => {
                let (blocks, next) = (said.at(1), said.at(2));
                self.note(match blocks {
                    "0" => "recorder_lay: no block",
                    "1" => "recorder_lay: one block",
                    _ => "recorder_lay: several blocks",
                });
                let full = !records.is_empty() && records.len() % FULL == 0;
                self.note_when(full, "recorder_lay: all blocks are full");
                self.note_when(next == "0", "recorder_lay: the last number is used");
            }
            RecorderCall::Lay { records, .. } if verdict == "5" => {
                self.note(match said.at(3) {
                    "0" => "recorder_lay: no room, no need",
                    _ => "recorder_lay: no room, a need",
                });
                self.note_when(records.len() % 8 != 0, "recorder_lay: no room, ragged");
            }
            RecorderCall::Read { piece, .. } => match (verdict, said.at(2)) {
                ("0", "0") => self.note("recorder_read: no event"),
                ("0", "1") => self.note("recorder_read: 1 event"),
                ("0", "62") => self.note("recorder_read: 62 events"),
                ("1", _) if piece.len() < BLOCK => self.note("recorder_read: wrong check, fewer bytes"),
                ("1", _) if piece.len() > BLOCK => self.note("recorder_read: wrong check, more bytes"),
                ("1", _) => self.note("recorder_read: wrong check, 512 bytes"),
                _ => {}
            },
            _ => {}
        }
    }

    pub(super) fn note_when(&mut self, is_so: bool, what: &str) {
        if is_so {
            self.note(what);
        }
    }
}
