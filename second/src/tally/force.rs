//! What K10 asks: packets read in each way, and reports written or refused.

use super::{Tally, Words};
use crate::force::START;
use crate::script::ForceCall;

impl Tally {
    pub(super) fn count_force(&mut self, call: &ForceCall, said: &Words) {
        let verdict = said.at(0);
        match call {
            ForceCall::Read { position, bytes } => {
                let next: usize = said.0.last().and_then(|word| word.parse().ok()).unwrap_or(0);
                let from = (*position).min(bytes.len() as u64) as usize;
                let skipped = bytes.get(from) != Some(&START);
                self.note_when(verdict == "0" && skipped, "force_read: a report behind other bytes");
                self.note_when(verdict == "0" && next == bytes.len(), "force_read: a report at the end");
                self.note_when(verdict == "0" && said.at(1).starts_with('-'), "force_read: x below 0");
                self.note_when(verdict == "0" && said.at(6).starts_with('-'), "force_read: rudder below 0");
                self.note_when(verdict == "1" && said.at(1) == "1", "force_read: a report's OP is not for us");
                self.note_when(verdict == "1" && said.at(2) == "16", "force_read: length 16");
                let is_cut = verdict == "4" && bytes.len().saturating_sub(next) < 3;
                self.note_when(is_cut, "force_read: unfinished before its LEN");
                self.note_when(verdict == "5" && *position > bytes.len() as u64, "force_read: nothing past the end");
            }
            ForceCall::Write { force, .. } => {
                self.note_when(verdict == "4" && force.hat <= 15, "force_write: refused for the buttons alone");
                self.note_when(verdict == "4" && force.buttons <= 4_095, "force_write: refused for the hat alone");
                self.note_when(verdict == "0" && force.buttons > 255, "force_write: buttons of both bytes");
            }
        }
    }
}
