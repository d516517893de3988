//! What K13 asks of commands: each of them read and written, and each answer that is none of them.

use super::{Tally, Words};
use crate::commands::Command;
use crate::pod::Pod;
use crate::script::{CommandsCall, POD_NUMBERS};

impl Tally {
    pub(super) fn count_commands(&mut self, call: &CommandsCall, said: &Words) {
        match call {
            // The first word is where reading goes on, and the words of an answer come behind it.
            CommandsCall::Read { position, bytes } => {
                let words = match said.at(1) {
                    kind @ ("set" | "ask" | "refused") => format!("{kind} {}", said.at(2)),
                    "not" => "not for us".to_string(),
                    kind => kind.to_string(),
                };
                self.note(format!("commands_read {words}"));
                let is_past = words == "nothing" && *position > bytes.len() as u64;
                self.note_when(is_past, "commands_read: nothing past the end");
            }
            CommandsCall::Write { pod, command, .. } => {
                let verdict = said.at(0);
                self.note(format!("commands_write {verdict}"));
                let name = match command {
                    Command::Reset => "reset",
                    Command::Buttons(_) => "buttons",
                    Command::Relative => "relative",
                    Command::Absolute { .. } => "absolute",
                    Command::Threshold { .. } => "threshold",
                    Command::Scale { .. } => "scale",
                    Command::Where => "where",
                    Command::Load { .. } => "load",
                    Command::SetClock(_) => "set clock",
                    Command::AskClock => "ask clock",
                };
                self.note_when(verdict == "0", &format!("commands_write: {name} accepted"));
                self.note_when(verdict == "11", &format!("commands_write: {name} refused"));
                let is_reset = verdict == "0" && *command == Command::Reset;
                self.note_when(is_reset && *pod != Pod::FRESH, "commands_write: a reset changes the pod");
                let need = said.at(1 + POD_NUMBERS);
                self.note_when(verdict == "5" && !command.is_good(), "commands_write: no room for a bad command");
                self.note_when(verdict == "5" && need == "7", "commands_write: no room, need 7");
            }
        }
    }
}
