//! What the answers to pieces tell: how records were cut, what was left over, and what came of them.

use super::reading::COUNTS;
use super::{mode_name, Tally, Words};
use crate::events::RECORD;
use crate::pieces::PieceReader;
use crate::script::{Call, Cut, PIECES_NUMBERS};

/// Where the counts stand behind the verdict and the state, and what was skipped first behind them.
const RAN: usize = PIECES_NUMBERS + 1;
const FIRST: usize = RAN + COUNTS.len();

impl Tally {
    /// The answers to the pieces, one after the other.
    pub(super) fn count_pieces(&mut self, pieces: &PieceReader, cut: &Cut, answer: &str) {
        let steps: Vec<Words> = answer.split(" / ").map(Words::of).collect();
        let verdict = steps.first().map_or("", |step| step.at(0));
        self.note(format!("pieces_take {verdict}"));
        if verdict != "0" {
            return;
        }
        self.count_cuts(pieces.held, cut);
        for step in &steps {
            for (i, what) in COUNTS.iter().enumerate() {
                if !matches!(step.at(RAN + i), "" | "0") {
                    self.note(format!("pieces_take: {what}"));
                }
            }
        }
        let names = |step: &Words| !matches!(step.at(FIRST), "" | "none");
        if steps.len() > 1 && !names(&steps[0]) && steps[1..].iter().any(names) {
            self.note("pieces_take: skipped first in a later piece");
        }
        if let Some(after) = steps.last().and_then(state_of) {
            self.note(format!("pieces_take: ends {}", mode_name(after.reader.mode)));
            self.note(match after.held {
                0 => "pieces_take: nothing is left over".to_string(),
                held => format!("pieces_take: {held} left over"),
            });
        }
    }

    /// How the records lie in the pieces.
    fn count_cuts(&mut self, held: u64, cut: &Cut) {
        let record = RECORD as u64;
        let mut begun = held;
        // How many pieces, held bytes among them, the record that is begun has come in.
        let mut came_in = u64::from(held > 0);
        for length in &cut.lengths {
            let end = begun + length;
            if *length == 0 {
                self.note("pieces_take: an empty piece");
            } else if end < record {
                self.note("pieces_take: a piece that ends no record");
            } else if begun > 0 {
                self.note(match came_in {
                    1 => "pieces_take: a record over two pieces",
                    _ => "pieces_take: a record over three pieces or more",
                });
                if end % record > 0 {
                    self.note("pieces_take: a piece that ends a record and begins one");
                }
            }
            came_in = match end {
                _ if *length == 0 => came_in,
                _ if end % record == 0 => 0,
                _ if end < record => came_in + 1,
                _ => 1,
            };
            begun = end % record;
        }
    }

    /// A load between two pieces.
    pub(super) fn count_between(&mut self, pieces: &PieceReader, said: &Words) {
        let is_kept = state_of(said).is_some_and(|after| after.held == pieces.held && after.bytes == pieces.bytes);
        if said.at(0) == "0" && pieces.held > 0 && is_kept {
            self.note("pieces_load: accepted, and bytes stay left over");
        }
    }
}

/// The state behind a verdict.
fn state_of(said: &Words) -> Option<PieceReader> {
    match said.as_call("pieces_ask", PIECES_NUMBERS, "0") {
        Some(Call::PiecesAsk { pieces, .. }) => Some(pieces),
        _ => None,
    }
}
