//! `write_anonymous`: the frames of a type A panel as type B records.

use std::io::{self, Read, Write};

use super::*;

/// The records of a frame that is held, its SYN_REPORT among them. The rules set no limit, but memory does; a panel's frame has fewer than a hundred.
pub const MOST_RECORDS: usize = 4_096;
const LONGEST_FRAME: usize = MOST_RECORDS * RECORD;

/// The setup and every record that the frames of the input are sent as.
pub fn write_anonymous(input: impl Read, out: impl Write, err: impl Write) -> Status {
    let mut streams = Streams::new("write_anonymous", input, out, err);
    let done = send_panel(&mut streams);
    streams.end(done)
}

fn send_panel<R: Read, W: Write, E: Write>(streams: &mut Streams<R, W, E>) -> io::Result<()> {
    let Some(setup) = passed_setup(streams)? else {
        return Ok(());
    };
    let writer = Writer::fresh(setup, false).expect("a setup without a wrong number is good");
    let mut panel = Panel { writer, k: 1, seen: 0, is_too_long: false };
    let ended = loop {
        panel.send_held(streams)?;
        match streams.more()? {
            Came::More => {}
            ended => break ended,
        }
    };
    let is_whole = streams.input.held().is_empty() && !panel.is_too_long;
    if ended == Came::End && is_whole {
        return Ok(());
    }
    if ended == Came::End && !panel.is_too_long {
        // Without its SYN_REPORT it is refused, whatever else it has.
        panel.send(streams.input.held(), &mut streams.out, &mut streams.words)?;
    }
    send_loss(streams)
}

/// A panel in the middle of its input.
struct Panel {
    writer: Writer,
    /// The number of the frame whose records come.
    k: u64,
    /// How many of the held bytes were looked at, and have no SYN_REPORT.
    seen: usize,
    /// More of the frame came than is held, and the rest of it is let go.
    is_too_long: bool,
}

impl Panel {
    /// Sends the frames that are whole, and lets go what is not to be held.
    fn send_held<R: Read, W: Write, E: Write>(&mut self, streams: &mut Streams<R, W, E>) -> io::Result<()> {
        loop {
            let held = streams.input.held();
            let whole = held.len() / RECORD * RECORD;
            let is_end = |event: Event| (event.kind, event.code) == (EV_SYN, SYN_REPORT);
            let end = events(&held[self.seen..whole]).position(is_end).map(|i| self.seen + (i + 1) * RECORD);
            if !self.is_too_long && end.unwrap_or(held.len()) > LONGEST_FRAME {
                self.is_too_long = true;
                streams.words.at_least(Status::Refused);
                streams.words.line(&format!("frame {} refused: over {MOST_RECORDS} records", self.k));
            }
            let Some(end) = end else {
                let gone = if self.is_too_long { whole } else { 0 };
                streams.input.take(gone);
                self.seen = whole - gone;
                return Ok(());
            };
            if !self.is_too_long {
                self.send(&held[..end], &mut streams.out, &mut streams.words)?;
            }
            streams.input.take(end);
            (self.k, self.seen, self.is_too_long) = (self.k + 1, 0, false);
        }
    }

    fn send<E: Write>(&mut self, records: &[u8], out: &mut impl Write, words: &mut Words<E>) -> io::Result<()> {
        let mut buffer = [0; LARGEST_FRAME];
        match self.writer.write_anonymous(records, &mut buffer, 0) {
            Ok(written) => out.write_all(&buffer[..written.events as usize * RECORD])?,
            Err(refusal) => refuse_frame(words, self.k, refusal),
        }
        Ok(())
    }
}
