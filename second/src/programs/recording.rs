//! The recorder's programs: `record` makes blocks of records, `replay` shows the table that they lead to.

use std::io::{self, Read, Write};

use super::*;
use crate::recorder::{self, Wrong, BLOCK, FULL};

/// The setup and the records of the input in blocks.
pub fn record(input: impl Read, out: impl Write, err: impl Write) -> Status {
    let mut streams = Streams::new("record", input, out, err);
    let done = write_blocks(&mut streams);
    streams.end(done)
}

/// Why no block follows.
enum Stop {
    Write(io::Error),
    /// The last number is used.
    NoNumber,
}

impl From<io::Error> for Stop {
    fn from(error: io::Error) -> Stop {
        Stop::Write(error)
    }
}

fn write_blocks<R: Read, W: Write, E: Write>(streams: &mut Streams<R, W, E>) -> io::Result<()> {
    let Some(_) = passed_setup(streams)? else {
        return Ok(());
    };
    match record_all(streams) {
        Ok(()) => Ok(()),
        Err(Stop::Write(error)) => Err(error),
        Err(Stop::NoNumber) => {
            // What came before it is recorded.
            streams.out.flush()?;
            streams.words.at_least(Status::Refused);
            streams.words.line(&format!("refused {}", Refusal::Value.number()));
            streams.words.say(&format!(
                "block numbers end at {}, so the rest is not recorded: go on in a new recording",
                u32::MAX
            ));
            Ok(())
        }
    }
}

fn record_all<R: Read, W: Write, E: Write>(streams: &mut Streams<R, W, E>) -> Result<(), Stop> {
    let mut number = Some(1);
    let ended = streams
        .units(FULL, |run, out, _| run.chunks(FULL).try_for_each(|events| put_block(&mut number, events, out)))?;
    let held = streams.input.held();
    let cut = held.len() % RECORD;
    let mut rest = held[..held.len() - cut].to_vec();
    // Less than a block is held, so it has room for one event more.
    if ended == Came::Lost {
        rest.extend(Event::DROPPED.to_bytes());
    }
    if !rest.is_empty() {
        put_block(&mut number, &rest, &mut streams.out)?;
    }
    // What is said to have been recorded has to be.
    streams.out.flush()?;
    if ended == Came::Lost {
        streams.words.say("input was lost, so SYN_DROPPED was recorded");
    } else if cut > 0 {
        streams.words.at_least(Status::Refused);
        streams.words.line(&format!("refused {}", Refusal::Ragged.number()));
        streams.words.say(&format!("the last record is cut: {cut} of {RECORD} bytes"));
    }
    Ok(())
}

/// Writes the block of that number, where there is one, and counts on.
fn put_block(number: &mut Option<u32>, events: &[u8], out: &mut impl Write) -> Result<(), Stop> {
    let this = number.ok_or(Stop::NoNumber)?;
    *number = this.checked_add(1);
    Ok(out.write_all(&recorder::block(this, events).expect("1 to 62 records and a number"))?)
}

/// What `show_table` says of the events of the blocks, a refused block being a loss.
pub fn replay(input: impl Read, out: impl Write, err: impl Write) -> Status {
    let mut streams = Streams::new("replay", input, out, err);
    let done = read_blocks(&mut streams);
    streams.end(done)
}

fn read_blocks<R: Read, W: Write, E: Write>(streams: &mut Streams<R, W, E>) -> io::Result<()> {
    let setup = match setup(streams, Layout::Panel)? {
        Ok(setup) => setup,
        Err(wrong) => {
            refused(streams, Refusal::Setup)?;
            refuse_setup(&mut streams.words, &wrong);
            return Ok(());
        }
    };
    let mut reader = Reader::fresh(Layout::Panel, setup).expect("a setup without a wrong number is good");
    let (mut read, mut place) = (Followed::default(), Place { came: 0, refused: 0 });
    let ended = streams.units(BLOCK, |run, _, words| -> io::Result<()> {
        run.chunks(BLOCK).for_each(|piece| place.take(piece, &mut reader, &mut read, words));
        Ok(())
    })?;
    if ended == Came::Lost {
        lose(streams, &mut reader);
    } else if !streams.input.held().is_empty() {
        place.take(streams.input.held(), &mut reader, &mut read, &mut streams.words);
    }
    if place.refused > 0 {
        streams.words.say(
            "a refused block counts as SYN_DROPPED: from there on every slot is unknown; make the recording anew, or \
             load a full table",
        );
    }
    show(streams, &reader, &read)
}

/// How many blocks came, and how many of them were refused.
struct Place {
    came: u64,
    refused: u64,
}

impl Place {
    /// The next block, good or refused.
    fn take<E: Write>(&mut self, piece: &[u8], reader: &mut Reader, read: &mut Followed, words: &mut Words<E>) {
        self.came += 1;
        let block = match (u32::try_from(self.came), recorder::read(0, piece)) {
            (Ok(number), _) => recorder::read(number, piece),
            // Past the last number none is right, whatever stands there.
            (Err(_), Err(Wrong::Check)) => Err(Wrong::Check),
            (Err(_), _) => Err(Wrong::Number),
        };
        match block {
            Ok(events) => {
                let ran = reader.run(events).expect(WELL_FORMED);
                read.note(Layout::Panel, (events.len() / RECORD) as u64, &ran);
            }
            Err(wrong) => {
                words.at_least(Status::Refused);
                words.line(&format!("block {} refused: {}", self.came, wrong.name()));
                self.refused += 1;
                reader.one(Event::DROPPED).expect(WELL_FORMED);
            }
        }
    }
}
