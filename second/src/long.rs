//! K14's long shift, as a script of docs/DRIVE.md: frames beside a held finger, refused ones among them, read by a first pupil, a crane, pieces and late pupils. What K14 claims is held at every frame.

use std::fmt;
use std::io::{self, Write};

use crate::events::*;
use crate::pieces::PieceReader;
use crate::pointer::Pointer;
use crate::random::Random;
use crate::reader::{Mode, Ran, Reader};
use crate::refusal::Refusal;
use crate::script::{marks, Call, Cut};
use crate::table::*;
use crate::writer::{Writer, Written, LARGEST_FRAME};

/// So many hands at the table; few, since each line of the script tells of all of them.
const HANDS: usize = 4;
const SETUP: Setup = Setup { slots: HANDS as u64, largest: [4000, 4000, 255, 255, 255] };

/// A shift of so many frames gives more ids than there are.
const LONG: u64 = 100_000;
const ALL_IDS: u64 = LARGEST_ID as u64 + 1;
/// The reader of pieces is given its bytes once there are so many: far fewer numbers than a line takes.
const MANY_BYTES: usize = 4_000;
/// For so many frames a late pupil is held beside the first.
const LATE_FRAMES: u64 = 10;

/// A frame into a buffer from a position on.
pub type WriteFrame = fn(&mut Writer, &[i32], &mut [u8], u64) -> Result<Written, Refusal>;

/// What the shift is made with. Each part is a function that can be another one, so that a mistake can be tried.
#[derive(Clone, Copy)]
pub struct Parts {
    pub write: WriteFrame,
    pub run: fn(&mut Reader, &[u8]) -> Result<Ran, Refusal>,
    pub load: fn(&mut Reader, &[i32], SlotNumber) -> Result<(), Refusal>,
    pub take: fn(&mut PieceReader, &[u8]) -> Result<Ran, Refusal>,
}

/// The rules.
pub const RIGHT: Parts = Parts { write: Writer::write, run: Reader::run, load: Reader::load, take: PieceReader::take };

/// Why a shift ended early: a write failed, or something does not hold, in words.
#[derive(Debug)]
pub enum Stopped {
    Io(io::Error),
    Wrong(String),
}

impl From<io::Error> for Stopped {
    fn from(error: io::Error) -> Stopped {
        Stopped::Io(error)
    }
}

impl From<String> for Stopped {
    fn from(words: String) -> Stopped {
        Stopped::Wrong(words)
    }
}

/// What makes a frame one to refuse.
#[derive(Clone, Copy, PartialEq, Eq, Debug)]
enum Spoilt {
    Length,
    Kind,
    Value,
    Pressure,
    Room,
    Position,
}

impl Spoilt {
    const ALL: [Spoilt; 6] =
        [Spoilt::Length, Spoilt::Kind, Spoilt::Value, Spoilt::Pressure, Spoilt::Room, Spoilt::Position];

    fn number(self) -> u8 {
        match self {
            Spoilt::Length => 3,
            Spoilt::Kind | Spoilt::Value | Spoilt::Pressure => 4,
            Spoilt::Room | Spoilt::Position => 5,
        }
    }
}

/// How much of everything there was.
#[derive(Clone, PartialEq, Eq, Debug, Default)]
pub struct Tally {
    pub frames: u64,
    /// By what spoilt them.
    pub refused: [u64; Spoilt::ALL.len()],
    pub landings: u64,
    pub late: u64,
    pub pieces: u64,
    pub calls: u64,
}

impl Tally {
    /// What such a shift must have and this one has not.
    pub fn missing(&self) -> Option<String> {
        let unseen = Spoilt::ALL.iter().zip(self.refused).find(|(_, count)| *count == 0);
        if let Some((spoilt, _)) = unseen {
            return Some(format!("no frame was refused for its {}", format!("{spoilt:?}").to_lowercase()));
        }
        if self.frames >= LONG && self.landings <= ALL_IDS {
            return Some(format!("{} landings, and not more than {ALL_IDS}", self.landings));
        }
        let counts = [(self.late, "no pupil came late"), (self.pieces, "nothing came in pieces")];
        counts.iter().find(|(count, _)| *count == 0).map(|(_, words)| words.to_string())
    }
}

impl fmt::Display for Tally {
    fn fmt(&self, f: &mut fmt::Formatter) -> fmt::Result {
        let refused: u64 = self.refused.iter().sum();
        let Tally { frames, landings, late, pieces, calls, .. } = self;
        write!(f, "{frames} frames, {refused} refused, {landings} landings, {late} late pupils, {pieces} pieces, {calls} calls")
    }
}

/// The pupil who is away again and again.
enum Late {
    /// Will lose something of the first frame from this one on.
    Here { until: u64 },
    /// Holds an old table.
    Away { reader: Reader, until: u64 },
    /// Has loaded, and follows.
    Back { reader: Reader, until: u64 },
}

struct Shift<'a, W> {
    parts: &'a Parts,
    out: &'a mut W,
    random: Random,
    writer: Writer,
    first: Reader,
    crane: Reader,
    pieces: PieceReader,
    late: Late,
    /// What the reader of pieces was not given yet.
    unread: Vec<u8>,
    /// What all runs of the first pupil told, and all pieces.
    ran: Ran,
    ran_in_pieces: Ran,
    tally: Tally,
}

/// Prints the script of so many frames. Each line's state is the one after the line before it, so where every line is answered the same, so is the whole shift.
pub fn script(parts: &Parts, frames: u64, seed: u64, pointer: bool, out: &mut impl Write) -> Result<Tally, Stopped> {
    let mut shift = Shift::new(parts, seed, pointer, out);
    let crane = SETUP.known_to(Layout::Crane);
    let fresh = [Call::Fresh(Layout::Panel, SETUP), Call::Fresh(Layout::Crane, crane), Call::PiecesFresh(SETUP)];
    shift.call(Call::New { setup: SETUP, pointer })?;
    fresh.into_iter().try_for_each(|call| shift.call(call))?;
    for _ in 0..frames {
        shift.tally.frames += 1;
        shift.frame()?;
    }
    shift.take_pieces()?;
    match shift.tally.missing() {
        Some(words) => Err(format!("of {frames} frames: {words}").into()),
        None => Ok(shift.tally),
    }
}

impl<'a, W: Write> Shift<'a, W> {
    fn new(parts: &'a Parts, seed: u64, pointer: bool, out: &'a mut W) -> Shift<'a, W> {
        let good = "a good setup";
        let crane = SETUP.known_to(Layout::Crane);
        Shift {
            parts,
            out,
            random: Random::new(seed),
            writer: Writer::fresh(SETUP, pointer).expect(good),
            first: Reader::fresh(Layout::Panel, SETUP).expect(good),
            crane: Reader::fresh(Layout::Crane, crane).expect(good),
            pieces: PieceReader::fresh(SETUP).expect(good),
            late: Late::Here { until: 10 },
            unread: Vec::new(),
            ran: Ran::NOTHING,
            ran_in_pieces: Ran::NOTHING,
            tally: Tally::default(),
        }
    }

    fn call(&mut self, call: Call) -> io::Result<()> {
        self.tally.calls += 1;
        writeln!(self.out, "{}", call.line())
    }

    fn wrong(&self, words: impl fmt::Display) -> Stopped {
        Stopped::Wrong(format!("frame {}: {words}", self.tally.frames))
    }

    fn hold(&self, is_so: bool, words: &str) -> Result<(), Stopped> {
        if is_so {
            Ok(())
        } else {
            Err(self.wrong(words))
        }
    }

    fn frame(&mut self) -> Result<(), Stopped> {
        let frame = self.made_frame();
        let need = self.need(&frame)?;
        if !self.random.once_in(10) {
            return self.good_frame(&frame, need);
        }
        // In turn, so that a short shift has all of them. A frame that changes nothing has room anywhere but past the end.
        let turn = self.tally.refused.iter().sum::<u64>() as usize % Spoilt::ALL.len();
        match Spoilt::ALL[turn] {
            Spoilt::Room if need == 0 => self.good_frame(&frame, need),
            spoilt => self.spoilt_frame(frame, need, spoilt),
        }
    }

    /// The bytes that a good frame takes, so that its buffer can be as small as that.
    fn need(&self, frame: &[i32]) -> Result<usize, Stopped> {
        let written = (self.parts.write)(&mut self.writer.clone(), frame, &mut [0; LARGEST_FRAME], 0);
        written.map(|written| written.events as usize * RECORD).map_err(|refusal| self.refused("the writer", refusal))
    }

    fn refused(&self, who: &str, refusal: Refusal) -> Stopped {
        self.wrong(format!("{who} refuses with {} what it is to take", refusal.number()))
    }

    fn made_frame(&mut self) -> Vec<i32> {
        let table = self.writer.table;
        (0..HANDS).flat_map(|s| self.row(s, &table)).collect()
    }

    /// The first hand lands before the others and never lifts; the others come and go.
    fn row(&mut self, s: usize, table: &Table) -> [i32; SLOT_NUMBERS] {
        let chance = self.random.below(10);
        let kind = match (s, table[s].id.is_live()) {
            (0, _) => 1,
            (_, false) if !table[0].id.is_live() || chance < 5 => 0,
            (_, false) => self.random.pick(&[1, 2]),
            (_, true) if chance < 3 => 0,
            (_, true) if chance < 6 => 2,
            (_, true) => 1,
        };
        if kind == 0 {
            // Its numbers are nobody's.
            let number = if self.random.once_in(20) { -5 } else { 0 };
            return [0, number, 0, 0, 0, number];
        }
        let begins = kind == 2 || !table[s].id.is_live();
        let numbers = self.numbers(&table[s], begins);
        [kind, numbers[0], numbers[1], numbers[2], numbers[3], numbers[4]]
    }

    /// A contact that begins is somewhere else; one that goes on stirs now and then.
    fn numbers(&mut self, old: &Slot, begins: bool) -> [i32; NUMBERS] {
        let mut numbers = old.numbers.map(|number| number as i32);
        for (i, number) in numbers.iter_mut().enumerate() {
            let is_place = i == X || i == Y;
            let is_new = if begins { is_place || self.random.once_in(4) } else { self.random.once_in(12) };
            if is_new || i == PRESSURE && *number == 0 {
                *number = self.random.from_to(1, SETUP.largest[i].into()) as i32;
            }
        }
        numbers
    }

    fn good_frame(&mut self, frame: &[i32], need: usize) -> Result<(), Stopped> {
        let position = self.random.below(9) as usize;
        let size = position + need + self.random.below(3) as usize;
        let before = self.writer.clone();
        self.call(Call::Write { writer: before.clone(), position: position as u64, size, frame: frame.to_vec() })?;
        let mut buffer = marks(size);
        let written = (self.parts.write)(&mut self.writer, frame, &mut buffer, position as u64);
        let written = written.map_err(|refusal| self.refused("the writer", refusal))?;
        self.hold(written.events as usize * RECORD == need, "the writer sends more or less than into a larger buffer")?;
        let pairs = before.table.iter().zip(&self.writer.table);
        self.tally.landings += pairs.filter(|(old, new)| new.id.is_live() && new.id != old.id).count() as u64;
        let bytes = &buffer[position..position + need];
        self.check_writer(&before, frame, bytes)?;
        self.read(bytes)
    }

    fn spoilt_frame(&mut self, mut frame: Vec<i32>, need: usize, spoilt: Spoilt) -> Result<(), Stopped> {
        let s = self.random.below(HANDS as u64) as usize * SLOT_NUMBERS;
        let number = self.random.below(NUMBERS as u64) as usize;
        let (mut position, mut size) = (self.random.below(9), self.random.below(25) as usize);
        match spoilt {
            Spoilt::Length => frame.resize(self.random.pick(&[0, 4, 6 * HANDS - 1, 6 * HANDS + 1, 6 * HANDS + 6]), 1),
            Spoilt::Kind => frame[s] = self.random.pick(&[3, -1, 255, i32::MIN, i32::MAX]),
            Spoilt::Value => {
                frame[s] = self.random.pick(&[1, 2]);
                frame[s + 1 + number] = self.random.pick(&[SETUP.largest[number] as i32 + 1, -1, 65_536, i32::MAX]);
            }
            Spoilt::Pressure => {
                frame[s] = self.random.pick(&[1, 2]);
                frame[s + 1 + PRESSURE] = 0;
            }
            Spoilt::Room => size = position as usize + need - 1 - self.random.below(need.min(12) as u64) as usize,
            Spoilt::Position => position = size as u64 + self.random.pick(&[1, 8, 1 << 32, u64::MAX - size as u64]),
        }
        self.refused_frame(&frame, size, position, spoilt)
    }

    fn refused_frame(&mut self, frame: &[i32], size: usize, position: u64, spoilt: Spoilt) -> Result<(), Stopped> {
        let before = self.writer.clone();
        self.call(Call::Write { writer: before.clone(), position, size, frame: frame.to_vec() })?;
        let mut buffer = marks(size);
        let written = (self.parts.write)(&mut self.writer, frame, &mut buffer, position);
        let number = written.err().map_or(0, Refusal::number);
        self.hold(number == spoilt.number(), "the writer does not refuse this frame by its number")?;
        self.hold(self.writer == before, "a refused frame changed the writer")?;
        self.hold(buffer == marks(size), "a refused frame changed the buffer")?;
        self.tally.refused[spoilt as usize] += 1;
        Ok(())
    }

    fn check_writer(&self, before: &Writer, frame: &[i32], bytes: &[u8]) -> Result<(), Stopped> {
        self.hold(!share_an_id(&self.writer.table), "two live contacts of the writer share an id")?;
        let (old, new) = (before.table[0].id, self.writer.table[0].id);
        self.hold(new == old || !old.is_live(), "the held finger has another id")?;
        if !before.pointer.on {
            return Ok(());
        }
        let mut plain = Writer { pointer: Pointer::OFF, ..before.clone() };
        let mut buffer = [0; LARGEST_FRAME];
        let written = (self.parts.write)(&mut plain, frame, &mut buffer, 0);
        let sent = written.map_err(|refusal| self.refused("the writer without a display", refusal))?.events;
        self.hold(plain.table == self.writer.table, "the emulated events change the writer's table")?;
        let bare = buffer[..sent as usize * RECORD] == without_emulated(bytes);
        self.hold(bare, "without the emulated events the writer sends something else")
    }

    /// Everybody is given what was written.
    fn read(&mut self, bytes: &[u8]) -> Result<(), Stopped> {
        let before = self.first.clone();
        let (reader, ran) = self.run_by("the first pupil", before.clone(), bytes)?;
        self.ran.add(ran);
        if self.writer.pointer.on {
            let mut bare = before.clone();
            let ran = (self.parts.run)(&mut bare, &without_emulated(bytes));
            self.hold(ran.is_ok() && bare == reader, "the emulated events change the first pupil")?;
        }
        self.first = reader;
        self.crane = self.run_by("the crane", self.crane.clone(), bytes)?.0;
        self.go_on_late(before, bytes)?;
        self.unread.extend(bytes);
        if self.unread.len() < MANY_BYTES {
            return Ok(());
        }
        self.take_pieces()
    }

    /// One who follows is given a frame's bytes; how it is then, and what it told.
    fn run_by(&mut self, who: &str, mut reader: Reader, bytes: &[u8]) -> Result<(Reader, Ran), Stopped> {
        self.call(Call::Run { reader: reader.clone(), bytes: bytes.to_vec() })?;
        let ran = (self.parts.run)(&mut reader, bytes).map_err(|refusal| self.refused(who, refusal))?;
        self.check_reader(who, &reader)?;
        let due = due(reader.layout, self.writer.pointer.on, bytes);
        self.hold(ran == due, &format!("{who} counts {ran:?}, and not {due:?}"))?;
        Ok((reader, ran))
    }

    fn check_reader(&self, who: &str, reader: &Reader) -> Result<(), Stopped> {
        let table = self.writer.table.map(|slot| slot.known_to(reader.layout));
        for (is_so, words) in [
            (reader.mode == Mode::Following, "does not follow"),
            (!share_an_id(&reader.shown), "shows two live contacts with one id"),
            (reader.shown == table, "does not show the writer's table"),
            (reader.pending == reader.shown, "has something pending"),
            (reader.current == self.writer.current, "has not the writer's current slot"),
        ] {
            self.hold(is_so, &format!("{who} {words}"))?;
        }
        Ok(())
    }

    /// The late pupil's part of a frame; `before` is a pupil who has not read it yet.
    fn go_on_late(&mut self, before: Reader, bytes: &[u8]) -> Result<(), Stopped> {
        let now = self.tally.frames;
        let late = std::mem::replace(&mut self.late, Late::Here { until: 0 });
        self.late = match late {
            Late::Here { until } if now >= until && !bytes.is_empty() => {
                Late::Away { reader: self.lose(before, bytes)?, until: now + self.random.from_to(5, 60) }
            }
            Late::Away { reader, until } if now >= until => {
                Late::Back { reader: self.load(reader)?, until: now + LATE_FRAMES }
            }
            Late::Back { reader, until } => {
                let (reader, _) = self.run_by("the late pupil", reader, bytes)?;
                match now >= until {
                    true => Late::Here { until: now + self.random.from_to(300, 500) },
                    false => Late::Back { reader, until },
                }
            }
            late => late,
        };
        Ok(())
    }

    /// SYN_DROPPED stands somewhere before the report; the rest is ignored, and the old table is kept.
    fn lose(&mut self, before: Reader, bytes: &[u8]) -> Result<Reader, Stopped> {
        let at = self.random.below((bytes.len() / RECORD) as u64) as usize * RECORD;
        let bytes = [&bytes[..at], &Event::DROPPED.to_bytes(), &bytes[at..]].concat();
        let mut reader = before.clone();
        self.call(Call::Run { reader: before.clone(), bytes: bytes.clone() })?;
        (self.parts.run)(&mut reader, &bytes).map_err(|refusal| self.refused("the late pupil", refusal))?;
        let is_old = reader.mode == Mode::Stale && reader.shown == before.shown && reader.pending == before.shown;
        self.hold(is_old, "after a loss the late pupil is not stale with the old table")?;
        Ok(reader)
    }

    fn load(&mut self, mut reader: Reader) -> Result<Reader, Stopped> {
        let used = &self.writer.table[..HANDS];
        let image: Vec<i32> =
            used.iter().flat_map(|slot| [slot.id.0].into_iter().chain(slot.numbers.map(|n| n as i32))).collect();
        let current = self.writer.current;
        self.call(Call::Load { reader: reader.clone(), current, image: image.clone() })?;
        (self.parts.load)(&mut reader, &image, current).map_err(|refusal| self.refused("the late pupil", refusal))?;
        self.check_reader("the late pupil, having loaded,", &reader)?;
        self.tally.late += 1;
        Ok(reader)
    }

    /// In two calls, so that bytes are left over between calls too.
    fn take_pieces(&mut self) -> Result<(), Stopped> {
        let bytes = std::mem::take(&mut self.unread);
        let at = self.random.below(bytes.len() as u64 + 1) as usize;
        self.take(&bytes[..at])?;
        self.hold(
            self.pieces.held == (at % RECORD) as u64,
            "the reader of pieces holds more or less than is left over",
        )?;
        self.take(&bytes[at..])?;
        self.check_reader("the reader of pieces", &self.pieces.reader)?;
        let is_whole = self.pieces == PieceReader::of(self.first.clone());
        self.hold(is_whole, "the reader of pieces is not as the first pupil is")?;
        self.hold(self.ran_in_pieces == self.ran, "the counts of all pieces are not those of all frames")
    }

    fn take(&mut self, bytes: &[u8]) -> Result<(), Stopped> {
        let mut places = [0, 0].map(|_: u64| self.random.below(bytes.len() as u64 + 1));
        places.sort_unstable();
        let lengths = vec![places[0], places[1] - places[0], bytes.len() as u64 - places[1]];
        let cut = Cut { lengths, bytes: bytes.to_vec() };
        self.call(Call::PiecesTake { pieces: self.pieces.clone(), cut: cut.clone() })?;
        for piece in cut.pieces() {
            let ran = (self.parts.take)(&mut self.pieces, piece);
            let ran = ran.map_err(|refusal| self.refused("the reader of pieces", refusal))?;
            self.ran_in_pieces.add(ran);
            self.tally.pieces += 1;
        }
        Ok(())
    }
}

/// Said for itself, pair by pair, and not by the rules' own look at a table.
fn share_an_id(table: &Table) -> bool {
    let live: Vec<TrackingId> = table.iter().map(|slot| slot.id).filter(|id| id.is_live()).collect();
    (1..live.len()).any(|i| live[..i].contains(&live[i]))
}

fn is_emulated(event: &Event) -> bool {
    event.kind == EV_KEY || event.kind == EV_ABS && [ABS_X, ABS_Y].contains(&event.code)
}

fn without_emulated(bytes: &[u8]) -> Vec<u8> {
    events(bytes).filter(|event| !is_emulated(event)).flat_map(Event::to_bytes).collect()
}

/// What a run over a frame's bytes is to tell: one table, and K6's events skipped, by a crane the touch sizes too.
fn due(layout: Layout, pointer: bool, bytes: &[u8]) -> Ran {
    let is_size =
        |event: &Event| event.kind == EV_ABS && [ABS_MT_TOUCH_MAJOR, ABS_MT_TOUCH_MINOR].contains(&event.code);
    let is_skipped = |event: &Event| pointer && is_emulated(event) || layout == Layout::Crane && is_size(event);
    let skipped: Vec<Event> = events(bytes).filter(is_skipped).collect();
    let unknown_type = skipped.iter().filter(|event| event.kind == EV_KEY).count();
    Ran {
        shown: u64::from(!bytes.is_empty()),
        unknown_type: unknown_type as u64,
        unknown_code: (skipped.len() - unknown_type) as u64,
        first_skipped: skipped.first().map(|event| (event.kind, event.code)),
        ..Ran::NOTHING
    }
}

#[cfg(test)]
mod tests {
    use super::*;

    const ENOUGH: Tally = Tally { frames: LONG, refused: [1; 6], landings: ALL_IDS + 1, late: 1, pieces: 1, calls: 9 };

    #[test]
    fn a_shift_that_lacks_something() {
        assert_eq!(ENOUGH.missing(), None);
        assert_eq!(Tally { frames: LONG - 1, landings: 9, ..ENOUGH }.missing(), None);
        let mut refused = [1; 6];
        refused[Spoilt::Room as usize] = 0;
        for (lacking, words) in [
            (Tally { refused, ..ENOUGH }, "no frame was refused for its room"),
            (Tally { landings: ALL_IDS, ..ENOUGH }, "65536 landings, and not more than 65536"),
            (Tally { late: 0, ..ENOUGH }, "no pupil came late"),
            (Tally { pieces: 0, ..ENOUGH }, "nothing came in pieces"),
        ] {
            assert_eq!(lacking.missing().as_deref(), Some(words));
        }
    }
}
