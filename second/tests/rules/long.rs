//! The long shift: its lines are a chain, it says what there was, and every mistake around the rules is found by what it holds.

use std::io;

use second::events::*;
use second::long::{script, Parts, Stopped, Tally, WriteFrame, RIGHT};
use second::pieces::PieceReader;
use second::reader::{Mode, Ran, Reader};
use second::refusal::Refusal;
use second::script::{answer_line, Call};
use second::table::{Layout, SlotNumber, TrackingId};
use second::writer::{Writer, Written, LARGEST_FRAME};

const FRAMES: u64 = 2_000;

fn made(frames: u64, seed: u64, pointer: bool) -> (String, Tally) {
    let mut out = Vec::new();
    let tally = script(&RIGHT, frames, seed, pointer, &mut out).expect("the rules hold");
    (String::from_utf8(out).expect("a script is text"), tally)
}

/// The numbers of a state, behind the word of its line or the verdict of its answer.
fn state(line: &str, numbers: usize) -> Vec<&str> {
    line.split(' ').skip(1).take(numbers).collect()
}

/// Holds each state of one kind to what the line before it was answered; how many lines there are.
fn check_chain(script: &str, word: &str, numbers: usize) -> usize {
    let mut before: Option<String> = None;
    let lines = script.lines().filter(|line| line.split(' ').next() == Some(word));
    let mut count = 0;
    for line in lines {
        if let Some(before) = &before {
            assert_eq!(state(line, numbers), state(before, numbers), "{word} {count}");
        }
        let answer = answer_line(line.as_bytes());
        // Of more than one piece the last answer counts.
        before = answer.split(" / ").last().map(str::to_string);
        count += 1;
    }
    count
}

#[test]
fn each_line_goes_on_from_the_one_before() {
    for pointer in [false, true] {
        let (script, tally) = made(FRAMES, 7, pointer);
        assert_eq!(script.lines().count() as u64, tally.calls);
        assert!(script.lines().all(|line| Call::parse(line.as_bytes()).is_some()));
        assert_eq!(check_chain(&script, "write", 237) as u64, FRAMES);
        let accepted = (FRAMES - tally.refused.iter().sum::<u64>()) as usize;
        assert_eq!(check_chain(&script, "crane_run", 134), accepted);
        assert_eq!(check_chain(&script, "pieces_take", 400) as u64 * 3, tally.pieces);
        // The first pupil's run is the line behind a frame.
        let mut last = "";
        let mut firsts = String::new();
        for line in script.lines() {
            if last.starts_with("write ") && line.starts_with("run ") {
                firsts += &format!("{line}\n");
            }
            last = line;
        }
        assert_eq!(check_chain(&firsts, "run", 392), accepted);
        assert_eq!(script.lines().filter(|line| line.starts_with("load ")).count() as u64, tally.late);
    }
}

#[test]
fn the_same_seed_makes_the_same_shift() {
    assert_eq!(made(300, 5, true), made(300, 5, true));
    assert_ne!(made(300, 5, true).0, made(300, 6, true).0);
    assert_ne!(made(300, 5, true).0, made(300, 5, false).0);
}

#[test]
fn what_there_was() {
    let (_, tally) = made(FRAMES, 1, false);
    assert!(tally.refused.iter().all(|count| *count >= 20), "{tally}");
    // As many a frame as it takes for more than 65,536 in 100,000.
    assert!(tally.landings * 100_000 > FRAMES * 65_536, "{tally}");
    assert!(tally.late >= 3 && tally.pieces >= 20, "{tally}");
    assert!(tally.to_string().starts_with("2000 frames, "), "{tally}");
}

fn stopped(parts: &Parts, frames: u64, seed: u64, pointer: bool) -> Option<String> {
    match script(parts, frames, seed, pointer, &mut io::sink()) {
        Ok(_) => None,
        Err(Stopped::Wrong(words)) => Some(words),
        Err(Stopped::Io(error)) => panic!("{error}"),
    }
}

#[test]
fn too_few_frames_are_no_shift() {
    for (frames, words) in [(0, "of 0 frames: no frame was refused for its length"), (60, "of 60 frames: no ")] {
        let said = (1..10).filter_map(|seed| stopped(&RIGHT, frames, seed, false)).find(|said| said.starts_with(words));
        assert!(said.is_some(), "{frames} frames");
    }
}

/// Rules with one mistake around them, and what is to be said of it.
struct Mistake {
    name: &'static str,
    words: &'static str,
    parts: Parts,
    pointer: bool,
}

type Run = fn(&mut Reader, &[u8]) -> Result<Ran, Refusal>;
type Load = fn(&mut Reader, &[i32], SlotNumber) -> Result<(), Refusal>;
type Take = fn(&mut PieceReader, &[u8]) -> Result<Ran, Refusal>;

fn writes(name: &'static str, words: &'static str, write: WriteFrame) -> Mistake {
    Mistake { name, words, parts: Parts { write, ..RIGHT }, pointer: false }
}

fn runs(name: &'static str, words: &'static str, run: Run) -> Mistake {
    Mistake { name, words, parts: Parts { run, ..RIGHT }, pointer: false }
}

fn loads(name: &'static str, words: &'static str, load: Load) -> Mistake {
    Mistake { name, words, parts: Parts { load, ..RIGHT }, pointer: false }
}

fn takes(name: &'static str, words: &'static str, take: Take) -> Mistake {
    Mistake { name, words, parts: Parts { take, ..RIGHT }, pointer: false }
}

fn with_pointer(mistake: Mistake) -> Mistake {
    Mistake { pointer: true, ..mistake }
}

fn wrong_refusals() -> Vec<Mistake> {
    let is_changed = "a refused frame changed the writer";
    vec![
        writes("the counter goes on over a refused frame", is_changed, |writer, frame, buffer, position| {
            let written = writer.write(frame, buffer, position);
            writer.counter += u32::from(written.is_err());
            written
        }),
        writes("a frame without room is taken into the table", is_changed, |writer, frame, buffer, position| {
            let written = writer.write(frame, buffer, position);
            if let Err(Refusal::NoRoom { need: 1.. }) = written {
                writer.write(frame, &mut [0; LARGEST_FRAME], 0).expect("there is room");
            }
            written
        }),
        writes(
            "a byte is left in the buffer",
            "a refused frame changed the buffer",
            |writer, frame, buffer, position| {
                let written = writer.write(frame, buffer, position);
                if written.is_err() {
                    buffer.iter_mut().take(1).for_each(|byte| *byte += 1);
                }
                written
            },
        ),
        writes("pressure 0 is 1", "the writer does not refuse this frame by", |writer, frame, buffer, position| {
            let presses = |(i, number): (usize, &i32)| if i % 6 == 3 { (*number).max(1) } else { *number };
            let frame: Vec<i32> = frame.iter().enumerate().map(presses).collect();
            writer.write(&frame, buffer, position)
        }),
        writes("all are refused", "the writer refuses with 4 what it is to take", |_, _, _, _| Err(Refusal::Value)),
    ]
}

/// The id of a writer that begins again without a look at who is live.
fn restarted(id: i32) -> i32 {
    if id < 0 {
        id
    } else {
        id % 50
    }
}

fn wrong_ids() -> Vec<Mistake> {
    vec![
        writes("ids restart", "two live contacts of the writer share an id", |writer, frame, buffer, position| {
            let written = write_then(writer, frame, (buffer, position), |event| match event.code {
                ABS_MT_TRACKING_ID => Event { value: restarted(event.value), ..event },
                _ => event,
            })?;
            writer.table.iter_mut().for_each(|slot| slot.id = TrackingId(restarted(slot.id.0)));
            Ok(written)
        }),
        writes("all begin anew", "the held finger has another id", |writer, frame, buffer, position| {
            let anew = |(i, number): (usize, &i32)| if i % 6 == 0 && *number == 1 { 2 } else { *number };
            let frame: Vec<i32> = frame.iter().enumerate().map(anew).collect();
            writer.write(&frame, buffer, position)
        }),
    ]
}

fn wrong_bytes() -> Vec<Mistake> {
    let is_behind = "the first pupil has not the writer's current slot";
    let is_other = "the first pupil does not show the writer's table";
    let is_short = "the writer sends more or less than into a larger buffer";
    vec![
        writes("the current slot stays", is_behind, |writer, frame, buffer, position| {
            let current = writer.current;
            let written = writer.write(frame, buffer, position)?;
            writer.current = current;
            Ok(written)
        }),
        writes("y is sent as it is not", is_other, |writer, frame, buffer, position| {
            write_then(writer, frame, (buffer, position), |event| match event.code {
                ABS_MT_POSITION_Y => Event { value: event.value ^ 1, ..event },
                _ => event,
            })
        }),
        writes("a small buffer has one event fewer", is_short, |writer, frame, buffer, position| {
            let written = writer.write(frame, buffer, position)?;
            let fewer = u32::from(buffer.len() < LARGEST_FRAME && written.events > 0);
            Ok(Written { events: written.events - fewer, ..written })
        }),
    ]
}

fn is_x_of_a_display(event: &Event) -> bool {
    event.kind == EV_ABS && event.code == ABS_X
}

fn wrong_displays() -> Vec<Mistake> {
    let (is_other, is_mixed) = (
        "the emulated events change the writer's table",
        "without the emulated events the writer sends something else",
    );
    let mistakes = vec![
        writes("with the option ids are others", is_other, |writer, frame, buffer, position| {
            let mut other = writer.clone();
            other.counter += u32::from(writer.pointer.on);
            let written = other.write(frame, buffer, position)?;
            *writer = other;
            Ok(written)
        }),
        writes("ABS_X is sent as a slot's x", is_mixed, |writer, frame, buffer, position| {
            write_then(writer, frame, (buffer, position), |event| match is_x_of_a_display(&event) {
                true => Event { code: ABS_MT_POSITION_X, ..event },
                false => event,
            })
        }),
        runs("waits for the first button", "the emulated events change the first pupil", |reader, bytes| {
            let is_fresh = reader.shown.iter().all(|slot| !slot.id.is_live());
            match is_fresh && events(bytes).all(|event| event.kind != EV_KEY) {
                true => Ok(Ran::NOTHING),
                false => reader.run(bytes),
            }
        }),
        runs("buttons are ignored, and not skipped", "the first pupil counts Ran", |reader, bytes| {
            let ran = reader.run(bytes)?;
            Ok(Ran { unknown_type: 0, ignored: ran.ignored + ran.unknown_type, ..ran })
        }),
    ];
    mistakes.into_iter().map(with_pointer).collect()
}

/// A writer that tells a display without the option, and readers who take it for what it stands for.
fn told_without_the_option() -> Mistake {
    let parts = Parts {
        write: |writer, frame, buffer, position| {
            write_then(writer, frame, (buffer, position), |event| match event.code {
                ABS_MT_TOUCH_MINOR => Event { code: ABS_X, ..event },
                _ => event,
            })
        },
        run: |reader, bytes| {
            let back = |event: Event| match is_x_of_a_display(&event) {
                true => Event { code: ABS_MT_TOUCH_MINOR, ..event },
                false => event,
            };
            let known: Vec<u8> = events(bytes).map(back).flat_map(Event::to_bytes).collect();
            let told = events(bytes).filter(is_x_of_a_display).count() as u64;
            let ran = reader.run(&known)?;
            Ok(Ran { unknown_code: ran.unknown_code + told, ..ran })
        },
        ..RIGHT
    };
    Mistake { name: "a display is told without the option", words: "the first pupil counts Ran", parts, pointer: false }
}

fn wrong_shows() -> Vec<Mistake> {
    let is_double = "the first pupil shows two live contacts with one id";
    vec![
        runs("shows at the first event", "the first pupil does not show the writer's table", |reader, bytes| {
            let (mut first, count) = (reader.pending, bytes.len() / RECORD);
            by_records(reader, bytes, |reader, place| {
                if place == 1 {
                    first = reader.pending;
                }
                if place == count {
                    reader.shown = first;
                }
            })
        }),
        runs("shows two slots with one id", is_double, |reader, bytes| {
            let ran = reader.run(bytes)?;
            if reader.shown[1].id.is_live() {
                reader.shown[1].id = reader.shown[0].id;
            }
            Ok(ran)
        }),
        runs("something is pending behind the report", "the first pupil has something pending", |reader, bytes| {
            let ran = reader.run(bytes)?;
            reader.pending[0].numbers[0] ^= 1;
            Ok(ran)
        }),
    ]
}

fn wrong_readers() -> Vec<Mistake> {
    vec![
        runs("a frame ends at slot 0", "the first pupil has not the writer's current slot", |reader, bytes| {
            let ran = reader.run(bytes)?;
            reader.current = SlotNumber(0);
            Ok(ran)
        }),
        runs("a crane counts no sizes", "the crane counts Ran", |reader, bytes| {
            let ran = reader.run(bytes)?;
            Ok(if reader.layout == Layout::Crane { Ran { shown: ran.shown, ..Ran::NOTHING } } else { ran })
        }),
        runs("a crane is lost by a size", "the crane does not follow", |reader, bytes| {
            let ran = reader.run(bytes)?;
            if reader.layout == Layout::Crane && ran.unknown_code > 0 {
                reader.mode = Mode::Stale;
            }
            Ok(ran)
        }),
        runs(
            "a loss is passed over",
            "after a loss the late pupil is not stale with the old table",
            |reader, bytes| {
                let is_kept = |event: &Event| *event != Event::DROPPED;
                let kept: Vec<u8> = events(bytes).filter(is_kept).flat_map(Event::to_bytes).collect();
                reader.run(&kept)
            },
        ),
    ]
}

fn wrong_loads() -> Vec<Mistake> {
    let is_other = "the late pupil, having loaded, does not show the writer's table";
    vec![
        loads("keeps the current slot", "the late pupil, having loaded, has not the", |reader, image, current| {
            let old = reader.current;
            reader.load(image, current)?;
            reader.current = old;
            Ok(())
        }),
        loads("keeps contacts that have ended", is_other, |reader, image, current| {
            let old = reader.shown;
            reader.load(image, current)?;
            for (slot, old) in reader.shown.iter_mut().zip(old).filter(|(slot, _)| !slot.id.is_live()) {
                slot.id = old.id;
            }
            reader.pending = reader.shown;
            Ok(())
        }),
        loads("the old table is pending", "the late pupil, having loaded, has something", |reader, image, current| {
            let old = reader.pending;
            reader.load(image, current)?;
            reader.pending = old;
            Ok(())
        }),
        loads("stays stale", "the late pupil, having loaded, does not follow", |reader, image, current| {
            reader.load(image, current)?;
            reader.mode = Mode::Stale;
            Ok(())
        }),
        loads("is refused", "the late pupil refuses with 7 what it is to take", |_, _, _| Err(Refusal::NotStale)),
    ]
}

fn wrong_pieces() -> Vec<Mistake> {
    let (is_lost, is_other) =
        ("the reader of pieces holds more or less than", "the reader of pieces is not as the first pupil is");
    vec![
        takes("what is left over is lost", is_lost, |pieces, piece| {
            let ran = pieces.take(piece)?;
            *pieces = PieceReader::of(pieces.reader.clone());
            Ok(ran)
        }),
        takes("a piece begins at slot 0", "the reader of pieces ", |pieces, piece| {
            pieces.reader.current = SlotNumber(0);
            pieces.take(piece)
        }),
        takes("unused places keep a byte", is_other, |pieces, piece| {
            if pieces.held == 0 {
                pieces.bytes = [0; 7];
            }
            let ran = pieces.take(piece)?;
            if pieces.held == 0 {
                pieces.bytes[6] = 9;
            }
            Ok(ran)
        }),
        takes("a piece shows a table too many", "the counts of all pieces are not those", |pieces, piece| {
            let ran = pieces.take(piece)?;
            Ok(Ran { shown: ran.shown + u64::from(pieces.held == 0), ..ran })
        }),
        takes("a piece is refused", "the reader of pieces refuses with 2 what", |_, _| Err(Refusal::State)),
    ]
}

fn all() -> Vec<Mistake> {
    let of_writers = [wrong_refusals(), wrong_ids(), wrong_bytes(), wrong_displays(), vec![told_without_the_option()]];
    let of_readers = [wrong_shows(), wrong_readers(), wrong_loads(), wrong_pieces()];
    of_writers.into_iter().chain(of_readers).flatten().collect()
}

/// The rules' writer, and then what is changed in what it sent.
fn write_then(
    writer: &mut Writer,
    frame: &[i32],
    (buffer, position): (&mut [u8], u64),
    change: impl Fn(Event) -> Event,
) -> Result<Written, Refusal> {
    let written = writer.write(frame, buffer, position)?;
    for record in buffer[position as usize..].chunks_exact_mut(RECORD).take(written.events as usize) {
        let event = Event::from_bytes((&*record).try_into().expect("a record's bytes"));
        record.copy_from_slice(&change(event).to_bytes());
    }
    Ok(written)
}

/// The rules' run, record by record, and after each, by its place from 1 on, what is changed in the state.
fn by_records(reader: &mut Reader, bytes: &[u8], mut change: impl FnMut(&mut Reader, usize)) -> Result<Ran, Refusal> {
    let mut ran = reader.run(&[])?;
    for (i, record) in bytes.chunks(RECORD).enumerate() {
        ran.add(reader.run(record)?);
        change(reader, i + 1);
    }
    Ok(ran)
}

#[test]
fn every_mistake_is_found() {
    for Mistake { name, words, parts, pointer } in all() {
        for seed in [1, 2, 3] {
            let said = stopped(&parts, FRAMES, seed, pointer).unwrap_or_else(|| panic!("not found: {name}"));
            println!("{name}: {said}");
            assert!(said.starts_with("frame ") && said.contains(&format!(": {words}")), "{name}: {said}");
        }
    }
}

#[test]
fn without_a_mistake_nothing_is_found() {
    let right = Parts {
        write: |writer, frame, buffer, position| write_then(writer, frame, (buffer, position), |event| event),
        run: |reader, bytes| by_records(reader, bytes, |_, _| {}),
        ..RIGHT
    };
    for pointer in [false, true] {
        for seed in [1, 2, 3] {
            assert_eq!(stopped(&right, FRAMES, seed, pointer), None);
        }
    }
}
