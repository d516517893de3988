//! A hold-to-lift key over the library: reads a device's events, loses some, loads the table and goes on. examples/c/panel.c is the same in C.
//!
//! It needs no device: the events stand below, as a read of /dev/input/eventN gives them in type, code and value of `struct input_event`.

use chandrulek::{Asked, Event, Reader, Refusal, Setup, Slot, SlotRecord, TrackingId};
use std::process::ExitCode;

// Linux's numbers, as <linux/input.h> has them.
const EV_SYN: u16 = 0;
const EV_ABS: u16 = 3;
const SYN_REPORT: u16 = 0;
const SYN_DROPPED: u16 = 3;
const ABS_MT_SLOT: u16 = 0x2f;
const ABS_MT_TOUCH_MAJOR: u16 = 0x30;
const ABS_MT_TOUCH_MINOR: u16 = 0x31;
const ABS_MT_POSITION_X: u16 = 0x35;
const ABS_MT_POSITION_Y: u16 = 0x36;
const ABS_MT_TRACKING_ID: u16 = 0x39;
const ABS_MT_PRESSURE: u16 = 0x3a;

const SLOTS: usize = 2;
const KEY: Slot = Slot(0);

/// A finger holds the key and moves; then events are lost, and with them its lift; another finger holds it, and lifts.
#[rustfmt::skip]
const EVENTS: [(u16, u16, i32); 16] = [
    (EV_ABS, ABS_MT_TRACKING_ID, 0), (EV_ABS, ABS_MT_POSITION_X, 100), (EV_ABS, ABS_MT_POSITION_Y, 200),
    (EV_ABS, ABS_MT_PRESSURE, 30), (EV_SYN, SYN_REPORT, 0),
    (EV_ABS, ABS_MT_POSITION_X, 104), (EV_SYN, SYN_REPORT, 0),
    (EV_SYN, SYN_DROPPED, 0),
    (EV_ABS, ABS_MT_POSITION_Y, 400), (EV_SYN, SYN_REPORT, 0),
    (EV_ABS, ABS_MT_SLOT, 0), (EV_ABS, ABS_MT_TRACKING_ID, 2), (EV_ABS, ABS_MT_PRESSURE, 40), (EV_SYN, SYN_REPORT, 0),
    (EV_ABS, ABS_MT_TRACKING_ID, -1), (EV_SYN, SYN_REPORT, 0),
];

/// What EVIOCGMTSLOTS gives after the loss: for each code that number of every slot.
const REQUESTS: [(u16, [i32; SLOTS]); 6] = [
    (ABS_MT_TRACKING_ID, [-1, 1]),
    (ABS_MT_POSITION_X, [104, 300]),
    (ABS_MT_POSITION_Y, [200, 400]),
    (ABS_MT_PRESSURE, [30, 30]),
    (ABS_MT_TOUCH_MAJOR, [0, 0]),
    (ABS_MT_TOUCH_MINOR, [0, 0]),
];
/// And EVIOCGABS of ABS_MT_SLOT.
const CURRENT: Slot = Slot(1);

/// The load may rise only while a finger is known to hold the key: empty and unknown are both no finger to lift by.
fn tell(when: &str, reader: &Reader) -> Result<Asked, Refusal> {
    let asked = reader.ask(KEY)?;
    match asked {
        Asked::Contact(SlotRecord { id: TrackingId(id), x, y, pressure, .. }) => {
            println!("{when}: contact {id} at {x}, {y}, pressure {pressure}: lift");
        }
        Asked::Empty => println!("{when}: empty: do not lift"),
        Asked::Unknown | Asked::NoSuchSlot => println!("{when}: unknown: do not lift"),
    }
    Ok(asked)
}

/// Each slot's numbers side by side, which are a row of the image.
fn load(reader: &mut Reader) -> Result<(), Refusal> {
    let mut image = [SlotRecord::UNUSED; SLOTS];
    for (code, values) in REQUESTS {
        for (row, value) in image.iter_mut().zip(values) {
            match code {
                ABS_MT_TRACKING_ID => row.id = TrackingId(value),
                ABS_MT_POSITION_X => row.x = value,
                ABS_MT_POSITION_Y => row.y = value,
                ABS_MT_PRESSURE => row.pressure = value,
                ABS_MT_TOUCH_MAJOR => row.major = value,
                _ => row.minor = value,
            }
        }
    }
    reader.load(&image, CURRENT)
}

fn read_event(reader: &mut Reader, event: Event) -> Result<(), Refusal> {
    reader.run(&event.to_bytes())?;
    match (event.kind, event.code) {
        (EV_SYN, SYN_DROPPED) => {
            tell("dropped", reader)?;
            // The report that ends the broken events is still to come.
            println!("load: refused {}", load(reader).map_or_else(Refusal::number, |()| 0));
        }
        (EV_SYN, SYN_REPORT) if tell("report", reader)? == Asked::Unknown => {
            load(reader)?;
            tell("loaded", reader)?;
        }
        _ => {}
    }
    Ok(())
}

fn read_all() -> Result<(), Refusal> {
    let setup = Setup { slots: SLOTS as u32, x: 4000, y: 4000, pressure: 255, major: 255, minor: 255 };
    let mut reader = Reader::fresh(setup)?;
    tell("fresh", &reader)?;
    for (kind, code, value) in EVENTS {
        read_event(&mut reader, Event { kind, code, value })?;
    }
    Ok(())
}

fn main() -> ExitCode {
    match read_all() {
        Ok(()) => ExitCode::SUCCESS,
        Err(refusal) => {
            eprintln!("panel: {refusal}");
            ExitCode::FAILURE
        }
    }
}
