//! Mistakes in what K10 asks: how a packet is found, judged, read and written.

use second::force::{check, read, Answer, Force, PACKET, START};
use second::script::{marks, Call, ForceCall};

use crate::wrong::{answers, bytes_text, judges_early, refuses, takes, Wrong};

/// It reads otherwise: the bytes, the position, and the right answer with its place.
fn reads(name: &str, read_otherwise: impl Fn(&[u8], usize) -> (Answer, usize) + 'static) -> Wrong {
    answers(name, move |asked| {
        let Call::Force(ForceCall::Read { position, bytes }) = asked.call? else {
            return None;
        };
        let from = (*position).min(bytes.len() as u64) as usize;
        let (answer, next) = read_otherwise(bytes, from);
        let values = match answer {
            Answer::Report(f) => format!(" {} {} {} {} {} {}", f.x, f.y, f.throttle, f.buttons, f.hat, f.rudder),
            Answer::NotForUs { op, len } => format!(" {op} {len}"),
            _ => String::new(),
        };
        Some(format!("{}{values} {next}", answer.number()))
    })
}

/// The right answer, changed: the bytes, the answer, and where reading goes on.
fn after(name: &str, change: impl Fn(&[u8], &mut Answer, &mut usize) + 'static) -> Wrong {
    reads(name, move |bytes, from| {
        let (mut answer, mut next) = read(bytes, from as u64);
        change(bytes, &mut answer, &mut next);
        (answer, next)
    })
}

/// A report of other numbers.
fn other(name: &str, of: impl Fn(Force) -> Force + 'static) -> Wrong {
    after(name, move |_, answer, _| {
        if let Answer::Report(force) = answer {
            *force = of(*force);
        }
    })
}

/// The parts of a reading, so that a mistake is one of them changed.
#[derive(Clone, Copy)]
struct Parts {
    longest: u8,
    fits: fn(&[u8], u8) -> bool,
    is_ours: fn(u8, u8) -> bool,
    behind_refused: fn(usize, usize) -> usize,
    waits_for_all: bool,
}

const RIGHT: Parts = Parts {
    longest: 16,
    fits: |bytes, found| check(bytes) == found,
    is_ours: |op, len| (op, len) == (1, 8),
    behind_refused: |start, _| start + 1,
    waits_for_all: false,
};

impl Parts {
    fn read(&self, bytes: &[u8], from: usize) -> (Answer, usize) {
        let Some(start) = (from..bytes.len()).find(|i| bytes[*i] == START) else {
            return (Answer::Nothing, bytes.len());
        };
        let packet = &bytes[start..];
        if packet.len() < 3 {
            return (Answer::Unfinished, start);
        }
        let (op, len) = (packet[1], packet[2]);
        let end = 3 + usize::from(len);
        if len > self.longest && !(self.waits_for_all && packet.len() <= end) {
            return (Answer::LengthOver16, (self.behind_refused)(start, (start + end + 1).min(bytes.len())));
        }
        if packet.len() <= end {
            return (Answer::Unfinished, start);
        }
        if !(self.fits)(&packet[..end], packet[end]) {
            return (Answer::WrongCheck, (self.behind_refused)(start, start + end + 1));
        }
        let data: Vec<u8> = packet[3..end].iter().copied().chain([0; 8]).collect();
        if !(self.is_ours)(op, len) {
            return (Answer::NotForUs { op, len }, start + end + 1);
        }
        let force = Force {
            x: i16::from_le_bytes([data[0], data[1]]),
            y: i16::from_le_bytes([data[2], data[3]]),
            throttle: data[4],
            buttons: u16::from(data[5]) + 256 * u16::from(data[6] & 15),
            hat: data[6] >> 4,
            rudder: data[7] as i8,
        };
        (Answer::Report(force), start + end + 1)
    }
}

fn with(name: &str, change: impl Fn(&mut Parts)) -> Wrong {
    let mut parts = RIGHT;
    change(&mut parts);
    reads(name, move |bytes, from| parts.read(bytes, from))
}

/// The ways to read and write without a mistake.
pub fn right() -> Vec<Wrong> {
    vec![with("packets", |_| {}), writes("reports", |_| {}), after("answers", |_, _, _| {})]
}

fn packets() -> Vec<Wrong> {
    vec![
        with("LEN 16 is over 16", |parts| parts.longest = 15),
        with("LEN 17 is not over 16", |parts| parts.longest = 17),
        with("LEN is not judged", |parts| parts.longest = 255),
        with("a long LEN is told when its data is there", |parts| parts.waits_for_all = true),
        with("the check is not judged", |parts| parts.fits = |_, _| true),
        with("the 2B is not in the check", |parts| parts.fits = |bytes, found| check(&bytes[1..]) == found),
        with("the check is of the data alone", |parts| parts.fits = |bytes, found| check(&bytes[3..]) == found),
        with("the check is a sum", |parts| {
            parts.fits = |bytes, found| bytes.iter().fold(0, |sum: u8, byte| sum.wrapping_add(*byte)) == found;
        }),
        with("any LEN of OP 01 is a report", |parts| parts.is_ours = |op, _| op == 1),
        with("any OP of LEN 8 is a report", |parts| parts.is_ours = |_, len| len == 8),
        with("a wheel's OP 03 is a report", |parts| parts.is_ours = |op, len| matches!((op, len), (1 | 3, 8))),
        with("nothing is ours", |parts| parts.is_ours = |_, _| false),
        with("behind a refused packet reading goes on past it", |parts| parts.behind_refused = |_, end| end),
        with("behind a refused packet reading goes on at it", |parts| parts.behind_refused = |start, _| start),
        after("behind a long LEN reading goes on past it", |_, answer, next| {
            if *answer == Answer::LengthOver16 {
                *next += 2;
            }
        }),
        after("a report is read on at its check", |_, answer, next| {
            if let Answer::Report(_) = answer {
                *next -= 1;
            }
        }),
        after("what is not for us is read on at its second byte", |_, answer, next| {
            if let Answer::NotForUs { len, .. } = answer {
                *next -= usize::from(*len) + 3;
            }
        }),
        after("an unfinished packet is passed over", |bytes, answer, next| {
            if *answer == Answer::Unfinished {
                *next = bytes.len();
            }
        }),
        after("an unfinished packet is nothing", |_, answer, _| {
            if *answer == Answer::Unfinished {
                *answer = Answer::Nothing;
            }
        }),
        reads("a packet inside an unfinished one is sought", |bytes, from| {
            let mut at = from;
            loop {
                let (answer, next) = read(bytes, at as u64);
                if answer != Answer::Unfinished {
                    return if answer == Answer::Nothing { read(bytes, from as u64) } else { (answer, next) };
                }
                at = next + 1;
            }
        }),
        reads("bytes before a 2B are a wrong check", |bytes, from| match bytes.get(from) {
            Some(byte) if *byte != START && bytes[from..].contains(&START) => (Answer::WrongCheck, from + 1),
            _ => read(bytes, from as u64),
        }),
        reads("the position is passed over", |bytes, _| read(bytes, 0)),
        after("OP and LEN are swapped", |_, answer, _| {
            if let Answer::NotForUs { op, len } = answer {
                std::mem::swap(op, len);
            }
        }),
    ]
}

fn numbers() -> Vec<Wrong> {
    vec![
        other("x comes with its high byte first", |f| Force { x: f.x.swap_bytes(), ..f }),
        other("y comes with its high byte first", |f| Force { y: f.y.swap_bytes(), ..f }),
        other("x and y are swapped", |f| Force { x: f.y, y: f.x, ..f }),
        other("x has no sign", |f| Force { x: f.x & i16::MAX, ..f }),
        other("rudder has no sign", |f| Force { rudder: f.rudder & i8::MAX, ..f }),
        other("buttons have 8 bits", |f| Force { buttons: f.buttons & 255, ..f }),
        other("buttons have the hat above them", |f| Force { buttons: f.buttons | u16::from(f.hat) << 12, ..f }),
        other("the hat is the lower half", |f| Force {
            hat: (f.buttons >> 8) as u8,
            buttons: f.buttons & 255 | u16::from(f.hat) << 8,
            ..f
        }),
        other("throttle and rudder are swapped", |f| Force { throttle: f.rudder as u8, rudder: f.throttle as i8, ..f }),
        answers("a position past the end stays", |asked| match asked.call? {
            Call::Force(ForceCall::Read { position, bytes }) if *position > bytes.len() as u64 => {
                Some(format!("5 {position}"))
            }
            _ => None,
        }),
        takes("a position has 32 bits", |call| {
            if let Call::Force(ForceCall::Read { position, .. } | ForceCall::Write { position, .. }) = call {
                *position &= u64::from(u32::MAX);
            }
        }),
    ]
}

/// It writes another packet where it writes one.
fn writes(name: &str, change: impl Fn(&mut [u8; PACKET]) + 'static) -> Wrong {
    answers(name, move |asked| {
        let Call::Force(ForceCall::Write { force, position, size }) = asked.call? else {
            return None;
        };
        let mut buffer = marks(*size);
        force.write(&mut buffer, *position).ok()?;
        let packet = buffer[*position as usize..].first_chunk_mut().expect("a packet was written");
        change(packet);
        Some(format!("0 0 :{}", bytes_text(&buffer)))
    })
}

/// The same with a check that fits.
fn sends(name: &str, change: impl Fn(&mut [u8; PACKET]) + 'static) -> Wrong {
    writes(name, move |packet| {
        change(packet);
        packet[PACKET - 1] = check(&packet[..PACKET - 1]);
    })
}

fn force_of(call: &Call) -> Option<&Force> {
    match call {
        Call::Force(ForceCall::Write { force, .. }) => Some(force),
        _ => None,
    }
}

fn writers() -> Vec<Wrong> {
    vec![
        sends("x is sent with its high byte first", |packet| packet.swap(3, 4)),
        sends("y is sent with its high byte first", |packet| packet.swap(5, 6)),
        sends("the hat is sent in the lower half", |packet| packet[9] = packet[9].rotate_left(4)),
        sends("the buttons' upper bits are not sent", |packet| packet[9] &= 0xF0),
        sends("the hat is not sent", |packet| packet[9] &= 0x0F),
        sends("throttle and rudder are sent swapped", |packet| packet.swap(7, 10)),
        sends("OP 03 is sent", |packet| packet[1] = 3),
        writes("the check has no 2B", |packet| packet[PACKET - 1] ^= START),
        writes("the check is not sent", |packet| packet[PACKET - 1] = 0),
        takes("buttons over 4,095 are cut", |call| {
            if let Call::Force(ForceCall::Write { force, .. }) = call {
                force.buttons &= 4_095;
            }
        }),
        takes("a hat over 15 is cut", |call| {
            if let Call::Force(ForceCall::Write { force, .. }) = call {
                force.hat &= 15;
            }
        }),
        takes("4,096 is not over 4,095", |call| match call {
            Call::Force(ForceCall::Write { force, .. }) if force.buttons == 4_096 => force.buttons = 0,
            _ => {}
        }),
        refuses("4,095 is too many", 4, |call| force_of(call).is_some_and(|force| force.buttons == 4_095)),
        refuses("hat 15 is too many", 4, |call| force_of(call).is_some_and(|force| force.hat == 15)),
        judges_early("throttle over 127 is refused", 4, |call| {
            force_of(call).is_some_and(|force| force.throttle > 127)
        }),
        answers("room is judged first", |asked| match asked.call? {
            Call::Force(ForceCall::Write { position, size, .. }) => {
                let has_room = position.checked_add(PACKET as u64).is_some_and(|end| end <= *size as u64);
                (!has_room).then(|| format!("5 {PACKET} :{}", bytes_text(&marks(*size))))
            }
            _ => None,
        }),
        answers("a packet without room is cut", |asked| match asked.call? {
            Call::Force(ForceCall::Write { force, position, size }) if asked.right.starts_with("5 ") => {
                let mut buffer = marks(*size);
                let room = buffer.get_mut(usize::try_from(*position).ok()?..)?;
                let packet = force.packet().ok()?;
                let fits = room.len().min(PACKET);
                room[..fits].copy_from_slice(&packet[..fits]);
                Some(format!("5 {PACKET} :{}", bytes_text(&buffer)))
            }
            _ => None,
        }),
        answers("the need is told of accepted reports", |asked| {
            force_of(asked.call?)?;
            Some(asked.right.replacen("0 0 :", "0 12 :", 1))
        }),
        answers("the need is what is missing", |asked| match asked.call? {
            Call::Force(ForceCall::Write { position, size, .. }) if asked.right.starts_with("5 ") => {
                let room = (*size as u64).saturating_sub(*position);
                Some(asked.right.replacen("5 12", &format!("5 {}", PACKET as u64 - room), 1))
            }
            _ => None,
        }),
    ]
}

/// Each mistake of this file.
pub fn all() -> Vec<Wrong> {
    [packets(), numbers(), writers()].into_iter().flatten().collect()
}
