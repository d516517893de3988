//! Calls that no line of a script is: an option over 1, a command or a report with a number that is too wide, and a block of another length.

use second::commands::Command;
use second::force::Force;
use second::random::Random;
use second::recorder::{self, BLOCK, FULL};
use second::refusal::Refusal;
use second::script::marks;
use second::table::{Layout, Setup, LIMITS};

use super::number;
use super::seen::Outcome;
use crate::answers::{command_numbers, numbers};
use crate::library::{self, Lent};
use crate::states::{Kind, VERSION};

/// One such call: its function, and what came of it.
pub fn call(random: &mut Random) -> Result<(&'static str, Outcome), String> {
    let (function, tried) = match random.below(4) {
        0 => ("writer_fresh", option(random)),
        1 => ("command_write", command(random)),
        2 => ("force_write", report(random)),
        _ => ("make_block", block(random)),
    };
    tried.map(|outcome| (function, outcome)).map_err(|why| format!("chandrulek_{function}: {why}"))
}

/// The outcome where the call was answered what is due.
fn due(what: String, due: u32, told: u32, outcome: Outcome) -> Result<Outcome, String> {
    match told == due {
        true => Ok(outcome),
        false => Err(format!("{what} was answered {told} and not {due}")),
    }
}

/// The same where a refusal is due that is no odd one.
fn refused(what: String, refusal: Refusal, told: u32) -> Result<Outcome, String> {
    due(what, number(refusal), told, Outcome::Refused(number(refusal)))
}

/// The same for what no line of a script has.
fn odd(what: String, refusal: Refusal, told: u32) -> Result<Outcome, String> {
    due(what, number(refusal), told, Outcome::Odd)
}

fn option(random: &mut Random) -> Result<Outcome, String> {
    let setup = Setup { slots: random.below(35), largest: LIMITS };
    let pointer = random.pick(&[2, 3, 255, 256, 257, 1 << 16, 1 << 31, u32::MAX]);
    let mut state = Lent::marks(Kind::Writer.length());
    let told = library::writer_fresh(&mut state, numbers(&setup), pointer)?;
    match setup.is_good(Layout::Panel) {
        false => refused(format!("a setup of n {}", setup.slots), Refusal::Setup, told),
        true => odd(format!("an option of {pointer}"), Refusal::State, told),
    }
}

/// A command that is none, to a pod that is good or not.
fn command(random: &mut Random) -> Result<Outcome, String> {
    let mut pod = [VERSION, Kind::Pod.number(), 1, 0, 0, 0, 0, 0, 0, 0, 0, 0];
    let is_broken = random.once_in(4);
    if is_broken {
        // A byte held that opens no report; or a wait that is none.
        (pod[2], pod[3]) = random.pick(&[(1, 1), (2, 0)]);
    }
    let numbers = no_command(random);
    // Often too short: the number is judged before the room.
    let mut buffer = Lent::of(&marks(random.below(10) as usize));
    let at = random.below(4);
    let (told, _) = library::command_write(&mut Lent::of(&pod), numbers, &mut buffer, at)?;
    let what = format!("the command {numbers:?} to the pod {pod:?}");
    match is_broken {
        true => refused(what, Refusal::State, told),
        false => odd(what, Refusal::Command, told),
    }
}

/// A number over 9; or a good command with one of its numbers made too wide.
fn no_command(random: &mut Random) -> [u32; 7] {
    // How many numbers it has, and in how many bits each.
    let (good, count, bits) = match random.below(8) {
        0 => (Command::Buttons(4), 1, 8),
        1 => (Command::Absolute { x: 1, y: 2 }, 2, 16),
        2 => (Command::Threshold { x: 1, y: 2 }, 2, 8),
        3 => (Command::Scale { x: 1, y: 2 }, 2, 8),
        4 => (Command::Load { x: 1, y: 2 }, 2, 16),
        5 => (Command::SetClock([1, 2, 3, 4, 5, 6]), 6, 8),
        _ => return [random.pick(&[10, 11, 255, 256, 265, 1 << 16, u32::MAX]); 7],
    };
    let mut numbers = command_numbers(&good);
    numbers[random.from_to(1, count) as usize] |= 1 << random.from_to(bits, 31);
    numbers
}

/// A report with any numbers, one of them often too wide.
fn report(random: &mut Random) -> Result<Outcome, String> {
    let mut report = [-1, 32_767, 255, 4_095, 15, -128];
    match random.below(4) {
        0 => {}
        // Buttons or a hat that their types hold, and the packet does not.
        1 => (report[3], report[4]) = random.pick(&[(4_096, 15), (65_535, 0), (0, 16), (4_095, 255)]),
        _ => {
            let which = random.below(6) as usize;
            let any = random.word() as i32;
            report[which] = random.pick(&[32_768, -32_769, 256, 65_536, 128, -129, -1, i32::MAX, i32::MIN, any]);
        }
    }
    let size = random.below(20) as usize;
    let at = random.below(6);
    let mut buffer = Lent::of(&marks(size));
    let (told, need) = library::force_write(report, &mut buffer, at)?;
    let what = format!("the report {report:?} at {at} of {size} bytes");
    let Some(force) = held(report) else { return odd(what, Refusal::Value, told) };
    let mut ours = marks(size);
    let written = force.write(&mut ours, at);
    if need != written.err().map_or(0, Refusal::need) || buffer.part() != ours {
        return Err(format!("{what} was answered a need of {need} and {:?}", buffer.part()));
    }
    let number = written.err().map_or(0, number);
    due(what, number, told, Outcome::of(number))
}

/// The report, where each number's type holds it.
fn held([x, y, throttle, buttons, hat, rudder]: [i32; 6]) -> Option<Force> {
    Some(Force {
        x: x.try_into().ok()?,
        y: y.try_into().ok()?,
        throttle: throttle.try_into().ok()?,
        buttons: buttons.try_into().ok()?,
        hat: hat.try_into().ok()?,
        rudder: rudder.try_into().ok()?,
    })
}

/// Events into a block that has its length or another.
fn block(random: &mut Random) -> Result<Outcome, String> {
    let length = random.pick(&[BLOCK, BLOCK, BLOCK - 1, BLOCK + 1, 0, 2 * BLOCK]);
    let first = random.pick(&[0, 1, 2, u32::MAX]);
    let count = random.pick(&[0, 8, 16, FULL, FULL + 8, 7, 9, FULL - 1]);
    let events: Vec<u8> = (0..count).map(|_| random.word() as u8).collect();
    let mut block = Lent::marks(length);
    let told = library::make_block(first, &events, &mut block)?;
    let what = format!("{count} bytes of events into block {first} of {length} bytes");
    if length != BLOCK {
        return odd(what, Refusal::State, told);
    }
    let made = recorder::block(first, &events);
    if made.is_ok_and(|made| made != block.part()) {
        return Err(format!("{what} made another block"));
    }
    let number = made.err().map_or(0, number);
    due(what, number, told, Outcome::of(number))
}
