//! Mistakes in a pod's reports: first bytes, lengths, bits, signs, what is judged of the state, and the wait for the self-test.

use second::pod::{length, Pod, Report, Stick, PLACES, SELF_TEST};
use second::refusal::Refusal;
use second::script::Call;

use crate::wrong::{pods, says, Wrong};

type Taken = Result<Report, Refusal>;

/// Whether the next byte is a first one.
fn is_at_first(pod: &Pod) -> bool {
    *pod == pod.without_bytes()
}

/// It takes a first byte for another.
fn first(name: &str, of: fn(u8) -> u8) -> Wrong {
    pods(name, move |pod, byte| {
        let is_first = is_at_first(pod);
        match pod.take(if is_first { of(byte) } else { byte }) {
            Ok(Report::More) if is_first => {
                pod.bytes[0] = byte;
                Ok(Report::More)
            }
            taken => taken,
        }
    })
}

/// It answers a first byte by this report.
fn first_is(byte: u8, report: Report) -> Wrong {
    pods(format!("first byte {byte:#04X} is {report:?}"), move |pod, taken| {
        let is_it = taken == byte && is_at_first(pod);
        let right = pod.take(taken);
        if is_it {
            Ok(report)
        } else {
            right
        }
    })
}

fn first_bytes() -> Vec<Wrong> {
    vec![
        first_is(0x00, Report::Down(0)),
        first_is(0x01, Report::BadByte),
        first_is(0x75, Report::BadByte),
        first_is(0x76, Report::Down(0x76)),
        first_is(0x7F, Report::Down(0x7F)),
        first_is(0x80, Report::Up(0)),
        first_is(0x81, Report::BadByte),
        first_is(0xF5, Report::BadByte),
        first_is(0xF6, Report::Up(0x76)),
        first_is(0xFC, Report::BadByte),
        first("0xFC is no report", |byte| if byte == 0xFC { 0 } else { byte }),
        first("0xFB is no report", |byte| if byte == 0xFB { 0 } else { byte }),
        first("0xF6 is 0xF7", |byte| if byte == 0xF6 { 0xF7 } else { byte }),
    ]
}

/// It says a report otherwise.
fn reports(name: impl Into<String>, other: impl Fn(Report) -> Report + 'static) -> Wrong {
    pods(name, move |pod, byte| pod.take(byte).map(&other))
}

fn said() -> Vec<Wrong> {
    vec![
        reports("a key that is let go has bit 7", |report| match report {
            Report::Up(key) => Report::Up(key | 0x80),
            other => other,
        }),
        reports("left is right", |report| match report {
            Report::Relative { left, right, dx, dy } => Report::Relative { left: right, right: left, dx, dy },
            other => other,
        }),
        reports("dx is dy", |report| match report {
            Report::Relative { left, right, dx, dy } => Report::Relative { left, right, dx: dy, dy: dx },
            other => other,
        }),
        reports("dx -128 is 127", |report| match report {
            Report::Relative { left, right, dx, dy } => Report::Relative { left, right, dx: dx.max(-127), dy },
            other => other,
        }),
        reports("dy -128 is -127", |report| match report {
            Report::Relative { left, right, dx, dy } => Report::Relative { left, right, dx, dy: dy.max(-127) },
            other => other,
        }),
        reports("dx has no sign", |report| match report {
            Report::Relative { left, right, dx, dy } => Report::Relative { left, right, dx: dx & 0x7F, dy },
            other => other,
        }),
        reports("dy has no sign", |report| match report {
            Report::Relative { left, right, dx, dy } => Report::Relative { left, right, dx, dy: dy & 0x7F },
            other => other,
        }),
        reports("x is y", |report| match report {
            Report::Absolute { flags, x, y } => Report::Absolute { flags, x: y, y: x },
            other => other,
        }),
        reports("x is low and high", |report| match report {
            Report::Absolute { flags, x, y } => Report::Absolute { flags, x: x.swap_bytes(), y },
            other => other,
        }),
        reports("y is low and high", |report| match report {
            Report::Absolute { flags, x, y } => Report::Absolute { flags, x, y: y.swap_bytes() },
            other => other,
        }),
        reports("x has 15 bits", |report| match report {
            Report::Absolute { flags, x, y } => Report::Absolute { flags, x: x & 0x7FFF, y },
            other => other,
        }),
        reports("y has 15 bits", |report| match report {
            Report::Absolute { flags, x, y } => Report::Absolute { flags, x, y: y & 0x7FFF },
            other => other,
        }),
        reports("flag d is lost", |report| match report {
            Report::Absolute { flags, x, y } => Report::Absolute { flags: flags & 7, x, y },
            other => other,
        }),
        reports("stick 1 comes first", |report| match report {
            Report::Sticks(zero, one) => Report::Sticks(one, zero),
            other => other,
        }),
        reports("stick 0 is stick 1", |report| match report {
            Report::Stick { which, stick } => Report::Stick { which: 1 - which, stick },
            other => other,
        }),
        reports("a position has three bits", |report| match report {
            Report::Stick { which, stick } => Report::Stick { which, stick: three_bits(stick) },
            Report::Sticks(zero, one) => Report::Sticks(zero, three_bits(one)),
            other => other,
        }),
        reports("a bad report is a bad byte", |report| match report {
            Report::BadReport => Report::BadByte,
            other => other,
        }),
    ]
}

fn three_bits(stick: Stick) -> Stick {
    Stick { position: stick.position & 7, ..stick }
}

/// It does not judge a bit of the byte at this place of a report.
fn unjudged(name: &str, firsts: std::ops::RangeInclusive<u8>, place: u64, bit: u8) -> Wrong {
    pods(format!("bit {bit} of {name} is not judged"), move |pod, byte| {
        let is_it = pod.is_well_formed() && pod.held > 0 && firsts.contains(&pod.bytes[0]);
        let is_last = is_it && pod.held + 1 == length(pod.bytes[0]);
        let mut byte = byte;
        if is_last && pod.held == place {
            byte &= !(1 << bit);
        } else if is_last {
            pod.bytes[place as usize] &= !(1 << bit);
        }
        pod.take(byte)
    })
}

fn bits() -> Vec<Wrong> {
    let mut all = Vec::new();
    for bit in 4..8 {
        all.push(unjudged("the flags", 0xF7..=0xF7, 1, bit));
    }
    for bit in 4..7 {
        all.push(unjudged("stick 0 of both", 0xFD..=0xFD, 1, bit));
        all.push(unjudged("stick 1 of both", 0xFD..=0xFD, 2, bit));
        all.push(unjudged("stick 0", 0xFE..=0xFE, 1, bit));
        all.push(unjudged("stick 1", 0xFF..=0xFF, 1, bit));
    }
    all
}

/// Judged by the first byte that can be.
fn at_once(pod: &mut Pod, byte: u8, opens: u8, bad: u8) -> Taken {
    if pod.is_well_formed() && pod.held == 1 && pod.bytes[0] == opens && byte & bad != 0 {
        *pod = pod.without_bytes();
        return Ok(Report::BadReport);
    }
    pod.take(byte)
}

fn steps() -> Vec<Wrong> {
    vec![
        pods("bad flags are told at once", |pod, byte| at_once(pod, byte, 0xF7, 0xF0)),
        pods("a bad first stick is told at once", |pod, byte| at_once(pod, byte, 0xFD, 0x70)),
        pods("a first byte inside a report begins anew", |pod, byte| {
            if pod.is_well_formed() && pod.held > 0 && byte >= 0xF7 {
                *pod = pod.without_bytes();
            }
            pod.take(byte)
        }),
        pods("an absolute report has five bytes", |pod, byte| {
            if pod.is_well_formed() && pod.held == 4 {
                pod.take(byte)?;
                return pod.take(0);
            }
            pod.take(byte)
        }),
        pods("a report leaves its bytes", |pod, byte| {
            let before = pod.bytes;
            let taken = pod.take(byte);
            if pod.held == 0 {
                pod.bytes = before;
            }
            taken
        }),
        pods("a bad report holds its last byte", |pod, byte| {
            let taken = pod.take(byte);
            if taken == Ok(Report::BadReport) && length(byte) > 1 {
                pod.take(byte)?;
            }
            taken
        }),
    ]
}

/// It takes a state that is not well formed for another.
fn states(name: &str, mend: impl Fn(&mut Pod) + 'static) -> Wrong {
    pods(name, move |pod, byte| {
        let mut mended = *pod;
        mend(&mut mended);
        if mended.is_well_formed() {
            *pod = mended;
        }
        pod.take(byte)
    })
}

fn clear(pod: &mut Pod, from: u64) {
    pod.bytes[(from.min(PLACES as u64) as usize)..].fill(0);
}

fn well_formed() -> Vec<Wrong> {
    vec![
        states("unused places are not judged", |pod| clear(pod, pod.held)),
        states("of the unused places the first alone is judged", |pod| clear(pod, pod.held.saturating_add(1))),
        states("the last place is not judged", |pod| pod.bytes[5] = if pod.held < 6 { 0 } else { pod.bytes[5] }),
        states("the places are not judged where none is held", |pod| clear(pod, if pod.held == 0 { 0 } else { 6 })),
        states("a whole report of two may be held", |pod| {
            if pod.held == 2 && pod.bytes[0] >= 0xFE {
                *pod = Pod { held: 1, bytes: [pod.bytes[0], 0, 0, 0, 0, 0], ..*pod };
            }
        }),
        states("a whole report of three may be held", |pod| {
            if pod.held == 3 && length(pod.bytes[0]) == 3 {
                *pod = Pod { held: 2, bytes: [pod.bytes[0], pod.bytes[1], 0, 0, 0, 0], ..*pod };
            }
        }),
        states("a whole report of six may be held", |pod| {
            if pod.held == 6 && pod.bytes[0] == 0xF7 {
                pod.held = 5;
                pod.bytes[5] = 0;
            }
        }),
        states("a whole report of seven may be held", |pod| pod.held -= u64::from(pod.held == 7)),
        states("a key may be held", |pod| {
            if pod.held == 1 && (0x01..=0x75).contains(&pod.bytes[0]) {
                *pod = pod.without_bytes();
            }
        }),
        states("a bad byte may be held", |pod| {
            if pod.held == 1 && matches!(pod.bytes[0], 0 | 0x80 | 0xF6) {
                *pod = pod.without_bytes();
            }
        }),
        states("how many are held is cut to 8 bits", |pod| pod.held &= 0xFF),
        states("how many are held is cut to 32 bits", |pod| pod.held &= 0xFFFF_FFFF),
        pods("a held byte is judged before the last one came", |pod, byte| {
            if pod.held > 1 && pod.bytes[0] == 0xF7 && pod.bytes[1] & 0xF0 != 0 {
                return Err(Refusal::State);
            }
            pod.take(byte)
        }),
    ]
}

/// It takes a byte right, and then waits otherwise: the pod before, the byte, the right report; whether it waits now.
fn waits(name: &str, then: impl Fn(&Pod, u8, Report) -> bool + 'static) -> Wrong {
    pods(name, move |pod, byte| {
        let before = *pod;
        let report = pod.take(byte)?;
        pod.waits = then(&before, byte, report);
        Ok(report)
    })
}

/// It ends the wait, besides where it is to, after such a byte or report.
fn ends_wait(name: &str, when: impl Fn(&Pod, u8, Report) -> bool + 'static) -> Wrong {
    waits(name, move |before, byte, report| {
        before.waits && report != Report::SelfTestPassed && !when(before, byte, report)
    })
}

/// It begins to wait again after such a byte or report.
fn begins_wait(name: &str, when: impl Fn(&Pod, u8, Report) -> bool + 'static) -> Wrong {
    waits(name, move |before, byte, report| {
        before.waits && report != Report::SelfTestPassed || when(before, byte, report)
    })
}

fn is_last(report: Report) -> bool {
    report != Report::More
}

fn when_it_waits() -> Vec<Wrong> {
    vec![
        ends_wait("a key that goes down ends the wait", |_, _, report| matches!(report, Report::Down(_))),
        ends_wait("a key that comes up ends the wait", |_, _, report| matches!(report, Report::Up(_))),
        ends_wait("key 112 that goes down ends the wait", |_, _, report| report == Report::Down(112)),
        ends_wait("a bad byte ends the wait", |_, _, report| report == Report::BadByte),
        ends_wait("a bad report ends the wait", |_, _, report| report == Report::BadReport),
        ends_wait("an absolute report ends the wait", |_, _, report| matches!(report, Report::Absolute { .. })),
        ends_wait("a relative report ends the wait", |_, _, report| matches!(report, Report::Relative { .. })),
        ends_wait("both sticks end the wait", |_, _, report| matches!(report, Report::Sticks(..))),
        ends_wait("a stick ends the wait", |_, _, report| matches!(report, Report::Stick { .. })),
        ends_wait("a report that begins ends the wait", |before, _, report| before.held == 0 && !is_last(report)),
        ends_wait("F0 inside a report ends the wait", |_, byte, report| byte == SELF_TEST && !is_last(report)),
        ends_wait("F0 at a report's end ends the wait", |before, byte, _| before.held > 0 && byte == SELF_TEST),
        waits("the self-test does not end the wait", |before, _, _| before.waits),
        begins_wait("a bad byte begins the wait anew", |_, _, report| report == Report::BadByte),
        begins_wait("a bad report begins the wait anew", |_, _, report| report == Report::BadReport),
        begins_wait("a whole report leaves a fresh pod", |before, _, report| before.held > 0 && is_last(report)),
        begins_wait("a key leaves a fresh pod", |_, _, report| matches!(report, Report::Up(_) | Report::Down(_))),
        begins_wait("F0 that is a key begins the wait anew", |_, _, report| report == Report::Up(112)),
        begins_wait("a report that begins begins the wait anew", |_, _, report| report == Report::More),
        says("a fresh pod does not wait", |call, words| {
            if *call == Call::Start {
                words[0] = "0".to_string();
            }
        }),
    ]
}

/// It takes a first byte for the self-test, or for none.
fn self_test(name: &str, is_it: impl Fn(&Pod, u8) -> Option<bool> + 'static) -> Wrong {
    pods(name, move |pod, byte| {
        let otherwise = is_it(pod, byte).filter(|_| is_at_first(pod));
        match (pod.take(byte)?, otherwise) {
            (Report::SelfTestPassed, Some(false)) => {
                pod.waits = true;
                Ok(Report::Up(byte - 0x80))
            }
            (_, Some(true)) => {
                pod.waits = false;
                Ok(Report::SelfTestPassed)
            }
            (right, _) => Ok(right),
        }
    })
}

fn self_tests() -> Vec<Wrong> {
    let mut all = vec![
        self_test("F0 is always a key", |_, byte| (byte == SELF_TEST).then_some(false)),
        self_test("F0 is always the self-test", |_, byte| (byte == SELF_TEST).then_some(true)),
        // The byte tells the release, and there might be another by the manual.
        self_test("F1 is the self-test too", |pod, byte| (pod.waits && byte == SELF_TEST + 1).then_some(true)),
        self_test("EF is the self-test too", |pod, byte| (pod.waits && byte == SELF_TEST - 1).then_some(true)),
        self_test("70 is the self-test too", |pod, byte| (pod.waits && byte == SELF_TEST & 0x7F).then_some(true)),
        self_test("any byte is the self-test while it waits", |pod, byte| {
            (pod.waits && length(byte) == 1).then_some(true)
        }),
        reports("the self-test is a key, and ends the wait", |report| match report {
            Report::SelfTestPassed => Report::Up(SELF_TEST - 0x80),
            other => other,
        }),
        reports("the self-test is a bad byte", |report| match report {
            Report::SelfTestPassed => Report::BadByte,
            other => other,
        }),
        reports("key 112 that comes up is a bad byte", |report| match report {
            Report::Up(112) => Report::BadByte,
            other => other,
        }),
        pods("F0 inside a report is the self-test, and the report goes on", |pod, byte| {
            if pod.is_well_formed() && pod.waits && pod.held > 0 && byte == SELF_TEST {
                pod.waits = false;
                return Ok(Report::SelfTestPassed);
            }
            pod.take(byte)
        }),
        pods("F0 inside a report is the self-test, and the report is lost", |pod, byte| {
            if pod.is_well_formed() && pod.waits && byte == SELF_TEST {
                *pod = pod.without_bytes();
            }
            pod.take(byte)
        }),
        pods("the self-test opens a longer report", |pod, byte| match pod.take(byte)? {
            Report::SelfTestPassed => {
                *pod = Pod { held: 1, bytes: [byte, 0, 0, 0, 0, 0], ..*pod };
                Ok(Report::More)
            }
            report => Ok(report),
        }),
    ];
    for place in 1..=PLACES as u64 {
        all.push(pods(format!("F0 at place {place} of a report is the self-test"), move |pod, byte| {
            if pod.is_well_formed() && pod.waits && pod.held == place && byte == SELF_TEST {
                *pod = Pod { waits: false, ..pod.without_bytes() };
                return Ok(Report::SelfTestPassed);
            }
            pod.take(byte)
        }));
    }
    all
}

/// It refuses a well-formed state.
fn refuses_state(name: &str, when: fn(&Pod) -> bool) -> Wrong {
    pods(name, move |pod, byte| if when(pod) { Err(Refusal::State) } else { pod.take(byte) })
}

fn states_that_wait() -> Vec<Wrong> {
    vec![
        refuses_state("a pod that waits holds nothing", |pod| pod.waits && pod.held > 0),
        refuses_state("a pod that holds nothing waits", |pod| !pod.waits && pod.held == 0),
        refuses_state("a pod that waits holds four bytes at most", |pod| pod.waits && pod.held > 4),
        states("a pod that waits may hold the self-test", |pod| {
            if pod.waits && pod.held == 1 && pod.bytes[0] == SELF_TEST {
                *pod = pod.without_bytes();
            }
        }),
        states("the self-test may be held", |pod| {
            if !pod.waits && pod.held == 1 && pod.bytes[0] == SELF_TEST {
                *pod = pod.without_bytes();
            }
        }),
        states("the places of a pod that waits are not judged", |pod| {
            if pod.waits && pod.held == 0 {
                clear(pod, 0);
            }
        }),
        pods("a refused F0 ends the wait", |pod, byte| {
            let taken = pod.take(byte);
            pod.waits &= !(taken.is_err() && byte == SELF_TEST);
            taken
        }),
        pods("a refusal gives back a pod that waits", |pod, byte| {
            let taken = pod.take(byte);
            pod.waits |= taken.is_err();
            taken
        }),
        pods("a refusal gives back a pod that does not wait", |pod, byte| {
            let taken = pod.take(byte);
            pod.waits &= taken.is_ok();
            taken
        }),
    ]
}

/// Each mistake of this file.
pub fn all() -> Vec<Wrong> {
    let of_reports = [first_bytes(), said(), bits(), steps(), well_formed()];
    let of_the_wait = [when_it_waits(), self_tests(), states_that_wait()];
    of_reports.into_iter().chain(of_the_wait).flatten().collect()
}
