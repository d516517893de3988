//! Mistakes in how a line is read: its limits, its word, its spaces and its numbers.

use second::script::{answer_line, head_numbers, layout_of, setup_numbers, Call};
use second::script::{
    BAD_LINE, BEFORE_POINTER, CRANE, LARGEST_BUFFER, LONGEST_LINE, MOST_NUMBERS, PIECES, PIECES_NUMBERS, POD_NUMBERS,
};
use second::table::Layout;

use crate::wrong::{answers, Wrong};

const NAMES: [&str; 20] = [
    "fresh",
    "new",
    "run",
    "one",
    "load",
    "ask",
    "good",
    "write",
    "start",
    "pod",
    "crane_fresh",
    "crane_run",
    "crane_one",
    "crane_load",
    "crane_ask",
    "crane_good",
    "pieces_fresh",
    "pieces_take",
    "pieces_load",
    "pieces_ask",
];

/// It reads a line that is no call as another line.
fn forgives(name: &str, other: impl Fn(&str) -> Option<String> + 'static) -> Wrong {
    answers(name, move |asked| match asked.call {
        None => other(asked.line).map(|line| answer_line(line.as_bytes())),
        Some(_) => None,
    })
}

/// It takes no call of that kind.
fn minds(name: &str, when: impl Fn(&str, &Call) -> bool + 'static) -> Wrong {
    answers(name, move |asked| when(asked.line, asked.call?).then(|| BAD_LINE.to_string()))
}

fn words(line: &str) -> impl Iterator<Item = &str> {
    line.split(' ').filter(|word| !word.is_empty())
}

fn numbers(line: &str) -> usize {
    words(line).count().saturating_sub(1)
}

/// The line with each number changed.
fn with_numbers(line: &str, change: impl Fn(&str) -> String) -> Option<String> {
    let mut words = words(line);
    let word = words.next()?.to_string();
    Some(words.map(change).fold(word, |line, number| line + " " + &number))
}

/// The line with another word, if one is found.
fn with_word(line: &str, find: impl Fn(&str, &str) -> bool) -> Option<String> {
    let word = words(line).next()?;
    let name = NAMES.iter().find(|name| find(name, word))?;
    Some(line.replacen(word, name, 1))
}

/// A pod's line with another `waits` in place of such a one.
fn with_waits(line: &str, is_it: fn(&str) -> bool, other: &'static str) -> Option<String> {
    let mut all: Vec<&str> = words(line).collect();
    if all.first() != Some(&"pod") {
        return None;
    }
    *all.get_mut(1).filter(|word| is_it(word))? = other;
    Some(all.join(" "))
}

/// A writer's line with another option in place of such a one.
fn with_option(line: &str, is_it: fn(&str) -> bool, other: &'static str) -> Option<String> {
    let mut all: Vec<&str> = words(line).collect();
    let place = match *all.first()? {
        "new" => setup_numbers(Layout::Panel) + 1,
        "write" => BEFORE_POINTER + 1,
        _ => return None,
    };
    *all.get_mut(place).filter(|word| is_it(word))? = other;
    Some(all.join(" "))
}

/// Such a reader's line with mode 2 in place of 3.
fn with_mode(line: &str, layout: Layout) -> Option<String> {
    let mut all: Vec<&str> = words(line).collect();
    if layout_of(all.first()?).0 != layout {
        return None;
    }
    *all.get_mut(head_numbers(layout)).filter(|word| **word == "3")? = "2";
    Some(all.join(" "))
}

/// A line of pieces with other lengths or bytes, where its numbers are such that they can be told apart.
fn with_cut(line: &str, change: impl Fn(&mut Vec<u64>, &mut Vec<u8>)) -> Option<String> {
    let all: Vec<&str> = words(line).collect();
    let (state, cut) = (all.get(..=PIECES_NUMBERS)?, all.get(1 + PIECES_NUMBERS..)?);
    let count: usize = cut.first().filter(|_| state[0] == "pieces_take")?.parse().ok()?;
    let (lengths, bytes) = (cut.get(1..)?.get(..count)?, &cut[1..][count..]);
    let length = |word: &&str| word.parse().ok().filter(|length| *length < 1 << 40);
    let mut lengths = lengths.iter().map(length).collect::<Option<Vec<u64>>>()?;
    let mut bytes = bytes.iter().map(|word| word.parse().ok()).collect::<Option<Vec<u8>>>()?;
    change(&mut lengths, &mut bytes);
    let numbers = lengths.iter().map(u64::to_string).chain(bytes.iter().map(u8::to_string));
    Some(numbers.fold(format!("{} {}", state.join(" "), lengths.len()), |line, number| line + " " + &number))
}

/// A number without zeros in front.
fn plain(word: &str) -> String {
    word.parse::<i128>().map_or(word.to_string(), |number| number.to_string())
}

/// A number as it stands in fewer bits.
fn cut(word: &str, bits: u32) -> String {
    word.parse::<i128>().map_or(word.to_string(), |number| number.rem_euclid(1 << bits).to_string())
}

fn limits() -> Vec<Wrong> {
    vec![
        minds("65,535 bytes are too many", |line, _| line.len() == LONGEST_LINE),
        forgives("65,536 bytes are not too many", |line| {
            (line.len() == LONGEST_LINE + 1).then(|| with_numbers(line, plain)).flatten()
        }),
        forgives("a longer line is cut", |line| line.get(..LONGEST_LINE).map(str::to_string)),
        minds("12,000 numbers are too many", |line, _| numbers(line) == MOST_NUMBERS),
        forgives("12,001 numbers are not too many", |line| {
            (numbers(line) == MOST_NUMBERS + 1)
                .then(|| words(line).take(1 + MOST_NUMBERS).collect::<Vec<_>>().join(" "))
        }),
        minds("a buffer of 4,096 bytes is too large", |_, call| {
            matches!(call, Call::Write { size: LARGEST_BUFFER, .. })
        }),
        forgives("a buffer of 4,097 bytes is not too large", |line| {
            with_numbers(line, |number| number.replace("4097", "4096"))
        }),
        forgives("numbers too many are passed over", |line| {
            line.trim_end().rsplit_once(' ').map(|(line, _)| line.to_string())
        }),
        forgives("a number that is missing is 0", |line| Some(format!("{line} 0"))),
        forgives("a pod needs no byte", |line| {
            (line.starts_with("pod ") && numbers(line) == POD_NUMBERS).then(|| "start".to_string())
        }),
        forgives("bytes behind the last piece are left out", |line| {
            with_cut(line, |lengths, bytes| bytes.truncate(lengths.iter().sum::<u64>() as usize))
        }),
        forgives("the last piece has what bytes there are", |line| {
            with_cut(line, |lengths, bytes| {
                if let Some((last, others)) = lengths.split_last_mut() {
                    *last = (bytes.len() as u64).saturating_sub(others.iter().sum());
                }
            })
        }),
        forgives("bytes that are missing are 0", |line| {
            with_cut(line, |lengths, bytes| {
                let length = lengths.iter().sum::<u64>().min(1 << 12) as usize;
                bytes.resize(bytes.len().max(length), 0);
            })
        }),
        forgives("the count of pieces may be 0", |line| {
            with_cut(line, |lengths, _| {
                if lengths.is_empty() {
                    lengths.push(0);
                }
            })
        }),
        forgives("a pod without its waits is a fresh one", |line| {
            line.strip_prefix("pod ").map(|numbers| format!("pod 1 {numbers}"))
        }),
    ]
}

fn spelling() -> Vec<Wrong> {
    vec![
        forgives("the first letter is enough", |line| with_word(line, |name, word| name[..1] == word[..1])),
        forgives("a word may be cut", |line| with_word(line, |name, word| name.starts_with(word))),
        forgives("a word may be longer", |line| with_word(line, |name, word| word.starts_with(name))),
        forgives("a crane has a writer and a pod", |line| line.trim().strip_prefix(CRANE).map(str::to_string)),
        forgives("what says that it is a crane's may be cut", |line| {
            with_word(line, |name, word| {
                name.strip_prefix(CRANE).is_some_and(|name| word.strip_prefix("crane") == Some(name))
            })
        }),
        forgives("any word in front says that it is a crane's", |line| {
            with_word(line, |name, word| {
                name.strip_prefix(CRANE).is_some_and(|name| word.split_once('_').is_some_and(|(_, word)| word == name))
            })
        }),
        forgives("what says that it is of pieces may be cut", |line| {
            with_word(line, |name, word| {
                name.strip_prefix(PIECES).is_some_and(|name| word.strip_prefix("piece_") == Some(name))
            })
        }),
        forgives("a capital is a small letter", |line| with_word(line, |name, word| name == word.to_lowercase())),
        minds("two spaces are one too many", |line, _| line.trim().contains("  ")),
        minds("no space may stand in front", |line, _| line.starts_with(' ')),
        minds("no space may stand at the end", |line, _| line.ends_with(' ')),
        answers("spaces alone are passed over", |asked| asked.line.trim().is_empty().then(String::new)),
        forgives("a tab is a space", |line| Some(line.replace('\t', " "))),
        forgives("a carriage return is no part of a line", |line| Some(line.replace('\r', ""))),
    ]
}

fn numerals() -> Vec<Wrong> {
    let is_long = |word: &str| word.len() > 1 && word.trim_start_matches('-').starts_with('0');
    let mut all = vec![
        minds("007 is no number", move |line, _| words(line).skip(1).any(is_long)),
        minds("-0 is no number", |line, _| words(line).skip(1).any(|word| word == "-0")),
        forgives("+5 is a number", |line| with_numbers(line, |number| number.replace('+', ""))),
        forgives("0x5 is a number", |line| with_numbers(line, |number| number.replace("0x", ""))),
        forgives("1.5 is 1", |line| with_numbers(line, |number| number.split('.').next().unwrap_or("").to_string())),
        forgives("1x is 1", |line| with_numbers(line, |number| number.replace('x', ""))),
        forgives("a sign alone is 0", |line| with_numbers(line, |number| number.replace('-', "0"))),
        forgives("a second sign is passed over", |line| with_numbers(line, |number| number.replace("--", "-"))),
        forgives("mode 3 of the panel's reader is stale", |line| with_mode(line, Layout::Panel)),
        forgives("mode 3 of a crane's reader is stale", |line| with_mode(line, Layout::Crane)),
        forgives("a pod's waits of 2 is 1", |line| with_waits(line, |waits| waits == "2", "1")),
        forgives("a pod's waits of 2 is 0", |line| with_waits(line, |waits| waits == "2", "0")),
        forgives("a pod's waits may be any number but 0", |line| with_waits(line, |waits| waits != "0", "1")),
        forgives("a pod's waits of -1 is 1", |line| with_waits(line, |waits| waits == "-1", "1")),
        forgives("a pod's waits is cut to 8 bits", |line| with_waits(line, |waits| waits == "257", "1")),
        forgives("an option of 2 is on", |line| with_option(line, |option| option == "2", "1")),
        forgives("an option of 2 is off", |line| with_option(line, |option| option == "2", "0")),
        forgives("an option of -1 is on", |line| with_option(line, |option| option == "-1", "1")),
        forgives("an option is cut to 8 bits", |line| with_option(line, |option| option == "257", "1")),
        forgives("a new writer without its option has it off", |line| {
            let is_it = line.trim_start().starts_with("new ") && numbers(line) == setup_numbers(Layout::Panel);
            is_it.then(|| format!("{line} 0"))
        }),
        forgives("-1 is 1 where no sign may be", |line| with_numbers(line, |number| number.replace("-1", "1"))),
    ];
    for bits in [8, 16, 32, 64] {
        let is_wide = move |word: &str| word.parse().is_ok_and(|number: i128| number >= 1 << bits);
        all.push(forgives(&format!("numbers are cut to {bits} bits"), move |line| {
            with_numbers(line, |word| if is_wide(word) { cut(word, bits) } else { word.to_string() })
        }));
    }
    for bits in [31, 32, 63, 64] {
        let is_low = move |word: &str| word.parse().is_ok_and(|number: i128| number < -(1 << (bits - 1)));
        all.push(forgives(&format!("a negative number of more than {bits} bits is cut"), move |line| {
            with_numbers(line, |word| if is_low(word) { cut(word, bits) } else { word.to_string() })
        }));
    }
    all
}

/// Each mistake of this file.
pub fn all() -> Vec<Wrong> {
    [limits(), spelling(), numerals()].into_iter().flatten().collect()
}
