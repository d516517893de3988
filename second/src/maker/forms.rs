//! Calls that are written with spaces and zeros they do not need, and lines at the limits: the longest call, one byte or number more, and many.

use super::lines::takes_any_count;
use super::{Maker, LIMITS};
use crate::script::{LONGEST_LINE, MOST_NUMBERS};

impl Maker {
    /// A good call, written otherwise.
    pub(super) fn respelled(&mut self) -> String {
        let line = self.call().line();
        self.tag("form: spaces and zeros too many");
        let (name, numbers) = line.split_once(' ').unwrap_or((&line, ""));
        let mut other = " ".repeat(self.random.below(3) as usize) + name;
        for number in numbers.split(' ').filter(|number| !number.is_empty()) {
            let spaces = if self.random.once_in(8) { self.random.from_to(2, 4) } else { 1 };
            other += &" ".repeat(spaces as usize);
            other += &self.with_zeros(number);
        }
        other + &" ".repeat(self.random.below(3) as usize)
    }

    /// A number as it is, or with zeros in front, or a 0 with a sign.
    fn with_zeros(&mut self, number: &str) -> String {
        if !self.random.once_in(8) {
            return number.to_string();
        }
        if number == "0" && self.random.once_in(2) {
            return "-0".to_string();
        }
        let (sign, digits) = number.split_at(usize::from(number.starts_with('-')));
        format!("{sign}{}{digits}", "0".repeat(self.random.from_to(1, 3) as usize))
    }

    /// A line at a limit, each kind in its turn: chance would make too many of such long lines before it made each.
    pub(super) fn at_limit(&mut self, turn: u64) -> String {
        let far = self.random.from_to(2, 600) as usize;
        match turn % LIMITS {
            0 => self.padded("form: as many bytes as may be", LONGEST_LINE),
            1 => self.padded("line: one byte too many", LONGEST_LINE + 1),
            2 => self.lengthened("form: as many numbers as may be", MOST_NUMBERS),
            3 => self.lengthened("line: one number too many", MOST_NUMBERS + 1),
            _ if self.random.once_in(2) => self.padded("line: too long", LONGEST_LINE + far),
            _ => self.lengthened("line: too long", MOST_NUMBERS + far),
        }
    }

    /// A good call of so many bytes, but for its length: spaces, or zeros in front of a number.
    fn padded(&mut self, tag: &'static str, length: usize) -> String {
        let line = self.call().line();
        self.tags.clear();
        self.tag(tag);
        let is_number = |(place, _): &(usize, &str)| line.as_bytes().get(place + 1).is_some_and(u8::is_ascii_digit);
        let numbers: Vec<usize> = line.match_indices(' ').filter(is_number).map(|(place, _)| place + 1).collect();
        let (place, filler) = match self.random.below(4) {
            0 if !numbers.is_empty() => (self.random.pick(&numbers), "0"),
            1 if !numbers.is_empty() => (self.random.pick(&numbers), " "),
            2 => (0, " "),
            _ => (line.len(), " "),
        };
        let filler = filler.repeat(length - line.len());
        [&line[..place], &filler, &line[place..]].concat()
    }

    /// A good call of so many numbers, but for their count.
    fn lengthened(&mut self, tag: &'static str, numbers: usize) -> String {
        let call = loop {
            let call = self.call();
            if takes_any_count(&call) {
                break call;
            }
        };
        self.tags.clear();
        self.tag(tag);
        let mut line = call.line();
        for _ in line.matches(' ').count()..numbers {
            line += self.random.pick(&[" 0", " 1", " 3"]);
        }
        line
    }
}
