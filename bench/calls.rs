//! What both comparisons need: whether answers agree, how often each verdict was given, and numbers at random that are the same in every run.

use std::fmt::Debug;

/// The one answer that all versions give to a call; each comes with its version's name.
pub fn agreed<'a, T: PartialEq + Debug>(
    call: &impl Debug,
    answers: impl IntoIterator<Item = (&'a str, T)>,
) -> Result<T, String> {
    let mut answers = answers.into_iter();
    let (first, answer) = answers.next().ok_or("there is no version")?;
    match answers.find(|(_, other)| *other != answer) {
        Some((name, other)) => {
            Err(format!("{first} and {name} differ\n  call: {call:?}\n  {first}: {answer:?}\n  {name}: {other:?}"))
        }
        None => Ok(answer),
    }
}

#[derive(Default)]
pub struct Verdicts([usize; 11]);

impl Verdicts {
    pub fn note(&mut self, verdict: u64) -> Result<(), String> {
        let times = self.0.get_mut(verdict as usize).ok_or(format!("{verdict} is no verdict"))?;
        *times += 1;
        Ok(())
    }

    /// What was seen, in words; an error where one of these refusals never was.
    pub fn told(&self, wanted: &[usize]) -> Result<String, String> {
        if let Some(number) = wanted.iter().find(|&&number| self.0[number] == 0) {
            return Err(format!("refusal {number} was never given"));
        }
        let refusals: Vec<String> = wanted.iter().map(|&number| format!("{number}: {}", self.0[number])).collect();
        Ok(format!(
            "compared: {} calls accepted, refused by number {}; every answer the same",
            self.0[0],
            refusals.join(", ")
        ))
    }
}

/// Xorshift, 64 bits.
pub struct Noise(pub u64);

impl Noise {
    pub fn below(&mut self, top: u32) -> u32 {
        self.0 ^= self.0 << 13;
        self.0 ^= self.0 >> 7;
        self.0 ^= self.0 << 17;
        ((self.0 >> 32) % top as u64) as u32
    }

    pub fn one_in(&mut self, top: u32) -> bool {
        self.below(top) == 0
    }

    pub fn pick<T: Copy>(&mut self, from: &[T]) -> T {
        from[self.below(from.len() as u32) as usize]
    }
}
