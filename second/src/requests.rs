//! The requests of document 02 whose calls a random script makes only once `drive` answers them.

/// One of them, by what it brings.
#[derive(Clone, Copy, PartialEq, Eq, Debug)]
pub enum Request {
    /// K2, the shift recorder.
    Recorder,
    /// K10, the force stick.
    Force,
    /// K13, commands to the pod. The pod's own calls know the time of day whether this is turned on or not.
    Commands,
    /// K6, pointer emulation. Every line of a writer has its numbers, and where this is turned off the option is off in all of them.
    Pointer,
    /// K12, anonymous panels.
    Anonymous,
}

impl Request {
    /// Each of them, for tests.
    pub const ALL: &'static [Request] =
        &[Request::Recorder, Request::Force, Request::Commands, Request::Pointer, Request::Anonymous];

    /// Those that `second script`, its tally and the noise for `drive` know. A request is turned on by its name here, and `tools/corpus` then makes the corpus anew.
    pub const MADE: &'static [Request] =
        &[Request::Recorder, Request::Force, Request::Commands, Request::Pointer, Request::Anonymous];
}
