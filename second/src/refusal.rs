//! The ways to say no, with their numbers: document 01's eight, and 9, 10 and 11 of document 02.

/// Why a call was not made; the first that fits in rising number, but for a type A frame: 2, 6, 9, 10, 4, 5.
#[derive(Clone, Copy, PartialEq, Eq, Debug)]
pub enum Refusal {
    Setup,
    State,
    Frame,
    Value,
    NoRoom {
        need: u64,
    },
    Ragged,
    NotStale,
    Image,
    /// A type A frame has too many contacts.
    Contacts,
    /// A type A frame is not made of whole packets and one report at its end.
    Packets,
    /// A number of a command to the pod.
    Command,
}

impl Refusal {
    /// Its number in documents 01 and 02.
    pub fn number(self) -> u8 {
        match self {
            Refusal::Setup => 1,
            Refusal::State => 2,
            Refusal::Frame => 3,
            Refusal::Value => 4,
            Refusal::NoRoom { .. } => 5,
            Refusal::Ragged => 6,
            Refusal::NotStale => 7,
            Refusal::Image => 8,
            Refusal::Contacts => 9,
            Refusal::Packets => 10,
            Refusal::Command => 11,
        }
    }

    /// The bytes that a frame needs, told with NO ROOM alone.
    pub fn need(self) -> u64 {
        match self {
            Refusal::NoRoom { need } => need,
            _ => 0,
        }
    }
}
