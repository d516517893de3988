//! Panel and pod events, written from documents 01 and 02 alone: what the proved library is compared with.
//!
//! The rules: [`refusal`], [`table`], [`events`], [`reader`], [`pieces`], [`writer`], [`pointer`], [`anonymous`], [`pairing`], [`pod`], [`recorder`], [`force`], [`commands`].
//! The programs: [`streams`], [`programs`]. The comparison: [`script`], [`maker`], [`random`], [`noise`], [`smaller`], [`tally`], [`requests`], and K14's [`long`] shift.
//! For people: texts in [`records`] and [`brief`], a class's [`shift`].

pub mod anonymous;
pub mod brief;
pub mod commands;
pub mod events;
pub mod force;
pub mod long;
pub mod maker;
pub mod noise;
pub mod pairing;
pub mod pieces;
pub mod pod;
pub mod pointer;
pub mod programs;
pub mod random;
pub mod reader;
pub mod recorder;
pub mod records;
pub mod refusal;
pub mod requests;
pub mod script;
pub mod shift;
pub mod smaller;
pub mod streams;
pub mod table;
pub mod tally;
#[cfg(test)]
mod trial;
pub mod writer;
