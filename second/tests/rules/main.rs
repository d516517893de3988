//! Holds the rules to documents 01 and 02: one program for all of these tests, since a program for each takes as long to build.

mod common;

mod anonymous;
mod anonymous_examples;
mod bench_sheet;
mod cases;
mod commands;
mod corpus;
mod force;
mod gloves;
mod laws;
mod long;
mod pairing;
mod pieces;
mod pointer;
mod recorder;
mod refusals;
mod requests;
mod statuses;
mod students;
mod wide;
