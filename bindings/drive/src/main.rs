//! host_drive: drive's script lines (docs/DRIVE.md) answered by the functions that a C host calls; and `--bytes`, random bytes as their states.
//!
//! It calls through the very declarations of the crate `chandrulek`, so what is compared here holds for them too.
#![deny(unsafe_code)]

mod answers;
mod bytes;
/// The declarations; their constants are for the crate's users.
#[allow(unsafe_code, dead_code)]
#[path = "../../src/ffi.rs"]
mod ffi;
mod library;
mod lines;
mod states;

use std::fs::File;
use std::io;
use std::os::fd::AsFd;
use std::process::ExitCode;

const USAGE: &str = "\
host_drive < SCRIPT            the answers of a script of docs/DRIVE.md, by the exported functions
host_drive --bytes COUNT SEED  so many random calls on changed bytes of states; fails where one is not answered as it should be";

/// The command line itself is wrong.
const UNUSABLE: u8 = 2;

fn main() -> ExitCode {
    let words: Vec<String> = std::env::args_os().skip(1).map(|word| word.to_string_lossy().into_owned()).collect();
    let words: Vec<&str> = words.iter().map(String::as_str).collect();
    let status = match words[..] {
        [] => streams().map(|[input, out, err]| lines::answer(input, out, err)),
        ["--bytes", count, seed] => match (count.parse(), seed.parse()) {
            (Ok(count), Ok(seed)) => Ok(bytes::compare(count, seed)),
            _ => Ok(usage()),
        },
        _ => Ok(usage()),
    };
    ExitCode::from(status.unwrap_or_else(|error| {
        eprintln!("host_drive: {error}");
        UNUSABLE
    }))
}

fn usage() -> u8 {
    eprintln!("{USAGE}");
    UNUSABLE
}

/// Plain files: Rust's own handles write out line by line.
fn streams() -> io::Result<[File; 3]> {
    let plain = |stream: &dyn AsFd| stream.as_fd().try_clone_to_owned().map(File::from);
    Ok([plain(&io::stdin())?, plain(&io::stdout())?, plain(&io::stderr())?])
}
