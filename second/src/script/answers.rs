//! What each call is answered.

use std::fmt;

use super::commands::Digits;
use super::line::Line;
use super::{marks, Call, Cut};
use crate::pieces::PieceReader;
use crate::pod::{Pod, Report};
use crate::reader::{Asked, Ran, Reader};
use crate::refusal::Refusal;
use crate::table::Layout;
use crate::writer::{Writer, Written};

impl Call {
    /// Makes the call on a copy of its state; the answer's line.
    pub fn answer(&self) -> String {
        let mut line = Line::from(String::new());
        match self {
            Call::Fresh(layout, setup) => {
                let made = Reader::fresh(*layout, *setup);
                line.verdict(&made);
                line.reader(&made.unwrap_or_else(|_| Reader::zeros(*layout)));
            }
            Call::New { setup, pointer } => {
                let made = Writer::fresh(*setup, *pointer);
                line.verdict(&made);
                line.writer(&made.unwrap_or(Writer::ZEROS));
            }
            Call::Run { reader, bytes } => line.ran_by(reader.clone(), |reader| reader.run(bytes)),
            Call::One { reader, event } => line.ran_by(reader.clone(), |reader| reader.one(*event)),
            Call::Load { reader, current, image } => {
                let mut reader = reader.clone();
                let loaded = reader.load(image, *current);
                line.verdict(&loaded);
                line.reader(&reader);
            }
            Call::Ask { reader, slot } => line.asked(reader.layout, reader.ask(*slot)),
            Call::Write { writer, position, size, frame } => {
                line.written(writer.clone(), *size, |writer, buffer| writer.write(frame, buffer, *position));
            }
            Call::Anonymous { writer, position, size, records } => {
                line.written(writer.clone(), *size, |writer, buffer| {
                    writer.write_anonymous(records, buffer, *position)
                });
            }
            Call::Good { reader } => line.put(reader.is_well_formed() as u8),
            Call::PiecesFresh(setup) => {
                let made = PieceReader::fresh(*setup);
                line.verdict(&made);
                line.pieces(&made.unwrap_or_else(|_| PieceReader::zeros()));
            }
            Call::PiecesTake { pieces, cut } => line.taken(pieces.clone(), cut),
            Call::PiecesLoad { pieces, current, image } => {
                let mut pieces = pieces.clone();
                let loaded = pieces.load(image, *current);
                line.verdict(&loaded);
                line.pieces(&pieces);
            }
            Call::PiecesAsk { pieces, slot } => line.asked(Layout::Panel, pieces.ask(*slot)),
            Call::Start => line.pod(&Pod::FRESH),
            Call::Pod { pod, bytes } => line.reports(*pod, bytes),
            Call::Recorder(call) => call.answer(&mut line),
            Call::Force(call) => call.answer(&mut line),
            Call::Commands(call) => call.answer(&mut line),
        }
        line.text()
    }
}

impl Line {
    fn ran_by(&mut self, mut reader: Reader, run: impl Fn(&mut Reader) -> Result<Ran, Refusal>) {
        let ran = run(&mut reader);
        self.verdict(&ran);
        self.reader(&reader);
        self.ran(ran.unwrap_or(Ran::NOTHING));
    }

    fn asked(&mut self, layout: Layout, asked: Result<Asked, Refusal>) {
        match asked {
            Ok(Asked::Contact(slot)) => {
                self.put("contact");
                self.slot(layout, &slot);
            }
            Ok(Asked::Empty) => self.put("empty"),
            Ok(Asked::Unknown) => self.put("unknown"),
            Ok(Asked::NoSuchSlot) => self.put("none"),
            Err(refusal) => self.refused(refusal),
        }
    }

    fn taken(&mut self, mut pieces: PieceReader, cut: &Cut) {
        for (i, piece) in cut.pieces().enumerate() {
            if i > 0 {
                self.put("/");
            }
            let ran = pieces.take(piece);
            self.verdict(&ran);
            self.pieces(&pieces);
            self.ran(ran.unwrap_or(Ran::NOTHING));
        }
    }

    fn written(
        &mut self,
        mut writer: Writer,
        size: usize,
        write: impl Fn(&mut Writer, &mut [u8]) -> Result<Written, Refusal>,
    ) {
        let mut buffer = marks(size);
        let written = write(&mut writer, &mut buffer);
        self.verdict(&written);
        self.writer(&writer);
        let Written { events, changed } = written.unwrap_or(Written::ZEROS);
        self.put(events);
        self.put(changed);
        self.put(written.err().map_or(0, Refusal::need));
        self.buffer(&buffer);
    }

    fn reports(&mut self, mut pod: Pod, bytes: &[u8]) {
        for (i, byte) in bytes.iter().enumerate() {
            if i > 0 {
                self.put("/");
            }
            let report = pod.take(*byte);
            self.pod(&pod);
            match report {
                Ok(report) => self.put(InWords(report)),
                Err(refusal) => self.refused(refusal),
            }
        }
    }
}

/// A pod's answer in words, as `drive` and `show_pod` print it.
pub struct InWords(pub Report);

impl fmt::Display for InWords {
    fn fmt(&self, f: &mut fmt::Formatter) -> fmt::Result {
        match self.0 {
            Report::More => f.write_str("more"),
            Report::SelfTestPassed => f.write_str("self-test passed"),
            Report::Down(key) => write!(f, "down {key}"),
            Report::Up(key) => write!(f, "up {key}"),
            Report::Absolute { flags, x, y } => write!(f, "absolute {flags} {x} {y}"),
            Report::Relative { left, right, dx, dy } => {
                write!(f, "relative {} {} {dx} {dy}", left as u8, right as u8)
            }
            Report::Sticks(zero, one) => {
                write!(f, "sticks {} {} {} {}", zero.trigger as u8, zero.position, one.trigger as u8, one.position)
            }
            Report::Stick { which, stick } => write!(f, "stick {which} {} {}", stick.trigger as u8, stick.position),
            Report::Time(clock) => write!(f, "time {}", Digits(clock)),
            Report::BadByte => f.write_str("bad byte"),
            Report::BadReport => f.write_str("bad report"),
        }
    }
}
