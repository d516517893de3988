//! A line being built, of a call or of an answer.

use std::fmt;

use crate::pieces::PieceReader;
use crate::pod::Pod;
use crate::pointer::Pointer;
use crate::reader::{Mode, Ran, Reader};
use crate::refusal::Refusal;
use crate::table::{Layout, Setup, Slot, Table};
use crate::writer::Writer;

/// One space stands between its parts.
pub(super) struct Line(String);

impl Line {
    /// A line that begins so.
    pub(super) fn from(text: String) -> Line {
        Line(text)
    }

    pub(super) fn text(self) -> String {
        self.0
    }

    pub(super) fn put(&mut self, part: impl fmt::Display) {
        use fmt::Write;
        if !self.0.is_empty() {
            self.0.push(' ');
        }
        write!(self.0, "{part}").expect("a string takes everything");
    }

    pub(super) fn all<T: fmt::Display>(&mut self, parts: &[T]) {
        for part in parts {
            self.put(part);
        }
    }

    /// The bytes behind a `:`.
    pub(super) fn buffer(&mut self, bytes: &[u8]) {
        self.put(":");
        self.all(bytes);
    }

    pub(super) fn verdict<T>(&mut self, outcome: &Result<T, Refusal>) {
        self.put(outcome.as_ref().err().map_or(0, |refusal| refusal.number()));
    }

    pub(super) fn refused(&mut self, refusal: Refusal) {
        self.put("refused");
        self.put(refusal.number());
    }

    pub(super) fn setup(&mut self, layout: Layout, setup: &Setup) {
        self.put(setup.slots);
        self.all(&setup.largest[..layout.numbers()]);
    }

    pub(super) fn slot(&mut self, layout: Layout, slot: &Slot) {
        self.put(slot.id.0);
        self.all(&slot.numbers[..layout.numbers()]);
    }

    fn table(&mut self, layout: Layout, table: &Table) {
        for slot in &table[..layout.slots()] {
            self.slot(layout, slot);
        }
    }

    pub(super) fn reader(&mut self, reader: &Reader) {
        self.setup(reader.layout, &reader.setup);
        self.put(reader.current.0);
        self.put(match reader.mode {
            Mode::Following => 0,
            Mode::Dropped => 1,
            Mode::Stale => 2,
        });
        self.table(reader.layout, &reader.shown);
        self.table(reader.layout, &reader.pending);
    }

    pub(super) fn pieces(&mut self, pieces: &PieceReader) {
        self.reader(&pieces.reader);
        self.put(pieces.held);
        self.all(&pieces.bytes);
    }

    pub(super) fn writer(&mut self, writer: &Writer) {
        self.setup(Layout::Panel, &writer.setup);
        self.put(writer.current.0);
        self.put(writer.counter);
        self.table(Layout::Panel, &writer.table);
        self.pointer(&writer.pointer);
    }

    fn pointer(&mut self, pointer: &Pointer) {
        let Pointer { on, told, ranks } = pointer;
        self.put(*on as u8);
        self.put(told.touch);
        self.put(told.tool);
        self.all(&[told.x, told.y]);
        self.all(ranks);
    }

    pub(super) fn pod(&mut self, pod: &Pod) {
        self.put(pod.waits as u8);
        self.put(pod.held);
        self.all(&pod.bytes);
    }

    pub(super) fn ran(&mut self, ran: Ran) {
        self.all(&[ran.shown, ran.unknown_type, ran.unknown_code, ran.bad, ran.ignored]);
        match ran.first_skipped {
            Some((kind, code)) => self.all(&[kind, code]),
            None => self.put("none"),
        }
    }
}
