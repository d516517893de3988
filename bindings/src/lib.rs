//! Safe types over the proved library Chandrulek: touch panels by type B events, the pod, the force stick and the shift recorder.
//!
//! **No event is not no finger.** Only changes are sent, so a finger that lies still and a lift whose event was lost look the same.
//! A reader that lost track answers [`Asked::Unknown`] for every slot until a full table is loaded, and a host acts on [`Asked::Contact`] alone.
//!
//! A state is bytes, and a [`Writer`], [`Reader`], [`LineReader`] or [`Pod`] is nothing but them: `as_bytes` gives them to be saved or sent, and
//! `from_bytes` takes any bytes, since each call judges its state. A refusal has a name ([`Refusal`]), and leaves the state and every buffer as they were.
//!
//! ```
//! use chandrulek::{Asked, Contact, Kind, Reader, Setup, Slot, SlotRecord, TrackingId, Writer, MOST_BYTES};
//!
//! // A panel of one slot, with its largest x, y, pressure and sizes.
//! let setup = Setup { slots: 1, x: 4000, y: 4000, pressure: 255, major: 255, minor: 255 };
//! let mut panel = Writer::fresh(setup, false)?;
//! let mut key = Reader::fresh(setup)?;
//!
//! // A finger lands: five events.
//! let mut events = [0; MOST_BYTES];
//! let finger = Contact { kind: Kind::Contact, x: 100, y: 200, pressure: 30, major: 0, minor: 0 };
//! let written = panel.write(&[finger], &mut events, 0)?;
//! key.run(&events[..written.bytes()])?;
//! let row = SlotRecord { id: TrackingId(0), x: 100, y: 200, pressure: 30, major: 0, minor: 0 };
//! assert_eq!(key.ask(Slot(0))?, Asked::Contact(row));
//!
//! // Something was lost: the finger may be gone, and only a load tells.
//! key.lost()?;
//! assert_eq!(key.ask(Slot(0))?, Asked::Unknown);
//! key.load(&[SlotRecord { id: TrackingId::UNUSED, ..row }], Slot(0))?;
//! assert_eq!(key.ask(Slot(0))?, Asked::Empty);
//! # Ok::<(), chandrulek::Refusal>(())
//! ```
//!
//! The archive `libchandrulek.a` is for x86-64. `tools/library FOLDER` makes it, and the build looks for it in the folder that
//! `CHANDRULEK_LIB` names, which is `FOLDER/lib`.

#![deny(unsafe_op_in_unsafe_fn)]

#[allow(unsafe_code)]
mod ffi;
mod force;
mod panel;
mod pod;
mod reader;
mod recorder;
mod refusal;
mod writer;

pub use ffi::{
    BLOCK_BYTES, BLOCK_EVENTS, COMMAND_BYTES, FORCE_BYTES, LINE_BYTES, MOST_BYTES, MOST_EVENTS, POD_BYTES,
    READER_BYTES, RECORDS, RECORD_BYTES, VERSION, WRITER_BYTES,
};
pub use force::{ForceRead, ForceReport};
pub use panel::{Contact, Event, Kind, Setup, Slot, SlotRecord, TrackingId};
pub use pod::{Clock, Command, CommandRead, Pod, Report, Stick};
pub use reader::{Asked, Counts, LineReader, Reader};
pub use recorder::{lay_blocks, make_block, read_block, BlockRefusal, Laid};
pub use refusal::Refusal;
pub use writer::{Writer, Written};
