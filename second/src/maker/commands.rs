//! Calls of commands to the pod: each command good and at its edges, strings of their bytes, cut and wrong.

use super::Maker;
use crate::commands::{Clock, Command, MOST_ACTION, RESET};
use crate::pod::Pod;
use crate::script::{Call, CommandsCall};

impl Maker {
    pub(super) fn commands_call(&mut self) -> CommandsCall {
        if self.random.once_in(2) {
            self.commands_write()
        } else {
            self.commands_read()
        }
    }

    fn two_digits(&mut self) -> u8 {
        let any = (self.random.below(10) << 4 | self.random.below(10)) as u8;
        self.random.pick(&[any, any, 0, 0x09, 0x90, 0x99, 0x59])
    }

    fn place(&mut self) -> u16 {
        let any = self.random.word() as u16;
        self.random.pick(&[any, any, 0, 1, 255, 256, 0x0100, 0xFF00, u16::MAX])
    }

    fn ticks(&mut self) -> u8 {
        let any = self.random.from_to(1, 255) as u8;
        self.random.pick(&[any, any, 1, 2, 127, 128, 255])
    }

    /// A good command.
    pub(crate) fn command(&mut self) -> Command {
        match self.random.below(12) {
            0 | 1 => Command::Reset,
            2 => Command::Buttons(self.random.below(u64::from(MOST_ACTION) + 1) as u8),
            3 => Command::Relative,
            4 => Command::Absolute { x: self.place(), y: self.place() },
            5 => Command::Threshold { x: self.ticks(), y: self.ticks() },
            6 => Command::Scale { x: self.ticks(), y: self.ticks() },
            7 => Command::Where,
            8 => Command::Load { x: self.place(), y: self.place() },
            9 | 10 => Command::SetClock([0; 6].map(|_| self.two_digits())),
            _ => Command::AskClock,
        }
    }

    /// A clock with one wrong digit.
    fn bad_clock(&mut self) -> Clock {
        let mut clock = [0; 6].map(|_| self.two_digits());
        let byte = self.random.pick(&[0x0A, 0x5A, 0xA0, 0x0F, 0xF0, 0x9A, 0xA9, 0xFF, 0x1B]);
        clock[self.random.below(6) as usize] = byte;
        clock
    }

    /// A command with a number out of its range.
    fn bad_command(&mut self) -> Command {
        let (x, y) = self.random.pick(&[(0, 1), (1, 0), (0, 0), (0, 255), (255, 0)]);
        match self.random.below(4) {
            0 => {
                self.tag("commands: button action over 4");
                Command::Buttons(self.random.pick(&[5, 5, 6, 8, 128, 255]))
            }
            1 => {
                self.tag("commands: threshold 0");
                Command::Threshold { x, y }
            }
            2 => {
                self.tag("commands: scale 0");
                Command::Scale { x, y }
            }
            _ => {
                self.tag("commands: a wrong digit");
                Command::SetClock(self.bad_clock())
            }
        }
    }

    fn commands_write(&mut self) -> CommandsCall {
        let command = if self.random.once_in(3) {
            self.bad_command()
        } else {
            self.tag("commands: a good command");
            self.command()
        };
        let pod = self.pod_in_hand();
        let (position, size) = self.room(command.bytes().len());
        CommandsCall::Write { pod, position, size, command }
    }

    /// A pod's state: one that a report's bytes led to, or a broken one.
    fn pod_in_hand(&mut self) -> Pod {
        if self.random.once_in(6) {
            if let Call::Pod { pod, .. } = self.broken_pod() {
                return pod;
            }
        }
        let mut pod = Pod { waits: self.random.once_in(2), ..Pod::FRESH };
        for _ in 0..self.random.below(8) {
            let byte = self.pod_byte(pod);
            pod.take(byte).expect("a pod that began fresh is well formed");
        }
        self.tags.retain(|tag| !tag.starts_with("pod: "));
        if pod.held > 0 {
            self.tag("commands: a report is held");
        }
        pod
    }

    fn commands_read(&mut self) -> CommandsCall {
        let mut bytes = Vec::new();
        for _ in 0..self.random.below(4) {
            bytes.extend(self.command_part());
        }
        if self.random.once_in(3) && !bytes.is_empty() {
            self.tag("commands: bytes cut");
            bytes.truncate(self.random.below(bytes.len() as u64) as usize);
        }
        let length = bytes.len() as u64;
        let position = match self.random.below(12) {
            0..=7 => 0,
            8 => {
                self.tag("commands: from the middle");
                self.random.below(length + 1)
            }
            9 => {
                self.tag("commands: at the end");
                length
            }
            10 => {
                self.tag("commands: past the end");
                length + 1 + self.random.below(20)
            }
            _ => {
                self.tag("commands: position near 2^64");
                self.random.pick(&[u64::MAX, 1 << 32, (1 << 63) + length / 2])
            }
        };
        CommandsCall::Read { position, bytes }
    }

    /// One thing that the line may hold: a command good or bad, a lost reset, or a byte that is not for us.
    pub(crate) fn command_part(&mut self) -> Vec<u8> {
        match self.random.below(12) {
            0..=4 => self.command().bytes(),
            5..=7 => self.bad_command().bytes(),
            8 => {
                self.tag("commands: a filler that is not 0");
                let mut bytes = Command::Load { x: self.place(), y: self.place() }.bytes();
                bytes[1] = self.random.from_to(1, 255) as u8;
                bytes
            }
            9 => {
                self.tag("commands: 80 and another byte");
                vec![RESET, self.random.pick(&[0, 2, 3, RESET, 0x07, 0x81, 255])]
            }
            _ => {
                self.tag("commands: any first byte");
                self.next_first_byte = self.next_first_byte.wrapping_add(37);
                // One byte in all of them is rare, so those beside the commands' own come more often.
                let beside = self.random.pick(&[0x06, 0x0A, 0x0F, 0x1A, 0x1D, 0x7F, 0x81]);
                vec![self.random.pick(&[self.next_first_byte, beside])]
            }
        }
    }
}
