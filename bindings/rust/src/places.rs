//! Where rings and buffers lie, doorbells (xHCI 5.6) and stream contexts (6.2.4.1).

use crate::raw;

/// A pipe with streams.
#[derive(Clone, Copy, Debug, PartialEq, Eq, Hash)]
pub enum Pipe {
    Status,
    DataIn,
    DataOut,
}

impl Pipe {
    /// The endpoint ID (4.5.1).
    pub fn endpoint(self) -> u8 {
        match self {
            Self::Status => 3,
            Self::DataIn => 5,
            Self::DataOut => 4,
        }
    }

    pub(crate) fn number(self) -> u8 {
        match self {
            Self::Status => 1,
            Self::DataIn => 2,
            Self::DataOut => 3,
        }
    }
}

/// A ring of TRBs.
#[derive(Clone, Copy, Debug, PartialEq, Eq, Hash)]
pub enum Ring {
    /// That of the command pipe, which has no streams.
    CommandPipe,
    /// The controller's own command ring.
    Commands,
    /// That of a stream, 1 to 248, of a pipe.
    Stream(Pipe, u16),
}

impl Ring {
    pub(crate) fn numbers(self) -> (u8, u16) {
        match self {
            Self::Stream(pipe, stream) => (pipe.number(), stream),
            Self::CommandPipe => (4, 0),
            Self::Commands => (5, 0),
        }
    }

    /// The address of a place, that of the Link TRB included, which is the last.
    pub fn address(self, place: usize) -> Option<u64> {
        let (ring, stream) = self.numbers();
        // SAFETY: the function takes numbers, any of them.
        some_address(unsafe { raw::uas_ring_address(ring, stream, place) })
    }

    /// The ring and the place that are at an address.
    pub fn at(address: u64) -> Option<(Self, usize)> {
        let (mut ring, mut stream, mut place) = (0, 0, 0);
        // SAFETY: the pointers come from references to values of their types.
        if !unsafe { raw::uas_ring_place(address, &mut ring, &mut stream, &mut place) } {
            return None;
        }
        let ring = match ring {
            1 => Self::Stream(Pipe::Status, stream),
            2 => Self::Stream(Pipe::DataIn, stream),
            3 => Self::Stream(Pipe::DataOut, stream),
            4 => Self::CommandPipe,
            _ => Self::Commands,
        };
        Some((ring, place))
    }
}

/// A buffer of a tag from 1 to 248.
#[derive(Clone, Copy, Debug, PartialEq, Eq, Hash)]
pub enum Buffer {
    /// 32 bytes.
    Command,
    /// 112 bytes.
    Status,
    /// What is lent to a controller, or the data of a driver's command.
    Data,
}

impl Buffer {
    /// The address of a tag's.
    pub fn address(self, tag: u16) -> Option<u64> {
        let buffer = match self {
            Self::Command => 1,
            Self::Status => 2,
            Self::Data => 3,
        };
        // SAFETY: the function takes numbers, any of them.
        some_address(unsafe { raw::uas_buffer_address(buffer, tag) })
    }
}

fn some_address(address: u64) -> Option<u64> {
    (address != 0).then_some(address)
}

/// A value to write to a doorbell (5.6): the endpoint ID and the stream. Both are 0 of the controller's own command ring.
#[derive(Clone, Copy, Debug, PartialEq, Eq, Hash)]
pub struct Doorbell {
    pub endpoint: u8,
    pub stream: u16,
}

impl From<u32> for Doorbell {
    fn from(value: u32) -> Self {
        let (mut endpoint, mut stream) = (0, 0);
        // SAFETY: the pointers come from references to values of their types.
        unsafe { raw::uas_doorbell_parts(value, &mut endpoint, &mut stream) };
        Self { endpoint, stream }
    }
}

impl From<Doorbell> for u32 {
    fn from(doorbell: Doorbell) -> Self {
        // SAFETY: the function takes numbers, any of them.
        unsafe { raw::uas_doorbell(doorbell.endpoint, doorbell.stream) }
    }
}

/// A stream context (6.2.4.1): the TR Dequeue Pointer, a multiple of 16, the Dequeue Cycle State and the Stream Context Type, at most 7.
#[derive(Clone, Copy, Debug, PartialEq, Eq, Hash)]
pub struct Context {
    pub pointer: u64,
    pub cycle: bool,
    pub kind: u8,
}

impl Context {
    pub fn from_bytes(bytes: &[u8; 16]) -> Self {
        let (mut pointer, mut cycle, mut kind) = (0, 0, 0);
        // SAFETY: the pointers come from references to values of their types.
        unsafe { raw::uas_context_read(bytes, &mut pointer, &mut cycle, &mut kind) };
        Self { pointer, cycle: cycle == 1, kind }
    }

    /// Bits of what doesn't fit are left out.
    pub fn to_bytes(self) -> [u8; 16] {
        let mut bytes = [0; 16];
        // SAFETY: the pointer comes from a reference to an array of its type.
        unsafe { raw::uas_context_write(self.pointer, self.cycle.into(), self.kind, &mut bytes) };
        bytes
    }
}
