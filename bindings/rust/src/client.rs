//! What clients of a bus or a driver ask for, and what they get.

use crate::numbers::{Function, ResponseCode, Status};

/// A task management of a client.
#[derive(Clone, Copy, Debug, PartialEq, Eq, Hash)]
pub enum Task {
    /// ABORT TASK of the client's command under this tag.
    Abort { tag: u16 },
    /// LOGICAL UNIT RESET of the client's logical unit.
    Reset,
    /// QUERY TASK of the client's command under this tag: the reply's code tells whether the disk has it.
    Query { tag: u16 },
}

impl Task {
    /// The function and the tag that it names.
    pub(crate) fn numbers(self) -> (u8, u16) {
        let (function, tag) = match self {
            Self::Abort { tag } => (Function::AbortTask, tag),
            Self::Reset => (Function::LogicalUnitReset, 0),
            Self::Query { tag } => (Function::QueryTask, tag),
        };
        (function.into(), tag)
    }
}

/// What a submission came to.
#[derive(Clone, Debug, PartialEq, Eq, Hash)]
pub enum Reply {
    /// A command's status with its sense data, and its data as filled.
    Status { tag: u16, ticket: u64, status: Status, sense: Vec<u8>, data: Vec<u8> },
    /// A task management ended the command; its data as filled so far.
    Aborted { tag: u16, ticket: u64, data: Vec<u8> },
    /// A task management's response.
    Task { tag: u16, ticket: u64, code: ResponseCode },
    /// Of a driver: a TD failed with this completion code before the device's answer came; a command's data as filled so far.
    Failed { tag: u16, ticket: u64, code: u8, data: Vec<u8> },
}

/// What a door tells of a reply.
pub(crate) struct Told<'a> {
    pub kind: u8,
    pub tag: u16,
    pub ticket: u64,
    pub status: u8,
    pub sense: &'a [u8],
    pub data: &'a [u8],
}

impl From<Told<'_>> for Reply {
    fn from(told: Told<'_>) -> Self {
        let Told { tag, ticket, .. } = told;
        match told.kind {
            1 => Self::Status { tag, ticket, status: told.status.into(), sense: told.sense.to_vec(), data: told.data.to_vec() },
            2 => Self::Aborted { tag, ticket, data: told.data.to_vec() },
            4 => Self::Failed { tag, ticket, code: told.status, data: told.data.to_vec() },
            _ => Self::Task { tag, ticket, code: told.status.into() },
        }
    }
}

/// The first `length` bytes, as far as there are as many.
pub(crate) fn front(bytes: &[u8], length: usize) -> &[u8] {
    &bytes[..length.min(bytes.len())]
}
