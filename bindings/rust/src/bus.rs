//! The bus: host, controller and device as one machine of steps (xHCI 4.6, 4.11, 4.12; INCITS 471).

use crate::client::{front, Reply, Task, Told};
use crate::faults::{BlocksFault, ClientFault, OpenFault};
use crate::handle::{handle, raw_bad, BadBlock};
use crate::places::Pipe;
use crate::scsi::Operation;
use crate::{raw, MOST_DATA_BYTES, USUAL_TAGS};
use std::ptr::{self, NonNull};

/// One atomic step.
#[derive(Clone, Copy, Debug, PartialEq, Eq, Hash)]
pub enum Step {
    /// The device receives the oldest information unit of the command pipe.
    Command,
    /// The controller moves a chunk of the tag's data.
    Data(u16),
    /// The controller moves the tag's status.
    Status(u16),
    /// The controller executes the oldest command of its own ring.
    Engine,
    /// The host takes the oldest event.
    Event,
    /// The host begins to take the tag's TD, which nothing will complete, off a pipe.
    Retire(Pipe, u16),
}

impl Step {
    /// The step, the pipe and the tag.
    fn numbers(self) -> (u8, u8, u16) {
        match self {
            Self::Command => (1, 0, 0),
            Self::Data(tag) => (2, 0, tag),
            Self::Status(tag) => (3, 0, tag),
            Self::Engine => (4, 0, 0),
            Self::Event => (5, 0, 0),
            Self::Retire(pipe, tag) => (6, pipe.number(), tag),
        }
    }
}

/// What a drain did.
#[derive(Clone, Copy, Debug, PartialEq, Eq, Hash)]
pub struct Drained {
    /// Steps that acted.
    pub steps: u64,
    /// Nothing is due any more; false where the limit was reached.
    pub quiet: bool,
}

/// Up to 31 clients' disks behind one controller. Client c of N tags has the tags Nc + 1 to Nc + N - 1 for commands and Nc + N for
/// task management; tickets are below 2^60 and rise for each client. A client's replies and blocks are those of a disk that it had alone.
/// It can be sent to another thread, and isn't shared between threads: put it behind a lock.
///
/// ```
/// use uas::{Bus, Operation, Reply, Status};
///
/// let mut bus = Bus::new(&[100, 100]).unwrap();
/// let write = Operation::Write { lba: 7, count: 1, fua: false };
/// let read = Operation::Read { lba: 7, count: 1, fua: false };
/// bus.submit(0, 1, 0, &write, &[0xaa; 512]).unwrap();
/// bus.submit(1, 17, 0, &read, &[0; 512]).unwrap();
/// assert!(bus.drain(1000).quiet);
/// assert!(matches!(bus.take_reply(0), Some(Reply::Status { ticket: 0, status: Status::Good, .. })));
/// let Some(Reply::Status { data, .. }) = bus.take_reply(1) else { panic!() };
/// assert_eq!(data, [0; 512]);
/// ```
#[derive(Debug)]
pub struct Bus {
    handle: NonNull<raw::Bus>,
    /// Where the library puts a reply's data.
    room: Box<[u8]>,
}

handle!(Bus, uas_bus_free);

impl Bus {
    /// A bus with a client, and its zeroed logical unit, for each number of blocks.
    pub fn new(blocks: &[u32]) -> Result<Self, OpenFault> {
        Self::open(blocks, &[], &[])
    }

    /// The same from images and with bad blocks, as [`crate::Device::open`].
    pub fn open(blocks: &[u32], image: &[u8], bad: &[BadBlock]) -> Result<Self, OpenFault> {
        Self::with_tags(blocks, image, bad, USUAL_TAGS)
    }

    /// The same of 1 to 31 clients with another number of tags each, 2 to 16; there are 248 tags at most.
    pub fn with_tags(blocks: &[u32], image: &[u8], bad: &[BadBlock], tags: usize) -> Result<Self, OpenFault> {
        let bad = raw_bad(bad);
        let mut handle = ptr::null_mut();
        // SAFETY: slices' pointers and lengths, and a reference to the place of the handle.
        let fault = unsafe {
            raw::uas_bus_open_tags(tags, blocks.as_ptr(), blocks.len(), image.as_ptr(), image.len(), bad.as_ptr(), bad.len(), &mut handle)
        };
        OpenFault::of(fault)?;
        let handle = NonNull::new(handle).ok_or(OpenFault::NoMemory)?;
        Ok(Self { handle, room: vec![0; MOST_DATA_BYTES].into() })
    }

    /// A client submits a command. `data` is as long as what it moves; of a READ it is what the reply brings where no chunk came.
    pub fn submit(&mut self, client: u32, tag: u16, ticket: u64, operation: &Operation, data: &[u8]) -> Result<(), ClientFault> {
        let operation = operation.record();
        // SAFETY: the handle is live and in no other call, as a `Bus` can't be shared between threads; a reference to what is read, and a
        // slice's pointer and length.
        ClientFault::of(unsafe { raw::uas_bus_submit(self.handle.as_ptr(), client, tag, ticket, &operation, data.as_ptr(), data.len()) })
    }

    /// A client submits a task management.
    pub fn task(&mut self, client: u32, ticket: u64, task: Task) -> Result<(), ClientFault> {
        let (function, tag) = task.numbers();
        // SAFETY: as in `submit`.
        ClientFault::of(unsafe { raw::uas_bus_task(self.handle.as_ptr(), client, ticket, function, tag) })
    }

    /// Takes a step if it is due: the client whose step it was.
    pub fn step(&mut self, step: Step) -> Option<u32> {
        let (step, pipe, tag) = step.numbers();
        let (mut acted, mut owner) = (false, -1);
        // SAFETY: as in `submit`, and references to what is written.
        unsafe { raw::uas_bus_step(self.handle.as_ptr(), step, pipe, tag, &mut acted, &mut owner) };
        u32::try_from(owner).ok().filter(|_| acted)
    }

    /// Whether a step would act.
    pub fn is_due(&self, step: Step) -> bool {
        let (step, pipe, tag) = step.numbers();
        let mut due = false;
        // SAFETY: as in `step`.
        unsafe { raw::uas_bus_due(self.handle.as_ptr(), step, pipe, tag, &mut due) };
        due
    }

    /// Takes steps until none is due, but at most `limit`.
    pub fn drain(&mut self, limit: u64) -> Drained {
        let (mut steps, mut quiet) = (0, false);
        // SAFETY: as in `step`.
        unsafe { raw::uas_bus_drain(self.handle.as_ptr(), limit, &mut steps, &mut quiet) };
        Drained { steps, quiet }
    }

    /// The client takes its oldest reply that is ready. A client that isn't there has none.
    pub fn take_reply(&mut self, client: u32) -> Option<Reply> {
        let mut door = raw::BusDoor::ZEROED;
        // SAFETY: as in `step`; the room is this bus's own.
        unsafe { raw::uas_bus_reply(self.handle.as_ptr(), client, self.room.as_mut_ptr(), self.room.len(), &mut door) };
        let told = Told {
            kind: door.reply,
            tag: door.tag,
            ticket: door.ticket,
            status: door.status,
            sense: front(&door.sense, door.sense_length.into()),
            data: front(&self.room, door.length as usize),
        };
        (door.acted == 1).then(|| told.into())
    }

    /// The blocks of a client's logical unit from `lba` on, as a READ of this moment would give them, and the bytes of bad ones too.
    pub fn blocks(&self, client: u32, lba: u32, data: &mut [u8]) -> Result<(), BlocksFault> {
        // SAFETY: as in `submit`.
        BlocksFault::of(unsafe { raw::uas_bus_blocks(self.handle.as_ptr(), client, lba, data.as_mut_ptr(), data.len()) })
    }

    /// The same of the medium.
    pub fn medium(&self, client: u32, lba: u32, data: &mut [u8]) -> Result<(), BlocksFault> {
        // SAFETY: as in `submit`.
        BlocksFault::of(unsafe { raw::uas_bus_medium(self.handle.as_ptr(), client, lba, data.as_mut_ptr(), data.len()) })
    }
}
