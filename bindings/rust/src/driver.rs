//! The driver (xHCI 4.6 to 4.12; INCITS 471).

use crate::client::{front, Reply, Task, Told};
use crate::faults::{ClientFault, DriverFault, NewDriverFault};
use crate::handle::handle;
use crate::places::{Context, Doorbell, Pipe};
use crate::scsi::Operation;
use crate::trb::Trb;
use crate::{raw, MOST_DATA_BYTES, USUAL_TAGS};
use std::ptr::{self, NonNull};

/// What an event was.
#[derive(Clone, Copy, Debug, PartialEq, Eq, Hash)]
pub enum Event {
    /// Nothing that waits: it answers nobody.
    Stray,
    /// The event of this tag's command, data or status.
    Matched(u16),
    /// That of a command of the controller's own ring.
    Engine,
    /// Of a TD or of a command that isn't over by it.
    Noted,
}

/// What stands in front of a controller: host, rings, stream contexts and buffers, without a controller. A call tells the doorbells that
/// are to be written; the controller beyond reads items, contexts and buffers by address, writes buffers, and hands in events, which
/// alone tell the driver how far it came. It may do anything: no event and no byte of a buffer is asked to be right. Clients, tags and
/// tickets are those of a [`crate::Bus`]. It can be sent to another thread, and isn't shared between threads.
///
/// TEST UNIT READY of client 0 under tag 1, as a controller answers it:
///
/// ```
/// use uas::{Buffer, CompletionCode, Context, Doorbell, Driver, Event, Operation, Pipe, Reply, Ring, Status, Trb, Unit};
///
/// let mut driver = Driver::new(1).unwrap();
/// let doorbells = driver.submit(0, 1, 0, &Operation::TestUnitReady, &[]).unwrap();
/// assert_eq!(doorbells, [Doorbell { endpoint: 3, stream: 1 }, Doorbell { endpoint: 2, stream: 0 }]);
///
/// let place = Ring::CommandPipe.address(0).unwrap();
/// let Ok((Trb::Normal { pointer, length, .. }, true)) = Trb::decode(&driver.item(place).unwrap()) else { panic!() };
/// let mut bytes = vec![0; length as usize];
/// driver.read(pointer, &mut bytes).unwrap();
/// assert_eq!(Unit::from_bytes(&bytes).unwrap().tag(), 1);
/// let event = |endpoint, pointer, residual, code| Trb::TransferEvent { pointer, residual, code, endpoint, slot: 1 };
/// assert_eq!(driver.event(&event(2, place, 0, CompletionCode::Success)).unwrap().0, Event::Matched(1));
///
/// let answer = Unit::Sense { tag: 1, status: Status::Good, sense: vec![] }.to_bytes().unwrap();
/// let Context { pointer: place, .. } = driver.context(Pipe::Status, 1).unwrap();
/// driver.write(Buffer::Status.address(1).unwrap(), &answer).unwrap();
/// let residual = 112 - answer.len() as u32;
/// assert_eq!(driver.event(&event(3, place, residual, CompletionCode::ShortPacket)).unwrap().0, Event::Matched(1));
/// assert!(matches!(driver.take_reply(0), Some(Reply::Status { status: Status::Good, .. })));
/// ```
#[derive(Debug)]
pub struct Driver {
    handle: NonNull<raw::Driver>,
    /// Where the library puts a reply's data.
    room: Box<[u8]>,
}

handle!(Driver, uas_driver_free);

impl Driver {
    /// A driver of so many clients, 1 to 15, with 16 tags each, that have submitted nothing.
    pub fn new(clients: usize) -> Result<Self, NewDriverFault> {
        Self::with_tags(clients, USUAL_TAGS)
    }

    /// The same of 1 to 31 clients with another number of tags each, 2 to 16; there are 248 tags at most.
    pub fn with_tags(clients: usize, tags: usize) -> Result<Self, NewDriverFault> {
        let mut handle = ptr::null_mut();
        // SAFETY: a reference to the place of the handle.
        NewDriverFault::of(unsafe { raw::uas_driver_open_tags(clients, tags, &mut handle) })?;
        let handle = NonNull::new(handle).ok_or(NewDriverFault::NoMemory)?;
        Ok(Self { handle, room: vec![0; MOST_DATA_BYTES].into() })
    }

    /// A client submits a command: the doorbells to write. `data` is as long as what it moves; of a READ it is what the reply brings where
    /// no chunk came.
    pub fn submit(&mut self, client: u32, tag: u16, ticket: u64, operation: &Operation, data: &[u8]) -> Result<Vec<Doorbell>, ClientFault> {
        let (operation, mut told) = (operation.record(), raw::DriverDoor::ZEROED);
        // SAFETY: the handle is live and in no other call, as a `Driver` can't be shared between threads; references to what is read and
        // written, and a slice's pointer and length.
        ClientFault::of(unsafe {
            raw::uas_driver_submit(self.handle.as_ptr(), client, tag, ticket, &operation, data.as_ptr(), data.len(), &mut told)
        })?;
        Ok(doorbells(&told))
    }

    /// A client submits a task management: the doorbells to write.
    pub fn task(&mut self, client: u32, ticket: u64, task: Task) -> Result<Vec<Doorbell>, ClientFault> {
        let (function, tag) = task.numbers();
        let mut told = raw::DriverDoor::ZEROED;
        // SAFETY: as in `submit`.
        ClientFault::of(unsafe { raw::uas_driver_task(self.handle.as_ptr(), client, ticket, function, tag, &mut told) })?;
        Ok(doorbells(&told))
    }

    /// The least tag above another whose TD on a pipe nothing will complete. A command that ends before its TDs do has its reply once these
    /// are retired, so ask after each event, from tag 0 on.
    pub fn left_over(&self, pipe: Pipe, above: u16) -> Option<u16> {
        let (mut tag, mut there) = (above, false);
        // SAFETY: as in `submit`.
        unsafe { raw::uas_driver_left_over(self.handle.as_ptr(), pipe.number(), &mut tag, &mut there) };
        there.then_some(tag)
    }

    /// Begins to take a tag's TD that is left over off a pipe: the doorbells to write. `None` where the TD isn't left over, and where
    /// another retirement goes on: ask again after the next event.
    pub fn retire(&mut self, pipe: Pipe, tag: u16) -> Result<Option<Vec<Doorbell>>, ClientFault> {
        let mut told = raw::DriverDoor::ZEROED;
        // SAFETY: as in `submit`.
        ClientFault::of(unsafe { raw::uas_driver_retire(self.handle.as_ptr(), pipe.number(), tag, &mut told) })?;
        Ok((told.acted == 1).then(|| doorbells(&told)))
    }

    /// Hands in an event, a [`Trb::TransferEvent`] or a [`Trb::CommandEvent`]: what it was, and the doorbells to write. It gives the item's
    /// place back, so step over a Link TRB behind it before.
    pub fn event(&mut self, event: &Trb) -> Result<(Event, Vec<Doorbell>), DriverFault> {
        let (event, mut told) = (event.record(true), raw::DriverDoor::ZEROED);
        // SAFETY: as in `submit`.
        DriverFault::of(unsafe { raw::uas_driver_event(self.handle.as_ptr(), &event, &mut told) })?;
        let was = match told.acted {
            1 => Event::Matched(told.tag),
            2 => Event::Engine,
            3 => Event::Noted,
            _ => Event::Stray,
        };
        Ok((was, doorbells(&told)))
    }

    /// The client takes its oldest reply that is ready. A client that isn't there has none.
    pub fn take_reply(&mut self, client: u32) -> Option<Reply> {
        let mut door = raw::DriverDoor::ZEROED;
        // SAFETY: as in `submit`; the room is this driver's own.
        unsafe { raw::uas_driver_reply(self.handle.as_ptr(), client, self.room.as_mut_ptr(), self.room.len(), &mut door) };
        let told = Told {
            kind: door.reply,
            tag: door.tag,
            ticket: door.ticket,
            status: door.status,
            sense: front(&door.sense, door.sense_length.into()),
            data: front(&self.room, door.length as usize),
        };
        (door.acted == 1).then(|| told.into())
    }

    /// The controller beyond reads bytes of one buffer.
    pub fn read(&self, address: u64, data: &mut [u8]) -> Result<(), DriverFault> {
        // SAFETY: as in `submit`.
        DriverFault::of(unsafe { raw::uas_driver_read(self.handle.as_ptr(), address, data.as_mut_ptr(), data.len()) })
    }

    /// The controller beyond writes bytes of one buffer.
    pub fn write(&mut self, address: u64, data: &[u8]) -> Result<(), DriverFault> {
        // SAFETY: as in `submit`.
        DriverFault::of(unsafe { raw::uas_driver_write(self.handle.as_ptr(), address, data.as_ptr(), data.len()) })
    }

    /// The controller beyond reads the 16 bytes of the item, or of the Link TRB, that stands at an address, where one does.
    pub fn item(&self, address: u64) -> Option<[u8; 16]> {
        let mut bytes = [0; 16];
        // SAFETY: as in `submit`.
        match unsafe { raw::uas_driver_item(self.handle.as_ptr(), address, &mut bytes) } {
            0 => Some(bytes),
            _ => None,
        }
    }

    /// The controller beyond reads the context of a stream, 1 to 248.
    pub fn context(&self, pipe: Pipe, stream: u16) -> Option<Context> {
        let mut bytes = [0; 16];
        // SAFETY: as in `submit`.
        match unsafe { raw::uas_driver_context(self.handle.as_ptr(), pipe.number(), stream, &mut bytes) } {
            0 => Some(Context::from_bytes(&bytes)),
            _ => None,
        }
    }
}

/// The doorbells that a call told, in the order in which to write them.
fn doorbells(told: &raw::DriverDoor) -> Vec<Doorbell> {
    told.doorbell.iter().take(told.doorbells.into()).copied().map(Doorbell::from).collect()
}
