//! The controller and its disk (xHCI 4.6 to 4.12).

use crate::faults::{BlocksFault, ControllerFault, OpenFault};
use crate::handle::{handle, raw_bad, BadBlock};
use crate::places::{Context, Doorbell, Pipe, Ring};
use crate::trb::Trb;
use crate::{raw, MOST_DATA_BYTES};
use std::ptr::{self, NonNull};

const TRANSFER_EVENT: u8 = 32;

/// A step of a controller, which takes at most one item off one ring.
#[derive(Clone, Copy, Debug, PartialEq, Eq, Hash)]
pub enum ControllerStep {
    /// The device receives the oldest information unit of the command pipe.
    Command,
    /// A chunk of the tag's data is moved.
    Data(u16),
    /// The tag's status is moved.
    Status(u16),
    /// The oldest command of the controller's own ring is executed (4.6.9, 4.6.10).
    Engine,
}

/// What stands behind a driver: rings, buffers, stream contexts, an xHCI controller and its disk, without a host. The driver puts any 16
/// bytes on a ring, rings doorbells and takes events; nothing happens but by steps. It can be sent to another thread, and isn't shared
/// between threads.
///
/// TEST UNIT READY of tag 1, as a driver does it:
///
/// ```
/// use uas::{lun, Buffer, Controller, ControllerStep, Doorbell, Operation, Pipe, Ring, Status, Trb, TrbFlags, Unit};
///
/// let mut controller = Controller::new(&[100]).unwrap();
/// let command = Unit::Command { tag: 1, lun: lun(0), cdb: Operation::TestUnitReady.cdb() }.to_bytes().unwrap();
/// let (command_buffer, status_buffer) = (Buffer::Command.address(1).unwrap(), Buffer::Status.address(1).unwrap());
/// controller.write(command_buffer, &command).unwrap();
/// let normal = |pointer, length| Trb::Normal { pointer, length, td_size: 0, flags: TrbFlags::IOC }.encode(true).unwrap();
/// controller.put(Ring::Stream(Pipe::Status, 1), &normal(status_buffer, 112)).unwrap();
/// let place = controller.put(Ring::CommandPipe, &normal(command_buffer, 32)).unwrap();
/// assert_eq!(Ring::at(place), Some((Ring::CommandPipe, 0)));
/// controller.doorbell(Doorbell { endpoint: Pipe::Status.endpoint(), stream: 1 });
///
/// assert_eq!(controller.step(ControllerStep::Command), Some(1));
/// assert!(matches!(controller.take_event(), Some(Trb::TransferEvent { pointer, .. }) if pointer == place));
/// assert_eq!(controller.step(ControllerStep::Status(1)), Some(1));
/// let Some(Trb::TransferEvent { residual, .. }) = controller.take_event() else { panic!() };
/// let mut answer = vec![0; 112 - residual as usize];
/// controller.read(status_buffer, &mut answer).unwrap();
/// assert_eq!(Unit::from_bytes(&answer), Ok(Unit::Sense { tag: 1, status: Status::Good, sense: vec![] }));
/// ```
#[derive(Debug)]
pub struct Controller {
    handle: NonNull<raw::Controller>,
}

handle!(Controller, uas_controller_free);

impl Controller {
    /// A controller of one zeroed logical unit for each number of blocks. Every endpoint runs, and no doorbell was rung.
    pub fn new(blocks: &[u32]) -> Result<Self, OpenFault> {
        Self::open(blocks, &[], &[])
    }

    /// The same from images and with bad blocks, as [`crate::Device::open`].
    pub fn open(blocks: &[u32], image: &[u8], bad: &[BadBlock]) -> Result<Self, OpenFault> {
        let bad = raw_bad(bad);
        let mut handle = ptr::null_mut();
        // SAFETY: slices' pointers and lengths, and a reference to the place of the handle.
        let fault = unsafe {
            raw::uas_controller_open(blocks.as_ptr(), blocks.len(), image.as_ptr(), image.len(), bad.as_ptr(), bad.len(), &mut handle)
        };
        OpenFault::of(fault)?;
        Ok(Self { handle: NonNull::new(handle).ok_or(OpenFault::NoMemory)? })
    }

    /// Puts 16 bytes behind a ring's last item, with the ring's Cycle bit in place of theirs: the address where they stand.
    pub fn put(&mut self, ring: Ring, item: &[u8; 16]) -> Result<u64, ControllerFault> {
        let (number, stream) = ring.numbers();
        let mut address = 0;
        // SAFETY: the handle is live and in no other call, as a `Controller` can't be shared between threads; references to what is read
        // and written.
        ControllerFault::of(unsafe { raw::uas_controller_put_raw(self.handle.as_ptr(), number, stream, item, &mut address) })?;
        Ok(address)
    }

    /// Writes a doorbell. One that names no stream of a pipe changes nothing.
    pub fn doorbell(&mut self, doorbell: Doorbell) {
        // SAFETY: as in `put`.
        unsafe { raw::uas_controller_doorbell(self.handle.as_ptr(), doorbell.into()) };
    }

    /// Takes a step if it is due: the tag that it acted on, which is 0 of the controller's own ring, and of the command pipe where no
    /// task began.
    pub fn step(&mut self, step: ControllerStep) -> Option<u16> {
        let (step, mut tag) = match step {
            ControllerStep::Command => (1, 0),
            ControllerStep::Data(tag) => (2, tag),
            ControllerStep::Status(tag) => (3, tag),
            ControllerStep::Engine => (4, 0),
        };
        let mut acted = false;
        // SAFETY: as in `put`.
        unsafe { raw::uas_controller_step(self.handle.as_ptr(), step, &mut tag, &mut acted) };
        acted.then_some(tag)
    }

    /// Takes the oldest event off the event ring: a [`Trb::TransferEvent`] or a [`Trb::CommandEvent`].
    pub fn take_event(&mut self) -> Option<Trb> {
        let mut event = raw::ControllerDoor::default();
        // SAFETY: as in `put`.
        unsafe { raw::uas_controller_event(self.handle.as_ptr(), &mut event) };
        let raw::ControllerDoor { address: pointer, value: residual, endpoint, slot, .. } = event;
        let code = event.code.into();
        (event.acted == 1).then_some(match event.kind {
            TRANSFER_EVENT => Trb::TransferEvent { pointer, residual, code, endpoint, slot },
            _ => Trb::CommandEvent { pointer, code, slot },
        })
    }

    /// Writes bytes of one buffer.
    pub fn write(&mut self, address: u64, data: &[u8]) -> Result<(), ControllerFault> {
        // SAFETY: as in `put`, and a slice's pointer and length.
        ControllerFault::of(unsafe { raw::uas_controller_write(self.handle.as_ptr(), address, data.as_ptr(), data.len()) })
    }

    /// Reads bytes of one buffer.
    pub fn read(&self, address: u64, data: &mut [u8]) -> Result<(), ControllerFault> {
        // SAFETY: as in `write`.
        ControllerFault::of(unsafe { raw::uas_controller_read(self.handle.as_ptr(), address, data.as_mut_ptr(), data.len()) })
    }

    /// Lends a copy of at most 65,536 bytes as the data buffer of a tag.
    pub fn lend(&mut self, tag: u16, data: &[u8]) -> Result<(), ControllerFault> {
        // SAFETY: as in `write`.
        ControllerFault::of(unsafe { raw::uas_controller_lend(self.handle.as_ptr(), tag, data.as_ptr(), data.len()) })
    }

    /// Ends the loan of a tag: what it holds.
    pub fn take_back(&mut self, tag: u16) -> Result<Vec<u8>, ControllerFault> {
        let (mut data, mut length) = (vec![0; MOST_DATA_BYTES], 0);
        // SAFETY: as in `write`.
        ControllerFault::of(unsafe {
            raw::uas_controller_take_back(self.handle.as_ptr(), tag, data.as_mut_ptr(), data.len(), &mut length)
        })?;
        data.truncate(length as usize);
        Ok(data)
    }

    /// Gives a ring's consumed items back to it, from the oldest up to the one at an address, so that their places can be used again.
    pub fn reclaim(&mut self, ring: Ring, address: u64) -> Result<(), ControllerFault> {
        let (number, stream) = ring.numbers();
        // SAFETY: as in `put`.
        ControllerFault::of(unsafe { raw::uas_controller_reclaim(self.handle.as_ptr(), number, stream, address) })
    }

    /// The context of a stream, 1 to 248.
    pub fn context(&self, pipe: Pipe, stream: u16) -> Option<Context> {
        let mut bytes = [0; 16];
        // SAFETY: as in `put`.
        match unsafe { raw::uas_controller_context(self.handle.as_ptr(), pipe.number(), stream, &mut bytes) } {
            0 => Some(Context::from_bytes(&bytes)),
            _ => None,
        }
    }

    /// The blocks of a logical unit from `lba` on, as a READ of this moment would give them, and the bytes of bad ones too.
    pub fn blocks(&self, unit: u16, lba: u32, data: &mut [u8]) -> Result<(), BlocksFault> {
        // SAFETY: as in `write`.
        BlocksFault::of(unsafe { raw::uas_controller_blocks(self.handle.as_ptr(), unit, lba, data.as_mut_ptr(), data.len()) })
    }

    /// The same of the medium.
    pub fn medium(&self, unit: u16, lba: u32, data: &mut [u8]) -> Result<(), BlocksFault> {
        // SAFETY: as in `write`.
        BlocksFault::of(unsafe { raw::uas_controller_medium(self.handle.as_ptr(), unit, lba, data.as_mut_ptr(), data.len()) })
    }
}
