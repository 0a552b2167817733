//! The device (INCITS 471, SAM).

use crate::faults::{BlocksFault, DeviceFault, OpenFault};
use crate::handle::{handle, raw_bad, BadBlock};
use crate::unit::Unit;
use crate::{raw, MOST_UNIT_BYTES};
use std::fmt;
use std::ptr::{self, NonNull};

/// The tag of a received information unit has a task (INCITS 471, overlapped tag).
#[derive(Clone, Copy, Debug, PartialEq, Eq, Hash)]
pub struct Overlap;

impl fmt::Display for Overlap {
    fn fmt(&self, out: &mut fmt::Formatter<'_>) -> fmt::Result {
        out.write_str("the tag has a task")
    }
}

impl std::error::Error for Overlap {}

/// What came of received bytes.
#[derive(Clone, Debug, PartialEq, Eq, Hash)]
pub struct Received {
    /// The tag on which a task began; `None`: nothing came of them.
    pub began: Option<u16>,
    /// The tags, rising, of the commands that this task management ended, which get no answer.
    pub ended: Vec<u16>,
}

/// What a device does next on a tag.
#[derive(Clone, Copy, Debug, PartialEq, Eq, Hash)]
pub enum Phase {
    /// It has no task of that tag.
    Absent,
    /// It gives a chunk of so many bytes.
    Gives(usize),
    /// It takes a chunk of so many bytes.
    Takes(usize),
    /// It sends its answer.
    Ends,
}

/// What came of a chunk.
#[derive(Clone, Copy, Debug, PartialEq, Eq, Hash)]
pub enum Moved {
    All,
    /// Nothing was moved, and the command has ended with CHECK CONDITION.
    BadBlock,
}

/// A disk of logical units. A task is named by its tag, 1 to 240. It can be sent to another thread, and isn't shared between threads.
///
/// A backend receives bytes from the command pipe, asks what a tag wants, moves its chunks and sends its answer:
///
/// ```
/// use uas::{BadBlock, Device, Moved, Operation, Phase, Status, Unit};
///
/// let image = vec![0x5a; 100 * 512];
/// let mut disk = Device::open(&[100], &image, &[BadBlock { unit: 0, lba: 9 }]).unwrap();
/// let read = Operation::Read { lba: 0, count: 10, fua: false };
/// let command = Unit::Command { tag: 1, lun: uas::lun(0), cdb: read.cdb() };
/// assert_eq!(disk.receive(&command.to_bytes().unwrap()).unwrap().began, Some(1));
/// let mut data = vec![0; 4096];
/// assert_eq!(disk.wants(1), Phase::Gives(4096));
/// assert_eq!(disk.give(1, &mut data), Ok(Moved::All));
/// assert_eq!(data, image[..4096]);
/// assert_eq!(disk.give(1, &mut data[..1024]), Ok(Moved::BadBlock));
/// assert_eq!(disk.wants(1), Phase::Ends);
/// assert!(matches!(disk.status(1), Ok(Unit::Sense { status: Status::CheckCondition, .. })));
/// disk.sent(1).unwrap();
/// ```
#[derive(Debug)]
pub struct Device {
    handle: NonNull<raw::Device>,
}

handle!(Device, uas_device_free);

impl Device {
    /// A device of one zeroed logical unit for each number of blocks, and no task.
    pub fn new(blocks: &[u32]) -> Result<Self, OpenFault> {
        Self::open(blocks, &[], &[])
    }

    /// A device from the logical units' images, one behind the other, which become its blocks and its medium; no byte: all zeros.
    pub fn open(blocks: &[u32], image: &[u8], bad: &[BadBlock]) -> Result<Self, OpenFault> {
        let bad = raw_bad(bad);
        let mut handle = ptr::null_mut();
        // SAFETY: slices' pointers and lengths, and a reference to the place of the handle.
        let fault = unsafe {
            raw::uas_device_open(blocks.as_ptr(), blocks.len(), image.as_ptr(), image.len(), bad.as_ptr(), bad.len(), &mut handle)
        };
        OpenFault::of(fault)?;
        Ok(Self { handle: NonNull::new(handle).ok_or(OpenFault::NoMemory)? })
    }

    /// The device receives the bytes of an information unit, or any others.
    pub fn receive(&mut self, bytes: &[u8]) -> Result<Received, Overlap> {
        let (mut tag, mut ended) = (0, [0; 32]);
        // SAFETY: the handle is live and in no other call, as a `Device` can't be shared between threads; a slice's pointer and length,
        // and references to what is written.
        match unsafe { raw::uas_device_receive_ended(self.handle.as_ptr(), bytes.as_ptr(), bytes.len(), &mut tag, &mut ended) } {
            0 => Ok(Received { began: (tag != 0).then_some(tag), ended: tags_of(&ended) }),
            _ => Err(Overlap),
        }
    }

    /// What the device does next on a tag.
    pub fn wants(&self, tag: u16) -> Phase {
        let (mut phase, mut length) = (0, 0);
        // SAFETY: as in `receive`.
        unsafe { raw::uas_device_wants(self.handle.as_ptr(), tag, &mut phase, &mut length) };
        match phase {
            1 => Phase::Gives(length as usize),
            2 => Phase::Takes(length as usize),
            3 => Phase::Ends,
            _ => Phase::Absent,
        }
    }

    /// The tags that have a task, rising.
    pub fn tasks(&self) -> impl Iterator<Item = u16> + '_ {
        let mut last = 0;
        std::iter::from_fn(move || {
            let mut there = false;
            // SAFETY: as in `receive`.
            unsafe { raw::uas_device_next(self.handle.as_ptr(), &mut last, &mut there) };
            there.then_some(last)
        })
    }

    /// Fills `data` with the next chunk of a tag that gives as many bytes.
    pub fn give(&mut self, tag: u16, data: &mut [u8]) -> Result<Moved, DeviceFault> {
        let mut good = false;
        // SAFETY: as in `receive`.
        DeviceFault::of(unsafe { raw::uas_device_give(self.handle.as_ptr(), tag, data.as_mut_ptr(), data.len(), &mut good) })?;
        Ok(moved(good))
    }

    /// Takes `data` as the next chunk of a tag that takes as many bytes.
    pub fn take(&mut self, tag: u16, data: &[u8]) -> Result<Moved, DeviceFault> {
        let mut good = false;
        // SAFETY: as in `receive`.
        DeviceFault::of(unsafe { raw::uas_device_take(self.handle.as_ptr(), tag, data.as_ptr(), data.len(), &mut good) })?;
        Ok(moved(good))
    }

    /// The information unit that answers the task of a tag that ends.
    pub fn status(&self, tag: u16) -> Result<Unit, DeviceFault> {
        let (mut bytes, mut length) = ([0; MOST_UNIT_BYTES], 0);
        // SAFETY: as in `receive`.
        DeviceFault::of(unsafe { raw::uas_device_status(self.handle.as_ptr(), tag, bytes.as_mut_ptr(), bytes.len(), &mut length) })?;
        Unit::from_bytes(&bytes[..(length as usize).min(MOST_UNIT_BYTES)]).map_err(|_| DeviceFault::Length)
    }

    /// The answer of a tag was sent: it has no task any more.
    pub fn sent(&mut self, tag: u16) -> Result<(), DeviceFault> {
        // SAFETY: as in `receive`.
        DeviceFault::of(unsafe { raw::uas_device_sent(self.handle.as_ptr(), tag) })
    }

    /// A reset of the whole device: no tag has a task any more, and the next command of each logical unit but INQUIRY ends with 6/29/03.
    pub fn reset(&mut self) {
        // SAFETY: as in `receive`.
        unsafe { raw::uas_device_reset(self.handle.as_ptr()) };
    }

    /// How many blocks a logical unit has.
    pub fn size(&self, unit: u16) -> Result<u32, BlocksFault> {
        let mut blocks = 0;
        // SAFETY: as in `receive`.
        BlocksFault::of(unsafe { raw::uas_device_size(self.handle.as_ptr(), unit, &mut blocks) })?;
        Ok(blocks)
    }

    /// The blocks of a logical unit from `lba` on, as a READ of this moment would give them, and the bytes of bad ones too.
    pub fn blocks(&self, unit: u16, lba: u32, data: &mut [u8]) -> Result<(), BlocksFault> {
        // SAFETY: as in `receive`.
        BlocksFault::of(unsafe { raw::uas_device_blocks(self.handle.as_ptr(), unit, lba, data.as_mut_ptr(), data.len()) })
    }

    /// The same of the medium.
    pub fn medium(&self, unit: u16, lba: u32, data: &mut [u8]) -> Result<(), BlocksFault> {
        // SAFETY: as in `receive`.
        BlocksFault::of(unsafe { raw::uas_device_medium(self.handle.as_ptr(), unit, lba, data.as_mut_ptr(), data.len()) })
    }
}

fn moved(good: bool) -> Moved {
    if good {
        Moved::All
    } else {
        Moved::BadBlock
    }
}

/// The tags whose bits are set.
fn tags_of(ended: &[u8; 32]) -> Vec<u16> {
    (0..256).filter(|&tag| ended[usize::from(tag) / 8] >> (tag % 8) & 1 == 1).collect()
}
