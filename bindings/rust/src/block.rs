//! A driver for any xHCI controller and one UAS disk behind it (`include/uas_block.h`); of the feature `block`.

use crate::faults::faults;
use crate::handle::handle;
use crate::raw_block as raw;
use std::fmt;
use std::ptr::{self, NonNull};

/// What a controller does otherwise than it tells or the standard asks, as bits of [`BlockOptions::quirks`].
pub fn quirks_of(vendor: u16, device: u16) -> u8 {
    // SAFETY: numbers alone.
    unsafe { raw::uas_block_quirks(vendor, device) }
}

/// What a driver's user asks for.
#[derive(Clone, Copy, Debug, PartialEq, Eq, Hash)]
pub struct BlockOptions {
    /// Bytes of the controller's registers.
    pub bar_bytes: u32,
    /// The most commands at a time and one: 2 to 254.
    pub tags: u8,
    /// The most pieces of a command's data: 7, 15, 31, 63 or 127.
    pub trbs: u8,
    /// The bits of an address that devices reach, 32 to 64.
    pub address_bits: u8,
    /// Bits of what the controller does otherwise: [`quirks_of`].
    pub quirks: u8,
}

/// What the caller does before the next call, in order; the barriers are in the head of `struct uas_block_access`.
#[derive(Clone, Debug, PartialEq, Eq, Hash)]
pub enum Access {
    /// Reads 32 bits of a register, and answers them as four bytes, the lowest first.
    Read32 { offset: u32 },
    /// Reads so many bytes of the lent memory, at most 4,096, and answers them.
    Load { address: u64, length: usize },
    /// Writes 32 bits of a register.
    Write32 { offset: u32, value: u32 },
    /// Writes the lent memory; four bytes by one store.
    Store { address: u64, bytes: Vec<u8> },
    /// Writes so many bytes 0.
    Zero { address: u64, length: usize },
    /// Waits for an interrupt, a call, or this time in ms.
    Rest { until: u64 },
}

/// A disk that commands are taken for.
#[derive(Clone, Copy, Debug, PartialEq, Eq, Hash)]
pub struct BlockDisk {
    /// Its number: another one after a disconnect, and where a restart finds another disk.
    pub number: u64,
    /// At most so many commands and one are taken at a time.
    pub tags: u16,
    pub blocks: u64,
    pub block_bytes: u32,
    /// The most blocks of one READ or WRITE; 0 for no limit.
    pub most_blocks: u32,
    /// The most blocks of one UNMAP; 0 for no limit.
    pub most_unmap: u32,
    pub can_unmap: bool,
    pub has_fua: bool,
}

/// Where a driver is. Rows and reasons have the numbers of the header.
#[derive(Clone, Copy, Debug, PartialEq, Eq, Hash)]
pub enum BlockState {
    Surveying,
    WantsMemory {
        bytes: usize,
    },
    BringingUp {
        row: u8,
    },
    NoDevice,
    Refused {
        why: u8,
    },
    Asking,
    Ready(BlockDisk),
    Restarting,
    ShuttingDown,
    /// The memory is the caller's again.
    Stopped,
    Gone,
    Dead,
}

/// What is asked of a disk.
#[derive(Clone, Copy, Debug, PartialEq, Eq, Hash)]
pub enum BlockRequest {
    Read { block: u64, count: u32 },
    Write { block: u64, count: u32, fua: bool },
    Sync,
    Unmap { block: u64, count: u32 },
    Ready,
}

/// Memory of a command's data: so many bytes from a DMA address on, both multiples of 512.
#[repr(C)]
#[derive(Clone, Copy, Debug, PartialEq, Eq, Hash)]
pub struct Segment {
    pub address: u64,
    pub length: u32,
    pub reserved: u32,
}

/// How a command ended.
#[derive(Clone, Debug, PartialEq, Eq, Hash)]
pub enum BlockEnding {
    Good,
    /// GOOD, but fewer bytes were moved.
    Short,
    /// Another status, with its sense.
    Status(u8, Vec<u8>),
    /// The code of a Response.
    Response(u8),
    /// The disk aborted it, or it wasn't begun.
    Aborted,
    /// It isn't known what it came to, and it may have been done: the header's number of why.
    Lost(u8),
}

#[derive(Clone, Debug, PartialEq, Eq, Hash)]
pub struct BlockReply {
    pub tag: u16,
    pub mark: u64,
    /// Bytes of its data that were moved.
    pub moved: u32,
    pub ending: BlockEnding,
}

faults! {
    /// Why a driver refuses a call.
    BlockFault {
        /// Options that can't be asked.
        Options = 177, "options that can't be asked";
        /// Nothing was told that is answered, or no memory is wanted.
        NotAsked = 178, "nothing was asked for";
        /// Other bytes than were asked for, or than a request moves.
        Length = 179, "bytes of another length";
        /// Memory, or a segment, at no such multiple as it has to be.
        Alignment = 180, "memory that isn't aligned";
        /// Memory, or a segment, that the controller doesn't reach.
        Reach = 181, "memory that the controller doesn't reach";
        /// No disk is used.
        NotReady = 182, "no disk is used";
        /// Another disk is used.
        OtherDisk = 183, "another disk is used";
        /// A block isn't on the disk.
        Range = 184, "a block that isn't on the disk";
        /// More blocks than one request can have.
        TooLong = 185, "more blocks than one request can have";
        /// The disk can't unmap blocks.
        NoUnmap = 186, "the disk can't unmap blocks";
        /// The disk has no forced unit access.
        NoFua = 187, "the disk has no forced unit access";
        /// More pieces than the data of a command can have.
        Pieces = 188, "more pieces than the data of a command can have";
        /// As many commands are out as can be.
        NoTag = 189, "as many commands are out as can be";
        /// No command is out on the tag.
        NoSuchTag = 190, "no command is out on the tag";
    } else {
        NoMemory, "no memory"
    }
}

/// A driver that touches nothing itself: it tells one [`Access`] after the other, and its caller does them.
///
/// ```
/// use uas::{Access, BlockDriver, BlockOptions, BlockState};
///
/// let options = BlockOptions { bar_bytes: 4096, tags: 15, trbs: 31, address_bits: 64, quirks: 0 };
/// let mut driver = BlockDriver::new(options).unwrap();
/// assert_eq!(driver.next(0), Access::Read32 { offset: 0 });
/// driver.answer(&[0xff; 4]).unwrap();
/// assert_eq!(driver.state(), BlockState::Gone);
/// ```
#[derive(Debug)]
pub struct BlockDriver {
    handle: NonNull<raw::Block>,
}

handle!(BlockDriver, uas_block_free);

impl BlockDriver {
    /// A driver for a controller of which nothing is known.
    pub fn new(options: BlockOptions) -> Result<Self, BlockFault> {
        let BlockOptions { bar_bytes, tags, trbs, address_bits, quirks } = options;
        let asked = raw::Options { bar_bytes, tags, trbs, address_bits, quirks };
        let mut handle = ptr::null_mut();
        // SAFETY: references to the options and to the place of the handle.
        let fault = unsafe { raw::uas_block_new(&asked, &mut handle) };
        BlockFault::of(fault)?;
        Ok(Self { handle: NonNull::new(handle).ok_or(BlockFault::NoMemory)? })
    }

    /// What the caller does next, at a time in ms. What is read is told again until it is answered.
    pub fn next(&mut self, now: u64) -> Access {
        let mut access = raw::Access::default();
        // SAFETY: the handle is live and in no other call, as a `BlockDriver` can't be shared between threads; a reference.
        unsafe { raw::uas_block_next(self.handle.as_ptr(), now, &mut access) };
        let (at, length) = (access.at, access.length as usize);
        match access.kind {
            1 => Access::Read32 { offset: at as u32 },
            2 => Access::Load { address: at, length },
            3 => Access::Write32 { offset: at as u32, value: access.value },
            4 => Access::Store { address: at, bytes: access.bytes[..length].to_vec() },
            5 => Access::Zero { address: at, length },
            _ => Access::Rest { until: at },
        }
    }

    /// What was read.
    pub fn answer(&mut self, bytes: &[u8]) -> Result<(), BlockFault> {
        // SAFETY: as in `next`; a slice's pointer and length.
        BlockFault::of(unsafe { raw::uas_block_answer(self.handle.as_ptr(), bytes.as_ptr(), bytes.len()) })
    }

    /// An interrupt of the controller came.
    pub fn interrupted(&mut self) {
        // SAFETY: as in `next`.
        unsafe { raw::uas_block_interrupted(self.handle.as_ptr()) };
    }

    /// Where the driver is.
    pub fn state(&self) -> BlockState {
        let mut state = raw::State::default();
        // SAFETY: as in `next`.
        unsafe { raw::uas_block_state(self.handle.as_ptr(), &mut state) };
        match state.state {
            1 => BlockState::Surveying,
            2 => BlockState::WantsMemory { bytes: state.bytes as usize },
            3 => BlockState::BringingUp { row: state.row },
            4 => BlockState::NoDevice,
            5 => BlockState::Refused { why: state.why },
            6 => BlockState::Asking,
            7 => BlockState::Ready(BlockDisk {
                number: state.disk,
                tags: state.tags,
                blocks: state.blocks,
                block_bytes: state.block_bytes,
                most_blocks: state.most_blocks,
                most_unmap: state.most_unmap,
                can_unmap: state.can_unmap,
                has_fua: state.has_fua,
            }),
            8 => BlockState::Restarting,
            9 => BlockState::ShuttingDown,
            10 => BlockState::Stopped,
            11 => BlockState::Gone,
            _ => BlockState::Dead,
        }
    }

    /// Why the device at a port isn't used, by the header's number; `None` where it is, or there is none.
    pub fn refusal(&self, port: u8) -> Option<u8> {
        // SAFETY: as in `next`.
        Some(unsafe { raw::uas_block_refusal(self.handle.as_ptr(), port) }).filter(|&why| why != 0)
    }

    /// Lends the bytes that the state wants, from a DMA address on.
    pub fn lend(&mut self, base: u64) -> Result<(), BlockFault> {
        // SAFETY: as in `next`; the library itself doesn't touch the memory.
        BlockFault::of(unsafe { raw::uas_block_lend(self.handle.as_ptr(), base) })
    }

    /// Submits a request of the disk of a number, with the segments of its data; `mark` comes back with its reply, and `limit` is the time in ms by
    /// which it is over. Its tag.
    pub fn submit(&mut self, disk: u64, request: BlockRequest, segments: &[Segment], mark: u64, limit: u64) -> Result<u16, BlockFault> {
        let (kind, block, count, fua) = match request {
            BlockRequest::Read { block, count } => (1, block, count, false),
            BlockRequest::Write { block, count, fua } => (2, block, count, fua),
            BlockRequest::Sync => (3, 0, 0, false),
            BlockRequest::Unmap { block, count } => (4, block, count, false),
            BlockRequest::Ready => (5, 0, 0, false),
        };
        let asked = raw::Request { disk, block, mark, limit, count, kind, fua, reserved: [0; 2] };
        let mut tag = 0;
        // SAFETY: as in `next`; references, and a slice's pointer and length. The library doesn't write the segments.
        let fault = unsafe { raw::uas_block_submit(self.handle.as_ptr(), &asked, segments.as_ptr(), segments.len(), &mut tag) };
        BlockFault::of(fault)?;
        Ok(tag)
    }

    /// The reply of the lowest tag that has one.
    pub fn take_reply(&mut self) -> Option<BlockReply> {
        let mut reply = raw::Reply::ZEROED;
        // SAFETY: as in `next`.
        if !unsafe { raw::uas_block_take_reply(self.handle.as_ptr(), &mut reply) } {
            return None;
        }
        let ending = match reply.kind {
            1 => BlockEnding::Good,
            2 => BlockEnding::Short,
            3 => BlockEnding::Status(reply.code, reply.sense[..usize::from(reply.sense_length)].to_vec()),
            4 => BlockEnding::Response(reply.code),
            5 => BlockEnding::Aborted,
            _ => BlockEnding::Lost(reply.code),
        };
        Some(BlockReply { tag: reply.tag, mark: reply.mark, moved: reply.moved, ending })
    }

    /// Aborts the command on a tag: its reply says so, or what its status said that came first.
    pub fn abort(&mut self, tag: u16) -> Result<(), BlockFault> {
        // SAFETY: as in `next`.
        BlockFault::of(unsafe { raw::uas_block_abort(self.handle.as_ptr(), tag) })
    }

    /// Shuts the driver down, up to [`BlockState::Stopped`]: all commands end, and the controller is reset.
    pub fn shut_down(&mut self) -> Result<(), BlockFault> {
        // SAFETY: as in `next`.
        BlockFault::of(unsafe { raw::uas_block_shut_down(self.handle.as_ptr()) })
    }

    /// Tries the device again; all commands that are out are lost.
    pub fn restart(&mut self) -> Result<(), BlockFault> {
        // SAFETY: as in `next`.
        BlockFault::of(unsafe { raw::uas_block_restart(self.handle.as_ptr()) })
    }
}
