//! CDBs, sense data and the data of INQUIRY and READ CAPACITY (SPC, SBC).

use crate::raw;
use std::num::NonZeroU32;

const TEST_UNIT_READY: u8 = 0x00;
const INQUIRY: u8 = 0x12;
const READ_CAPACITY_10: u8 = 0x25;
const READ_10: u8 = 0x28;
const WRITE_10: u8 = 0x2a;
const SYNCHRONIZE_CACHE_10: u8 = 0x35;
const READ_16: u8 = 0x88;
const WRITE_16: u8 = 0x8a;
const READ_CAPACITY_16: u8 = 0x9e;

/// What a CDB asks of a logical unit. Blocks have 512 bytes.
#[derive(Clone, Copy, Debug, PartialEq, Eq, Hash)]
pub enum Operation {
    /// SPC.
    TestUnitReady,
    /// SPC: at most `allocation` bytes of the standard data.
    Inquiry { allocation: u16 },
    /// SBC, READ CAPACITY(10).
    ReadCapacity,
    /// SBC, READ(10).
    Read { lba: u32, count: u16, fua: bool },
    /// SBC, WRITE(10); with `fua` the medium takes the blocks too.
    Write { lba: u32, count: u16, fua: bool },
    /// SBC, SYNCHRONIZE CACHE(10): `count` blocks from `lba` on, or all from there for 0.
    SynchronizeCache { lba: u32, count: u16 },
    /// SBC, READ(16).
    Read16 { lba: u64, count: u32, fua: bool },
    /// SBC, WRITE(16); with `fua` the medium takes the blocks too.
    Write16 { lba: u64, count: u32, fua: bool },
    /// SBC, READ CAPACITY(16): at most `allocation` bytes of its data.
    ReadCapacity16 { allocation: u32 },
}

/// What a command moves, in bytes.
#[derive(Clone, Copy, Debug, PartialEq, Eq, Hash)]
pub enum Transfer {
    Nothing,
    ToHost(usize),
    ToDevice(usize),
}

/// What a CDB asks for, and what that moves.
#[derive(Clone, Copy, Debug, PartialEq, Eq, Hash)]
pub struct Asked {
    pub operation: Operation,
    pub transfer: Transfer,
}

/// Sense key, additional sense code and its qualifier (SPC).
#[derive(Clone, Copy, Debug, PartialEq, Eq, Hash)]
pub struct Sense {
    pub key: u8,
    pub asc: u8,
    pub ascq: u8,
}

impl Sense {
    /// The 18 bytes of sense data in the fixed format (SPC).
    pub fn fixed(&self) -> [u8; 18] {
        let record = raw::Sense { key: self.key, asc: self.asc, ascq: self.ascq, reserved: 0 };
        let mut bytes = [0; 18];
        // SAFETY: both pointers come from references to whole values of the declared types.
        unsafe { raw::uas_sense_data(&record, &mut bytes) };
        bytes
    }
}

impl Operation {
    /// The CDB that asks for the operation, padded with zeros.
    pub fn cdb(&self) -> [u8; 16] {
        let mut cdb = [0; 16];
        // SAFETY: both pointers come from references to whole values of the declared types.
        let fault = unsafe { raw::uas_cdb_write(&self.record(), &mut cdb) };
        debug_assert_eq!(fault, 0);
        cdb
    }

    /// What a CDB asks of a logical unit of so many blocks, or the sense of the first fault.
    pub fn parse(cdb: &[u8; 16], blocks: u32) -> Result<Asked, Sense> {
        let mut record = raw::Operation::default();
        let mut sense = raw::Sense::default();
        // SAFETY: all three pointers come from references to whole values of the declared types.
        match unsafe { raw::uas_cdb_parse(cdb, blocks, &mut record, &mut sense) } {
            0 => Ok(Asked { operation: Self::of(&record), transfer: transfer_of(&record) }),
            _ => Err(Sense { key: sense.key, asc: sense.asc, ascq: sense.ascq }),
        }
    }

    pub(crate) fn record(&self) -> raw::Operation {
        let zeroed = raw::Operation::default();
        match *self {
            Self::TestUnitReady => raw::Operation { opcode: TEST_UNIT_READY, ..zeroed },
            Self::Inquiry { allocation } => raw::Operation { opcode: INQUIRY, count: allocation.into(), ..zeroed },
            Self::ReadCapacity => raw::Operation { opcode: READ_CAPACITY_10, ..zeroed },
            Self::Read { lba, count, fua } => {
                raw::Operation { opcode: READ_10, lba: lba.into(), count: count.into(), fua: fua.into(), ..zeroed }
            }
            Self::Write { lba, count, fua } => {
                raw::Operation { opcode: WRITE_10, lba: lba.into(), count: count.into(), fua: fua.into(), ..zeroed }
            }
            Self::SynchronizeCache { lba, count } => {
                raw::Operation { opcode: SYNCHRONIZE_CACHE_10, lba: lba.into(), count: count.into(), ..zeroed }
            }
            Self::Read16 { lba, count, fua } => raw::Operation { opcode: READ_16, lba, count, fua: fua.into(), ..zeroed },
            Self::Write16 { lba, count, fua } => raw::Operation { opcode: WRITE_16, lba, count, fua: fua.into(), ..zeroed },
            Self::ReadCapacity16 { allocation } => raw::Operation { opcode: READ_CAPACITY_16, count: allocation, ..zeroed },
        }
    }

    /// The operation of a record that the library wrote, whose fields fit its command.
    fn of(record: &raw::Operation) -> Self {
        let (lba, count, fua) = (record.lba as u32, record.count as u16, record.fua == 1);
        match record.opcode {
            TEST_UNIT_READY => Self::TestUnitReady,
            INQUIRY => Self::Inquiry { allocation: count },
            READ_CAPACITY_10 => Self::ReadCapacity,
            READ_10 => Self::Read { lba, count, fua },
            WRITE_10 => Self::Write { lba, count, fua },
            READ_16 => Self::Read16 { lba: record.lba, count: record.count, fua },
            WRITE_16 => Self::Write16 { lba: record.lba, count: record.count, fua },
            READ_CAPACITY_16 => Self::ReadCapacity16 { allocation: record.count },
            _ => Self::SynchronizeCache { lba, count },
        }
    }
}

fn transfer_of(record: &raw::Operation) -> Transfer {
    match record.direction {
        1 => Transfer::ToHost(record.bytes as usize),
        2 => Transfer::ToDevice(record.bytes as usize),
        _ => Transfer::Nothing,
    }
}

/// The standard INQUIRY data (SPC) of a logical unit that is there or isn't.
pub fn inquiry_data(present: bool) -> [u8; 36] {
    let mut bytes = [0; 36];
    // SAFETY: the pointer comes from a reference to a whole value of the declared type.
    unsafe { raw::uas_inquiry_data(present, &mut bytes) };
    bytes
}

/// The READ CAPACITY(10) data (SBC) of a logical unit of so many blocks.
pub fn capacity_data(blocks: NonZeroU32) -> [u8; 8] {
    let mut bytes = [0; 8];
    // SAFETY: the pointer comes from a reference to a whole value of the declared type.
    let fault = unsafe { raw::uas_capacity_data(blocks.get(), &mut bytes) };
    debug_assert_eq!(fault, 0);
    bytes
}

/// The READ CAPACITY(16) data (SBC) of a logical unit of so many blocks.
pub fn long_capacity_data(blocks: NonZeroU32) -> [u8; 32] {
    let mut bytes = [0; 32];
    // SAFETY: the pointer comes from a reference to a whole value of the declared type.
    let fault = unsafe { raw::uas_long_capacity_data(blocks.get(), &mut bytes) };
    debug_assert_eq!(fault, 0);
    bytes
}
