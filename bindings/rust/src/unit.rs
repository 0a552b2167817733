//! Information units (INCITS 471, information units).

use crate::numbers::{Function, ResponseCode, Status};
use crate::{faults, raw, MOST_SENSE_BYTES, MOST_UNIT_BYTES};
use std::fmt;

const COMMAND: u8 = 1;
const SENSE: u8 = 3;
const RESPONSE: u8 = 4;
const TASK: u8 = 5;

/// The eight bytes of the number of logical unit `number` (SAM, single level LUN structure).
pub fn lun(number: u8) -> [u8; 8] {
    [0, number, 0, 0, 0, 0, 0, 0]
}

/// An information unit.
#[derive(Clone, Debug, PartialEq, Eq, Hash)]
pub enum Unit {
    /// From the host: begin the task `tag` with this CDB.
    Command { tag: u16, lun: [u8; 8], cdb: [u8; 16] },
    /// From the device: the task `tag` ended with this status; at most 96 bytes of sense data.
    Sense { tag: u16, status: Status, sense: Vec<u8> },
    /// From the device: the answer to task management, or to bytes that are no information unit.
    Response { tag: u16, code: ResponseCode },
    /// From the host: task management, of the task `task_tag` where the function names one.
    Task { tag: u16, function: Function, task_tag: u16, lun: [u8; 8] },
}

/// Why bytes are no information unit: the first that holds.
#[derive(Clone, Copy, Debug, PartialEq, Eq, Hash)]
pub enum UnitFault {
    /// Byte 0 is no information unit's.
    UnknownId,
    /// No byte, or fewer than the information unit has.
    Short,
    /// More bytes than the information unit can have.
    Long,
    /// A byte that has to be 0 isn't.
    ReservedSet,
    /// Additional CDB bytes, or a sense length that isn't what follows it.
    LengthField,
}

impl fmt::Display for UnitFault {
    fn fmt(&self, out: &mut fmt::Formatter<'_>) -> fmt::Result {
        out.write_str(match self {
            Self::UnknownId => "unknown identifier",
            Self::Short => "too few bytes",
            Self::Long => "too many bytes",
            Self::ReservedSet => "reserved byte set",
            Self::LengthField => "wrong length field",
        })
    }
}

impl std::error::Error for UnitFault {}

/// More sense data than an information unit can hold.
#[derive(Clone, Copy, Debug, PartialEq, Eq, Hash)]
pub struct TooMuchSense;

impl fmt::Display for TooMuchSense {
    fn fmt(&self, out: &mut fmt::Formatter<'_>) -> fmt::Result {
        out.write_str("more than 96 bytes of sense data")
    }
}

impl std::error::Error for TooMuchSense {}

impl Unit {
    /// The tag of the task that the information unit belongs to.
    pub fn tag(&self) -> u16 {
        match *self {
            Self::Command { tag, .. } | Self::Sense { tag, .. } | Self::Response { tag, .. } | Self::Task { tag, .. } => tag,
        }
    }

    /// The information unit whose bytes these are.
    pub fn from_bytes(bytes: &[u8]) -> Result<Self, UnitFault> {
        let mut record = raw::Unit::ZEROED;
        // SAFETY: a slice's pointer and length, and a reference to a whole value of the declared type.
        match unsafe { raw::uas_unit_read(bytes.as_ptr(), bytes.len(), &mut record) } {
            0 => Ok(Self::of(&record)),
            faults::UNIT_UNKNOWN_ID => Err(UnitFault::UnknownId),
            faults::UNIT_SHORT => Err(UnitFault::Short),
            faults::UNIT_LONG => Err(UnitFault::Long),
            faults::UNIT_RESERVED_SET => Err(UnitFault::ReservedSet),
            _ => Err(UnitFault::LengthField),
        }
    }

    /// The information unit's bytes, at most 112.
    pub fn to_bytes(&self) -> Result<Vec<u8>, TooMuchSense> {
        let record = self.record()?;
        let mut bytes = vec![0; MOST_UNIT_BYTES];
        let mut length = 0;
        // SAFETY: as above.
        match unsafe { raw::uas_unit_write(&record, bytes.as_mut_ptr(), bytes.len(), &mut length) } {
            0 => {
                bytes.truncate(length);
                Ok(bytes)
            }
            _ => Err(TooMuchSense),
        }
    }

    fn record(&self) -> Result<raw::Unit, TooMuchSense> {
        let mut record = raw::Unit { tag: self.tag(), ..raw::Unit::ZEROED };
        match self {
            Self::Command { lun, cdb, .. } => {
                (record.id, record.lun, record.cdb) = (COMMAND, *lun, *cdb);
            }
            Self::Sense { status, sense, .. } => {
                if sense.len() > MOST_SENSE_BYTES {
                    return Err(TooMuchSense);
                }
                (record.id, record.status, record.sense_length) = (SENSE, (*status).into(), sense.len() as u8);
                record.sense[..sense.len()].copy_from_slice(sense);
            }
            Self::Response { code, .. } => (record.id, record.code) = (RESPONSE, (*code).into()),
            Self::Task { function, task_tag, lun, .. } => {
                (record.id, record.function, record.task_tag, record.lun) = (TASK, (*function).into(), *task_tag, *lun);
            }
        }
        Ok(record)
    }

    /// The information unit of a record that the library wrote.
    fn of(record: &raw::Unit) -> Self {
        let raw::Unit { tag, lun, cdb, .. } = *record;
        match record.id {
            COMMAND => Self::Command { tag, lun, cdb },
            SENSE => Self::Sense {
                tag,
                status: record.status.into(),
                sense: record.sense[..usize::from(record.sense_length).min(MOST_SENSE_BYTES)].to_vec(),
            },
            RESPONSE => Self::Response { tag, code: record.code.into() },
            _ => Self::Task { tag, function: record.function.into(), task_tag: record.task_tag, lun },
        }
    }
}
