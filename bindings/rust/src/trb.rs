//! TRBs (xHCI 1.2, 6.4).

use crate::numbers::CompletionCode;
use crate::{faults, raw};
use std::fmt;
use std::ops::BitOr;

const NORMAL: u8 = 1;
const LINK: u8 = 6;
const STOP_ENDPOINT: u8 = 15;
const SET_DEQUEUE: u8 = 16;
const TRANSFER_EVENT: u8 = 32;
const COMMAND_EVENT: u8 = 33;

/// Flags of a Normal TRB (6.4.1.1), joined by `|`.
#[derive(Clone, Copy, Debug, Default, PartialEq, Eq, Hash)]
pub struct TrbFlags(u8);

impl TrbFlags {
    pub const NONE: Self = Self(0);
    /// Evaluate Next TRB.
    pub const ENT: Self = Self(1);
    /// Interrupt on Short Packet.
    pub const ISP: Self = Self(2);
    /// No Snoop.
    pub const NS: Self = Self(4);
    /// Chain bit.
    pub const CH: Self = Self(8);
    /// Interrupt On Completion.
    pub const IOC: Self = Self(16);
    /// Immediate Data.
    pub const IDT: Self = Self(32);
    /// Block Event Interrupt.
    pub const BEI: Self = Self(64);

    /// Whether all of `others` are set.
    pub fn contains(self, others: Self) -> bool {
        self.0 & others.0 == others.0
    }
}

impl BitOr for TrbFlags {
    type Output = Self;

    fn bitor(self, other: Self) -> Self {
        Self(self.0 | other.0)
    }
}

/// A TRB without its Cycle bit.
#[derive(Clone, Copy, Debug, PartialEq, Eq, Hash)]
pub enum Trb {
    /// 6.4.1.1: at most 65,536 bytes at `pointer`, and TD Size, at most 31.
    Normal { pointer: u64, length: u32, td_size: u8, flags: TrbFlags },
    /// 6.4.4.1: `pointer` is a multiple of 16.
    Link { pointer: u64, toggle: bool, chain: bool, ioc: bool },
    /// 6.4.3.8: the endpoint ID is at most 31.
    StopEndpoint { endpoint: u8, slot: u8 },
    /// 6.4.3.9, Set TR Dequeue Pointer: `pointer` is a multiple of 16, `cycle` its cycle state (DCS).
    SetDequeue { pointer: u64, cycle: bool, stream: u16, endpoint: u8, slot: u8 },
    /// 6.4.2.1: `residual` bytes, below 2^24, weren't moved.
    TransferEvent { pointer: u64, residual: u32, code: CompletionCode, endpoint: u8, slot: u8 },
    /// 6.4.2.2, Command Completion Event: `pointer` is a multiple of 16.
    CommandEvent { pointer: u64, code: CompletionCode, slot: u8 },
}

/// Why 16 bytes are no TRB: the first that holds.
#[derive(Clone, Copy, Debug, PartialEq, Eq, Hash)]
pub enum TrbFault {
    /// The type is none of the six.
    UnknownType,
    /// A Normal TRB of more than 65,536 bytes.
    LengthOver,
    /// A bit without a field is set, or the stream context type isn't 1.
    ReservedSet,
}

impl fmt::Display for TrbFault {
    fn fmt(&self, out: &mut fmt::Formatter<'_>) -> fmt::Result {
        out.write_str(match self {
            Self::UnknownType => "unknown TRB type",
            Self::LengthOver => "TRB transfer length above 65536",
            Self::ReservedSet => "reserved TRB bit set",
        })
    }
}

impl std::error::Error for TrbFault {}

/// A field of a TRB doesn't fit its bits.
#[derive(Clone, Copy, Debug, PartialEq, Eq, Hash)]
pub struct Unfit;

impl fmt::Display for Unfit {
    fn fmt(&self, out: &mut fmt::Formatter<'_>) -> fmt::Result {
        out.write_str("a TRB's field doesn't fit its bits")
    }
}

impl std::error::Error for Unfit {}

impl Trb {
    /// The 16 bytes of the TRB with a Cycle bit.
    pub fn encode(&self, cycle: bool) -> Result<[u8; 16], Unfit> {
        let record = self.record(cycle);
        let mut bytes = [0; 16];
        // SAFETY: both pointers come from references to whole values of the declared types.
        match unsafe { raw::uas_trb_encode(&record, &mut bytes) } {
            0 => Ok(bytes),
            _ => Err(Unfit),
        }
    }

    /// The TRB that 16 bytes hold, and its Cycle bit.
    pub fn decode(bytes: &[u8; 16]) -> Result<(Self, bool), TrbFault> {
        let mut record = raw::Trb::default();
        // SAFETY: as above.
        match unsafe { raw::uas_trb_decode(bytes, &mut record) } {
            0 => Ok((Self::of(&record), record.cycle == 1)),
            faults::TRB_UNKNOWN_TYPE => Err(TrbFault::UnknownType),
            faults::TRB_LENGTH_OVER => Err(TrbFault::LengthOver),
            _ => Err(TrbFault::ReservedSet),
        }
    }

    pub(crate) fn record(&self, cycle: bool) -> raw::Trb {
        let with_cycle = raw::Trb { cycle: cycle.into(), ..raw::Trb::default() };
        match *self {
            Self::Normal { pointer, length, td_size, flags } => {
                raw::Trb { kind: NORMAL, pointer, length, td_size, flags: flags.0, ..with_cycle }
            }
            Self::Link { pointer, toggle, chain, ioc } => {
                raw::Trb { kind: LINK, pointer, toggle: toggle.into(), chain: chain.into(), ioc: ioc.into(), ..with_cycle }
            }
            Self::StopEndpoint { endpoint, slot } => raw::Trb { kind: STOP_ENDPOINT, endpoint, slot, ..with_cycle },
            Self::SetDequeue { pointer, cycle, stream, endpoint, slot } => {
                raw::Trb { kind: SET_DEQUEUE, pointer, dequeue_cycle: cycle.into(), stream, endpoint, slot, ..with_cycle }
            }
            Self::TransferEvent { pointer, residual, code, endpoint, slot } => {
                raw::Trb { kind: TRANSFER_EVENT, pointer, length: residual, code: code.into(), endpoint, slot, ..with_cycle }
            }
            Self::CommandEvent { pointer, code, slot } => raw::Trb { kind: COMMAND_EVENT, pointer, code: code.into(), slot, ..with_cycle },
        }
    }

    /// The TRB of a record that the library wrote.
    fn of(record: &raw::Trb) -> Self {
        let raw::Trb { pointer, endpoint, slot, .. } = *record;
        match record.kind {
            NORMAL => Self::Normal { pointer, length: record.length, td_size: record.td_size, flags: TrbFlags(record.flags) },
            LINK => Self::Link { pointer, toggle: record.toggle == 1, chain: record.chain == 1, ioc: record.ioc == 1 },
            STOP_ENDPOINT => Self::StopEndpoint { endpoint, slot },
            SET_DEQUEUE => Self::SetDequeue { pointer, cycle: record.dequeue_cycle == 1, stream: record.stream, endpoint, slot },
            TRANSFER_EVENT => Self::TransferEvent { pointer, residual: record.length, code: record.code.into(), endpoint, slot },
            _ => Self::CommandEvent { pointer, code: record.code.into(), slot },
        }
    }
}
