//! USB Attached SCSI over xHCI streams, over the verified library for C (`include/uas.h`).
//!
//! - [`Trb`], [`Unit`], [`Operation`], [`Sense`]: the codecs of TRBs (xHCI 1.2, 6.4), information units (INCITS 471), CDBs and
//!   sense data (SPC, SBC); [`Ring`], [`Buffer`], [`Doorbell`], [`Context`]: where things lie, and what is written there.
//! - [`Device`]: a disk of up to 31 logical units; information units go in, information units and data come out.
//! - [`Controller`]: what stands behind a driver, an xHCI controller and its disk; rings and doorbells go in, events come out.
//! - [`Driver`]: what stands in front of a controller, the host of up to 31 clients; events go in, doorbells come out.
//! - [`Bus`]: host, xHCI controller and device as one machine of atomic steps.
//! - `BlockDriver`, of the feature `block`: a driver for any xHCI controller and one disk behind it (`include/uas_block.h`).
//!
//! A [`Driver`] and a [`Controller`], joined by copying bytes, are a [`Bus`].
//!
//! What the C header asks of its caller is upheld here, by types: pointers come from references and slices, a handle is owned and
//! freed once, and a handle is in one call at a time: the four types of handles are `Send` and not `Sync`. All else the library tests and
//! answers by a fault. Only the calls of this crate and its declarations of the C functions are unverified.
//!
//! ```
//! use uas::{Device, Operation, Phase, Status, Unit};
//!
//! let mut disk = Device::new(&[100]).unwrap();
//! let command = Unit::Command { tag: 18, lun: uas::lun(0), cdb: Operation::TestUnitReady.cdb() };
//! assert_eq!(disk.receive(&command.to_bytes().unwrap()).unwrap().began, Some(18));
//! assert_eq!(disk.wants(18), Phase::Ends);
//! assert_eq!(disk.status(18), Ok(Unit::Sense { tag: 18, status: Status::Good, sense: vec![] }));
//! assert_eq!(disk.sent(18), Ok(()));
//! ```

#[cfg(feature = "block")]
mod block;
mod bus;
mod client;
mod controller;
mod device;
mod driver;
mod faults;
mod handle;
mod numbers;
mod places;
mod raw;
#[cfg(feature = "block")]
mod raw_block;
mod scsi;
mod trb;
mod unit;

#[cfg(feature = "block")]
pub use block::{
    quirks_of, Access, BlockDisk, BlockDriver, BlockEnding, BlockFault, BlockOptions, BlockReply, BlockRequest, BlockState, Segment,
};
pub use bus::{Bus, Drained, Step};
pub use client::{Reply, Task};
pub use controller::{Controller, ControllerStep};
pub use device::{Device, Moved, Overlap, Phase, Received};
pub use driver::{Driver, Event};
pub use faults::{BlocksFault, ClientFault, ControllerFault, DeviceFault, DriverFault, NewDriverFault, OpenFault};
pub use handle::BadBlock;
pub use numbers::{CompletionCode, Function, ResponseCode, Status};
pub use places::{Buffer, Context, Doorbell, Pipe, Ring};
pub use scsi::{capacity_data, inquiry_data, long_capacity_data, Asked, Operation, Sense, Transfer};
pub use trb::{Trb, TrbFault, TrbFlags, Unfit};
pub use unit::{lun, TooMuchSense, Unit, UnitFault};

/// Bytes of a block.
pub const BLOCK_BYTES: usize = 512;

/// The most bytes that one command moves.
pub const MOST_DATA_BYTES: usize = 65536;

/// The tags of a client of a bus or of a driver where nobody says another number.
pub const USUAL_TAGS: usize = 16;

/// The most bytes of an information unit.
pub const MOST_UNIT_BYTES: usize = 112;

/// The most bytes of sense data in an information unit.
pub const MOST_SENSE_BYTES: usize = 96;

/// The version of the archive that is linked: major and minor.
pub fn version() -> (u16, u16) {
    // SAFETY: the function takes nothing.
    let version = unsafe { raw::uas_version() };
    ((version >> 16) as u16, version as u16)
}
