//! A disk backend: information units go in, data and information units come out. The loop is the same for every tag and every transport.
//!
//!     bindings/archive && cargo run --manifest-path bindings/rust/Cargo.toml --example disk
//!
//! It does what examples/disk.c does, and prints the same.

use std::error::Error;
use uas::{Device, Operation, Phase, Unit, BLOCK_BYTES};

const TAG: u16 = 18;
const LAST: u32 = 99;

fn print(name: &str, bytes: &[u8]) {
    let bytes: String = bytes.iter().map(|byte| format!(" {byte:02x}")).collect();
    println!("{name}{bytes}");
}

/// Answers the Command information unit (INCITS 471) of an operation on logical unit 0: takes or gives chunks until the device has its
/// answer, and prints that.
fn answer(disk: &mut Device, operation: Operation, data: &mut [u8]) -> Result<(), Box<dyn Error>> {
    let command = Unit::Command { tag: TAG, lun: uas::lun(0), cdb: operation.cdb() };
    let tag = disk.receive(&command.to_bytes()?)?.began.ok_or("no task began")?;
    let mut moved = 0;
    loop {
        let length = match disk.wants(tag) {
            Phase::Gives(length) => {
                disk.give(tag, &mut data[moved..moved + length])?;
                length
            }
            Phase::Takes(length) => {
                disk.take(tag, &data[moved..moved + length])?;
                length
            }
            Phase::Ends => break,
            Phase::Absent => return Err("the task is gone".into()),
        };
        moved += length;
    }
    print("answer", &disk.status(tag)?.to_bytes()?);
    Ok(disk.sent(tag)?)
}

fn main() -> Result<(), Box<dyn Error>> {
    let mut disk = Device::new(&[LAST + 1])?;
    let mut data = [0xaa; 2 * BLOCK_BYTES];
    answer(&mut disk, Operation::Write { lba: LAST, count: 1, fua: false }, &mut data)?;
    data.fill(0);
    answer(&mut disk, Operation::Read { lba: LAST, count: 1, fua: false }, &mut data)?;
    print("block", &data[..4]);
    answer(&mut disk, Operation::Read { lba: LAST, count: 2, fua: false }, &mut data)
}
