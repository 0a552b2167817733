//! The driver for any controller before registers that say who they are, and nothing else; of the feature `block`.
#![cfg(feature = "block")]

use uas::{quirks_of, Access, BlockDriver, BlockFault, BlockOptions, BlockRequest, BlockState, Segment};

const OPTIONS: BlockOptions = BlockOptions { bar_bytes: 4096, tags: 15, trbs: 31, address_bits: 64, quirks: 0 };

#[test]
fn options_are_refused() {
    for options in [BlockOptions { tags: 1, ..OPTIONS }, BlockOptions { trbs: 8, ..OPTIONS }, BlockOptions { quirks: 32, ..OPTIONS }] {
        assert_eq!(BlockDriver::new(options).unwrap_err(), BlockFault::Options);
    }
    assert_eq!([quirks_of(0x1b73, 0x1000), quirks_of(0x1106, 0x3483), quirks_of(0x8086, 0x9d2f)], [1, 4, 0]);
}

#[test]
fn nothing_is_ready_yet() {
    let mut driver = BlockDriver::new(OPTIONS).unwrap();
    let segment = Segment { address: 0x1000, length: 512, reserved: 0 };
    assert_eq!(driver.state(), BlockState::Surveying);
    assert_eq!(driver.answer(&[0; 4]), Err(BlockFault::NotAsked));
    assert_eq!(driver.submit(1, BlockRequest::Read { block: 0, count: 1 }, &[segment], 0, 9), Err(BlockFault::NotReady));
    assert_eq!(driver.lend(0x1_0000), Err(BlockFault::NotAsked));
    assert_eq!(driver.restart(), Err(BlockFault::NotReady));
    assert_eq!((driver.shut_down(), driver.abort(1)), (Err(BlockFault::NotReady), Err(BlockFault::NoSuchTag)));
    assert_eq!((driver.take_reply(), driver.refusal(1)), (None, None));
}

/// Capability registers as of xHCI 1.2 in a page, with a port of USB 3: the survey wants memory, and then the controller is taken.
#[test]
fn a_controller_is_surveyed() {
    let mut page = [0u8; 4096];
    let mut set = |offset: usize, word: u32| page[offset..offset + 4].copy_from_slice(&word.to_le_bytes());
    set(0, 0x0120_0040);
    set(4, 0x0100_0101);
    set(0x10, 0x0008_7001);
    set(0x14, 0x800);
    set(0x18, 0x600);
    set(0x20, 0x0300_0002);
    set(0x24, 0x2042_5355);
    set(0x28, 0x0000_0101);
    set(0x44, 1);
    set(0x48, 1);
    let mut driver = BlockDriver::new(OPTIONS).unwrap();
    let mut accesses = 0;
    while driver.state() == BlockState::Surveying && accesses < 100 {
        let Access::Read32 { offset } = driver.next(0) else { panic!("a survey only reads") };
        assert_eq!(driver.answer(&[0; 5]), Err(BlockFault::Length));
        driver.answer(&page[offset as usize..offset as usize + 4]).unwrap();
        accesses += 1;
    }
    assert_eq!(driver.state(), BlockState::WantsMemory { bytes: 126_976 });
    assert_eq!(driver.lend(0x1000), Err(BlockFault::Alignment));
    driver.lend(0x1000_0000).unwrap();
    assert!(matches!(driver.state(), BlockState::BringingUp { .. }));
}
