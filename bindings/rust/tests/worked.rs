//! Cases worked out by hand.

use std::num::NonZeroU32;
use uas::{
    lun, Asked, BadBlock, BlocksFault, Bus, ClientFault, CompletionCode, Device, DeviceFault, Drained, Driver, Function, Moved,
    NewDriverFault, OpenFault, Operation, Overlap, Phase, Pipe, Received, Reply, ResponseCode, Sense, Status, Step, Task, Transfer, Trb,
    TrbFault, TrbFlags, Unfit, Unit, UnitFault,
};

const OUT_OF_RANGE: [u8; 18] = [0x70, 0, 5, 0, 0, 0, 0, 10, 0, 0, 0, 0, 0x21, 0, 0, 0, 0, 0];

fn trb_is(trb: Trb, cycle: bool, bytes: [u8; 16]) {
    assert_eq!(trb.encode(cycle), Ok(bytes));
    assert_eq!(Trb::decode(&bytes), Ok((trb, cycle)));
}

#[test]
fn trbs() {
    trb_is(
        Trb::Normal { pointer: 0x2000_0100, length: 112, td_size: 0, flags: TrbFlags::ISP | TrbFlags::IOC },
        true,
        [0, 1, 0, 0x20, 0, 0, 0, 0, 0x70, 0, 0, 0, 0x25, 4, 0, 0],
    );
    trb_is(
        Trb::TransferEvent { pointer: 0x4200_1000, residual: 96, code: CompletionCode::ShortPacket, endpoint: 3, slot: 1 },
        true,
        [0, 0x10, 0, 0x42, 0, 0, 0, 0, 0x60, 0, 0, 0x0d, 1, 0x80, 3, 1],
    );
    trb_is(
        Trb::Link { pointer: 0x4300_1000, toggle: true, chain: true, ioc: false },
        true,
        [0, 0x10, 0, 0x43, 0, 0, 0, 0, 0, 0, 0, 0, 0x13, 0x18, 0, 0],
    );
    trb_is(Trb::StopEndpoint { endpoint: 5, slot: 1 }, true, [0, 0, 0, 0, 0, 0, 0, 0, 0, 0, 0, 0, 1, 0x3c, 5, 1]);
    trb_is(
        Trb::SetDequeue { pointer: 0x4301_2030, cycle: true, stream: 18, endpoint: 5, slot: 1 },
        true,
        [0x33, 0x20, 1, 0x43, 0, 0, 0, 0, 0, 0, 0x12, 0, 1, 0x40, 5, 1],
    );
    trb_is(
        Trb::CommandEvent { pointer: 0x5000_0010, code: CompletionCode::Success, slot: 1 },
        false,
        [0x10, 0, 0, 0x50, 0, 0, 0, 0, 0, 0, 0, 1, 0, 0x84, 0, 1],
    );
    assert_eq!(Trb::decode(&[0; 16]), Err(TrbFault::UnknownType));
    let mut bytes = [0, 0, 0, 0, 0, 0, 0, 0, 1, 0, 1, 0, 0, 4, 0, 0];
    assert_eq!(Trb::decode(&bytes), Err(TrbFault::LengthOver));
    bytes[8] = 0;
    assert!(Trb::decode(&bytes).is_ok());
    bytes[12] = 0x80;
    assert_eq!(Trb::decode(&bytes), Err(TrbFault::ReservedSet));
    assert_eq!(Trb::StopEndpoint { endpoint: 32, slot: 0 }.encode(true), Err(Unfit));
    assert!((TrbFlags::CH | TrbFlags::IOC).contains(TrbFlags::CH));
    assert!(!TrbFlags::CH.contains(TrbFlags::CH | TrbFlags::IOC));
}

fn unit_is(unit: Unit, bytes: &[u8]) {
    assert_eq!(unit.to_bytes().as_deref(), Ok(bytes));
    assert_eq!(Unit::from_bytes(bytes), Ok(unit));
}

#[test]
fn units() {
    let inquiry = Operation::Inquiry { allocation: 36 };
    let mut bytes = [0; 32];
    bytes[..4].copy_from_slice(&[1, 0, 0, 0x12]);
    bytes[9] = 2;
    bytes[16..21].copy_from_slice(&[0x12, 0, 0, 0, 0x24]);
    unit_is(Unit::Command { tag: 18, lun: lun(2), cdb: inquiry.cdb() }, &bytes);
    assert_eq!(Unit::from_bytes(&bytes[..31]), Err(UnitFault::Short));
    assert_eq!(Unit::from_bytes(&[]), Err(UnitFault::Short));
    assert_eq!(Unit::from_bytes(&[2]), Err(UnitFault::UnknownId));
    bytes[6] = 4;
    assert_eq!(Unit::from_bytes(&bytes), Err(UnitFault::LengthField));
    bytes[1] = 1;
    assert_eq!(Unit::from_bytes(&bytes), Err(UnitFault::ReservedSet));
    let sense = Sense { key: 5, asc: 0x21, ascq: 0 }.fixed();
    assert_eq!(sense, OUT_OF_RANGE);
    let mut bytes = vec![3, 0, 0, 0x12, 0, 0, 2, 0, 0, 0, 0, 0, 0, 0, 0, 18];
    bytes.extend(sense);
    unit_is(Unit::Sense { tag: 18, status: Status::CheckCondition, sense: sense.to_vec() }, &bytes);
    assert!(Unit::Sense { tag: 1, status: Status::Good, sense: vec![0; 97] }.to_bytes().is_err());
    unit_is(Unit::Response { tag: 24, code: ResponseCode::Complete }, &[4, 0, 0, 0x18, 0, 0, 0, 0]);
    unit_is(
        Unit::Task { tag: 24, function: Function::AbortTask, task_tag: 18, lun: lun(2) },
        &[5, 0, 0, 0x18, 1, 0, 0, 0x12, 0, 2, 0, 0, 0, 0, 0, 0],
    );
    assert_eq!(Unit::from_bytes(&[4, 0, 0, 0x18, 0, 0, 0, 0, 0]), Err(UnitFault::Long));
}

#[test]
fn operations() {
    let write = Operation::Write { lba: 0x102, count: 3, fua: true };
    let cdb = [0x2a, 8, 0, 0, 1, 2, 0, 0, 3, 0, 0, 0, 0, 0, 0, 0];
    assert_eq!(write.cdb(), cdb);
    assert_eq!(Operation::parse(&cdb, 65536), Ok(Asked { operation: write, transfer: Transfer::ToDevice(1536) }));
    assert_eq!(Operation::parse(&cdb, 0x104), Err(Sense { key: 5, asc: 0x21, ascq: 0 }));
    let sync = Operation::SynchronizeCache { lba: 1, count: 0 };
    assert_eq!(Operation::parse(&sync.cdb(), 2), Ok(Asked { operation: sync, transfer: Transfer::Nothing }));
    let read = Operation::Read { lba: 1, count: 128, fua: false };
    assert_eq!(Operation::parse(&read.cdb(), 129), Ok(Asked { operation: read, transfer: Transfer::ToHost(65536) }));
    let whole = Operation::Inquiry { allocation: 0x1234 };
    assert_eq!(Operation::parse(&whole.cdb(), 2), Ok(Asked { operation: whole, transfer: Transfer::ToHost(36) }));
    let inquiry = Operation::Inquiry { allocation: 5 };
    assert_eq!(Operation::parse(&inquiry.cdb(), 2), Ok(Asked { operation: inquiry, transfer: Transfer::ToHost(5) }));
    assert_eq!(uas::inquiry_data(false)[..5], [0x7f, 0, 6, 2, 0x1f]);
    assert_eq!(uas::inquiry_data(true)[32..], *b"0001");
    assert_eq!(uas::capacity_data(NonZeroU32::new(100).unwrap()), [0, 0, 0, 99, 0, 0, 2, 0]);
    let long = Operation::Write16 { lba: 98, count: 2, fua: true };
    assert_eq!(long.cdb(), [0x8a, 8, 0, 0, 0, 0, 0, 0, 0, 98, 0, 0, 0, 2, 0, 0]);
    assert_eq!(Operation::parse(&long.cdb(), 100), Ok(Asked { operation: long, transfer: Transfer::ToDevice(1024) }));
    let beyond = Operation::Read16 { lba: 1 << 32, count: 1, fua: false };
    assert_eq!(beyond.cdb(), [0x88, 0, 0, 0, 0, 1, 0, 0, 0, 0, 0, 0, 0, 1, 0, 0]);
    assert_eq!(Operation::parse(&beyond.cdb(), 65536), Err(Sense { key: 5, asc: 0x21, ascq: 0 }));
    let capacity = Operation::ReadCapacity16 { allocation: 12 };
    assert_eq!(Operation::parse(&capacity.cdb(), 100), Ok(Asked { operation: capacity, transfer: Transfer::ToHost(12) }));
    assert_eq!(uas::long_capacity_data(NonZeroU32::new(100).unwrap())[..12], [0, 0, 0, 0, 0, 0, 0, 99, 0, 0, 2, 0]);
}

fn began(tag: u16) -> Result<Received, Overlap> {
    Ok(Received { began: Some(tag), ended: vec![] })
}

fn begin(disk: &mut Device, tag: u16, unit: u8, operation: Operation) {
    let command = Unit::Command { tag, lun: lun(unit), cdb: operation.cdb() };
    assert_eq!(disk.receive(&command.to_bytes().unwrap()), began(tag));
}

fn ends(disk: &mut Device, unit: Unit) {
    assert_eq!(disk.wants(unit.tag()), Phase::Ends);
    assert_eq!(disk.status(unit.tag()).as_ref(), Ok(&unit));
    assert_eq!(disk.sent(unit.tag()), Ok(()));
    assert_eq!(disk.wants(unit.tag()), Phase::Absent);
}

fn good(tag: u16) -> Unit {
    Unit::Sense { tag, status: Status::Good, sense: vec![] }
}

#[test]
fn a_device() {
    assert_eq!(Device::new(&[]).err(), Some(OpenFault::Units));
    assert_eq!(Device::new(&[1; 32]).err(), Some(OpenFault::Units));
    assert_eq!(Device::new(&[1, 0]).err(), Some(OpenFault::Blocks));
    let mut disk = Device::new(&[100, 10]).unwrap();
    assert_eq!((disk.size(1), disk.size(2)), (Ok(10), Err(BlocksFault::Unit)));

    begin(&mut disk, 1, 1, Operation::Write { lba: 1, count: 9, fua: false });
    assert_eq!(disk.wants(1), Phase::Takes(4096));
    assert_eq!(disk.take(1, &[1; 4095]), Err(DeviceFault::Length));
    assert_eq!(disk.give(1, &mut [1; 4096]), Err(DeviceFault::Phase));
    assert_eq!(disk.take(1, &[1; 4096]), Ok(Moved::All));
    assert_eq!(disk.take(1, &[2; 512]), Ok(Moved::All));
    ends(&mut disk, good(1));

    let mut data = [7; 1024];
    assert_eq!(disk.blocks(1, 8, &mut data), Ok(()));
    assert_eq!((data[511], data[512]), (1, 2));
    assert_eq!(disk.medium(1, 8, &mut data), Ok(()));
    assert_eq!(data, [0; 1024]);
    assert_eq!(disk.blocks(1, 9, &mut data), Err(BlocksFault::Range));
    assert_eq!(disk.blocks(1, 0, &mut data[..5]), Err(BlocksFault::Length));

    begin(&mut disk, 2, 1, Operation::Read { lba: 9, count: 1, fua: false });
    let command = Unit::Command { tag: 2, lun: lun(0), cdb: Operation::TestUnitReady.cdb() };
    assert_eq!(disk.receive(&command.to_bytes().unwrap()), Err(Overlap));
    assert_eq!(disk.give(2, &mut data[..512]), Ok(Moved::All));
    assert_eq!(data[..512], [2; 512]);
    ends(&mut disk, good(2));

    begin(&mut disk, 2, 1, Operation::Read { lba: 9, count: 2, fua: false });
    ends(&mut disk, Unit::Sense { tag: 2, status: Status::CheckCondition, sense: OUT_OF_RANGE.to_vec() });
    assert_eq!(disk.receive(&[4, 0, 0, 1, 0, 0, 0, 0]), Ok(Received { began: None, ended: vec![] }));
    assert_eq!(disk.receive(&[1, 0, 0, 1]), began(1));
    ends(&mut disk, Unit::Response { tag: 1, code: ResponseCode::InvalidInformationUnit });
    begin(&mut disk, 3, 0, Operation::Read { lba: 0, count: 1, fua: false });
    let reset = Unit::Task { tag: 4, function: Function::LogicalUnitReset, task_tag: 0, lun: lun(0) };
    assert_eq!(disk.tasks().collect::<Vec<_>>(), [3]);
    assert_eq!(disk.receive(&reset.to_bytes().unwrap()), Ok(Received { began: Some(4), ended: vec![3] }));
    assert_eq!(disk.tasks().collect::<Vec<_>>(), [4]);
    ends(&mut disk, Unit::Response { tag: 4, code: ResponseCode::Complete });
    assert_eq!(disk.wants(3), Phase::Absent);

    begin(&mut disk, 240, 1, Operation::Read { lba: 0, count: 1, fua: false });
    disk.reset();
    assert_eq!(disk.tasks().next(), None);
    begin(&mut disk, 1, 1, Operation::TestUnitReady);
    let told = Sense { key: 6, asc: 0x29, ascq: 3 }.fixed().to_vec();
    ends(&mut disk, Unit::Sense { tag: 1, status: Status::CheckCondition, sense: told });
}

/// Of two logical units, of 2 blocks and of 3; all bytes of the blocks are 1 to 5.
fn image() -> Vec<u8> {
    (1..=5).flat_map(|byte| [byte; 512]).collect()
}

#[test]
fn images() {
    let bad = [BadBlock { unit: 1, lba: 2 }, BadBlock { unit: 1, lba: 2 }];
    assert_eq!(Device::open(&[2, 3], &image()[1..], &bad).err(), Some(OpenFault::Image));
    assert_eq!(Device::open(&[2, 3], &image(), &[BadBlock { unit: 0, lba: 2 }]).err(), Some(OpenFault::BadBlock));
    assert_eq!(Bus::open(&[2, 3], &image()[512..], &[]).err(), Some(OpenFault::Image));
    let mut disk = Device::open(&[2, 3], &image(), &bad).unwrap();
    let mut data = [0; 1536];
    assert_eq!(disk.medium(1, 0, &mut data), Ok(()));
    assert_eq!(data[..], image()[1024..]);
    begin(&mut disk, 1, 1, Operation::Write { lba: 1, count: 2, fua: false });
    assert_eq!(disk.take(1, &data[..1024]), Ok(Moved::BadBlock));
    let sense = Sense { key: 3, asc: 0x0c, ascq: 0 }.fixed().to_vec();
    ends(&mut disk, Unit::Sense { tag: 1, status: Status::CheckCondition, sense });
    let mut bus = Bus::open(&[2, 3], &image(), &bad).unwrap();
    assert_eq!(bus.submit(1, 17, 0, &Operation::Read { lba: 1, count: 1, fua: false }, &[0; 512]), Ok(()));
    assert!(bus.drain(1000).quiet);
    let Some(Reply::Status { status: Status::Good, data, .. }) = bus.take_reply(1) else { panic!() };
    assert_eq!(data, [4; 512]);
}

#[test]
fn a_bus() {
    assert_eq!(Bus::new(&[]).err(), Some(OpenFault::Units));
    assert_eq!(Bus::new(&[65537]).err(), Some(OpenFault::Blocks));
    let mut bus = Bus::new(&[100, 100, 100]).unwrap();
    let read = Operation::Read { lba: 0, count: 24, fua: false };
    assert_eq!(bus.submit(2, 33, 0, &read, &[7; 24 * 512]), Ok(()));
    assert_eq!(bus.submit(2, 33, 1, &read, &[7; 24 * 512]), Err(ClientFault::InUse));
    assert_eq!(bus.submit(2, 34, 0, &read, &[7; 24 * 512]), Err(ClientFault::OutOfTurn));
    assert_eq!(bus.submit(2, 34, 1, &read, &[7; 23 * 512]), Err(ClientFault::BadLength));
    assert_eq!(bus.submit(2, 17, 1, &read, &[7; 24 * 512]), Err(ClientFault::NotYours));
    assert_eq!(bus.submit(2, 34, 1 << 60, &read, &[7; 24 * 512]), Err(ClientFault::Ticket));
    assert!(bus.is_due(Step::Command));
    assert_eq!(bus.step(Step::Command), Some(2));
    assert_eq!(bus.step(Step::Command), None);
    assert!(bus.is_due(Step::Data(33)));
    assert!(!bus.is_due(Step::Data(34)));
    assert_eq!(bus.step(Step::Data(33)), Some(2));
    assert_eq!(bus.step(Step::Data(33)), Some(2));
    assert_eq!(bus.step(Step::Status(33)), None);
    assert_eq!(bus.task(2, 1, Task::Abort { tag: 34 }), Err(ClientFault::NoSuchTask));
    assert_eq!(bus.task(2, 1, Task::Abort { tag: 33 }), Ok(()));
    assert_eq!(bus.step(Step::Retire(Pipe::DataIn, 33)), None);
    assert_eq!(bus.drain(1), Drained { steps: 1, quiet: false });
    assert!(bus.drain(1000).quiet);
    assert_eq!(bus.take_reply(2), Some(Reply::Task { tag: 48, ticket: 1, code: ResponseCode::Complete }));
    let mut data = vec![0; 8192];
    data.extend([7; 4096]);
    assert_eq!(bus.take_reply(2), Some(Reply::Aborted { tag: 33, ticket: 0, data }));
    assert_eq!(bus.take_reply(2), None);
    assert_eq!(bus.take_reply(3), None);
    assert_eq!(bus.blocks(3, 0, &mut []), Err(BlocksFault::Unit));

    let beyond = Operation::Read { lba: 99, count: 2, fua: false };
    assert_eq!(bus.submit(0, 1, 0, &beyond, &[7; 1024]), Ok(()));
    assert!(bus.drain(1000).quiet);
    let check = Reply::Status { tag: 1, ticket: 0, status: Status::CheckCondition, sense: OUT_OF_RANGE.to_vec(), data: vec![7; 1024] };
    assert_eq!(bus.take_reply(0), Some(check));

    let write = Operation::Write { lba: 3, count: 1, fua: true };
    assert_eq!(bus.submit(1, 17, 0, &write, &[0xaa; 512]), Ok(()));
    assert!(bus.drain(1000).quiet);
    assert!(matches!(bus.take_reply(1), Some(Reply::Status { ticket: 0, status: Status::Good, .. })));
    let mut block = [7; 512];
    assert_eq!(bus.medium(1, 3, &mut block), Ok(()));
    assert_eq!(block, [0xaa; 512]);
    assert_eq!(bus.blocks(0, 3, &mut block), Ok(()));
    assert_eq!(block, [0; 512]);
    let write = Operation::Write { lba: 3, count: 1, fua: false };
    assert_eq!(bus.submit(1, 17, 1, &write, &[0x55; 512]), Ok(()));
    assert!(bus.drain(1000).quiet);
    assert!(bus.take_reply(1).is_some());
    assert_eq!(bus.blocks(1, 3, &mut block), Ok(()));
    assert_eq!(block, [0x55; 512]);
    assert_eq!(bus.medium(1, 3, &mut block), Ok(()));
    assert_eq!(block, [0xaa; 512]);
    assert_eq!(bus.blocks(0, 100, &mut block), Err(BlocksFault::Range));
    assert_eq!(bus.blocks(0, 3, &mut block[..1]), Err(BlocksFault::Length));
}

#[test]
fn other_numbers_of_tags() {
    let tur = Operation::TestUnitReady;
    assert_eq!(Bus::with_tags(&[1; 32], &[], &[], 8).err(), Some(OpenFault::Units));
    assert_eq!(Bus::with_tags(&[1], &[], &[], 1).err(), Some(OpenFault::Tags));
    assert_eq!(Driver::with_tags(1, 17).err(), Some(NewDriverFault::Tags));
    assert_eq!(Driver::with_tags(28, 9).err(), Some(NewDriverFault::Clients));
    let mut bus = Bus::with_tags(&[1; 31], &[], &[], 8).unwrap();
    assert_eq!(bus.submit(30, 248, 0, &tur, &[]), Err(ClientFault::NotYours));
    assert_eq!(bus.submit(30, 247, 0, &tur, &[]), Ok(()));
    assert!(bus.drain(1000).quiet);
    assert!(matches!(bus.take_reply(30), Some(Reply::Status { ticket: 0, status: Status::Good, .. })));
}

#[test]
fn another_thread() {
    let mut disk = Device::new(&[100]).unwrap();
    begin(&mut disk, 1, 0, Operation::Write { lba: 5, count: 1, fua: false });
    let mut bus = Bus::new(&[100]).unwrap();
    let write = Operation::Write { lba: 5, count: 1, fua: false };
    assert_eq!(bus.submit(0, 1, 0, &write, &[3; 512]), Ok(()));
    let (mut disk, mut bus) = std::thread::spawn(move || {
        assert_eq!(disk.take(1, &[3; 512]), Ok(Moved::All));
        assert!(bus.drain(1000).quiet);
        (disk, bus)
    })
    .join()
    .unwrap();
    ends(&mut disk, good(1));
    assert!(matches!(bus.take_reply(0), Some(Reply::Status { ticket: 0, status: Status::Good, .. })));
    let mut block = [7; 512];
    assert_eq!(bus.blocks(0, 5, &mut block), Ok(()));
    assert_eq!(block, [3; 512]);
    assert_eq!(disk.blocks(0, 5, &mut block), Ok(()));
    assert_eq!(block, [3; 512]);
}
