//! A driver and a controller, joined by copying bytes.

use uas::{
    BadBlock, Buffer, ClientFault, Controller, ControllerFault, ControllerStep, Doorbell, Driver, DriverFault, Event, NewDriverFault,
    Operation, Pipe, Reply, Ring, Sense, Status, Trb,
};

const PIPES: [Pipe; 3] = [Pipe::Status, Pipe::DataIn, Pipe::DataOut];

/// Both halves, and which place of each ring that is used is copied next.
struct Joined {
    driver: Driver,
    controller: Controller,
    next: Vec<(Ring, usize)>,
}

impl Joined {
    fn new(blocks: &[u32], image: &[u8], bad: &[BadBlock]) -> Self {
        let driver = Driver::new(blocks.len()).unwrap();
        let controller = Controller::open(blocks, image, bad).unwrap();
        Self { driver, controller, next: vec![(Ring::CommandPipe, 0), (Ring::Commands, 0)] }
    }

    /// A command, with its buffers, its TRBs and its doorbells.
    fn submit(&mut self, client: u32, tag: u16, ticket: u64, operation: Operation, data: &[u8]) {
        let doorbells = self.driver.submit(client, tag, ticket, &operation, data).unwrap();
        for pipe in PIPES {
            if !self.next.iter().any(|&(ring, _)| ring == Ring::Stream(pipe, tag)) {
                self.next.push((Ring::Stream(pipe, tag), 0));
            }
        }
        let (mut unit, command) = ([0; 32], Buffer::Command.address(tag).unwrap());
        self.driver.read(command, &mut unit).unwrap();
        self.controller.write(command, &unit).unwrap();
        if !data.is_empty() {
            let mut window = vec![0; data.len()];
            self.driver.read(Buffer::Data.address(tag).unwrap(), &mut window).unwrap();
            self.controller.lend(tag, &window).unwrap();
        }
        self.ring(doorbells);
    }

    /// Copies what stands on the rings, then writes doorbells.
    fn ring(&mut self, doorbells: Vec<Doorbell>) {
        for (ring, place) in &mut self.next {
            while let Some(item) = self.driver.item(ring.address(*place).unwrap()) {
                assert_eq!(self.controller.put(*ring, &item), Ok(ring.address(*place).unwrap()));
                *place += 1;
            }
        }
        for doorbell in doorbells {
            self.controller.doorbell(doorbell);
        }
    }

    /// Steps and events until nothing is due. TDs that are left over are retired.
    fn drain(&mut self, tag: u16, data: usize) {
        let steps = [ControllerStep::Command, ControllerStep::Data(tag), ControllerStep::Status(tag), ControllerStep::Engine];
        while steps.iter().any(|&step| self.controller.step(step).is_some()) {
            self.copy_back(Buffer::Status.address(tag).unwrap(), 112);
            self.copy_back(Buffer::Data.address(tag).unwrap(), data);
            while let Some(event) = self.controller.take_event() {
                let (was, doorbells) = self.driver.event(&event).unwrap();
                assert_ne!(was, Event::Stray);
                self.ring(doorbells);
            }
            for pipe in PIPES {
                if let Some(left) = self.driver.left_over(pipe, 0) {
                    if let Some(doorbells) = self.driver.retire(pipe, left).unwrap() {
                        self.ring(doorbells);
                    }
                }
            }
        }
    }

    fn copy_back(&mut self, address: u64, length: usize) {
        let mut bytes = vec![0; length];
        self.controller.read(address, &mut bytes).unwrap();
        self.driver.write(address, &bytes).unwrap();
    }
}

#[test]
fn a_block_that_was_written_is_read() {
    let mut joined = Joined::new(&[100, 100], &[], &[]);
    joined.submit(1, 17, 0, Operation::Write { lba: 7, count: 9, fua: false }, &[0xaa; 9 * 512]);
    joined.drain(17, 9 * 512);
    assert!(matches!(joined.driver.take_reply(1), Some(Reply::Status { status: Status::Good, .. })));
    assert_eq!(joined.controller.take_back(17).unwrap().len(), 9 * 512);
    joined.submit(1, 17, 1, Operation::Read { lba: 14, count: 2, fua: false }, &[0x77; 1024]);
    joined.drain(17, 1024);
    let Some(Reply::Status { tag: 17, ticket: 1, status: Status::Good, data, .. }) = joined.driver.take_reply(1) else { panic!() };
    assert_eq!(data, [0xaa; 1024]);
    let mut block = [7; 512];
    assert_eq!(joined.controller.blocks(0, 7, &mut block), Ok(()));
    assert_eq!(block, [0; 512]);
    assert_eq!(joined.driver.take_reply(0), None);
}

#[test]
fn a_bad_block_is_told_once_its_transfer_is_retired() {
    let image: Vec<u8> = (0..100).flat_map(|block| [block; 512]).collect();
    let mut joined = Joined::new(&[100], &image, &[BadBlock { unit: 0, lba: 10 }]);
    joined.submit(0, 1, 0, Operation::Read { lba: 1, count: 16, fua: false }, &[0x77; 16 * 512]);
    joined.drain(1, 16 * 512);
    let Some(Reply::Status { status: Status::CheckCondition, sense, data, .. }) = joined.driver.take_reply(0) else { panic!() };
    assert_eq!(sense, Sense { key: 3, asc: 0x11, ascq: 0 }.fixed());
    assert_eq!(data[..8 * 512], image[512..9 * 512]);
    assert_eq!(data[8 * 512..], [0x77; 8 * 512]);
    let context = joined.controller.context(Pipe::DataIn, 1).unwrap();
    assert_eq!(Ring::at(context.pointer), Some((Ring::Stream(Pipe::DataIn, 1), 2)));
    assert_eq!(joined.driver.context(Pipe::DataIn, 1), Some(context));
}

#[test]
fn refusals() {
    assert_eq!(Driver::new(0).err(), Some(NewDriverFault::Clients));
    assert_eq!(Driver::new(16).err(), Some(NewDriverFault::Clients));
    let mut driver = Driver::new(1).unwrap();
    let ready = Operation::TestUnitReady;
    assert_eq!(driver.submit(1, 17, 0, &ready, &[]), Err(ClientFault::NotYours));
    assert!(driver.submit(0, 1, 0, &ready, &[]).is_ok());
    assert_eq!(driver.submit(0, 1, 1, &ready, &[]), Err(ClientFault::Room));
    assert_eq!(driver.write(0, &[1]), Err(DriverFault::Address));
    assert_eq!(driver.event(&Trb::StopEndpoint { endpoint: 3, slot: 1 }), Err(DriverFault::Event));
    assert_eq!(driver.context(Pipe::Status, 249), None);
    assert_eq!(driver.item(0), None);
    let mut controller = Controller::new(&[1]).unwrap();
    assert_eq!(controller.put(Ring::Stream(Pipe::Status, 0), &[0; 16]), Err(ControllerFault::Ring));
    assert_eq!(controller.read(0, &mut [0]), Err(ControllerFault::Address));
    assert_eq!(controller.lend(249, &[]), Err(ControllerFault::Tag));
    assert_eq!(controller.lend(1, &[0; 65537]), Err(ControllerFault::Length));
    assert_eq!(controller.lend(1, &[1]), Ok(()));
    assert_eq!(controller.lend(1, &[1]), Err(ControllerFault::Lent));
    assert_eq!(controller.take_back(1), Ok(vec![1]));
    assert_eq!(controller.take_back(1), Err(ControllerFault::NotLent));
    let place = controller.put(Ring::Commands, &[0; 16]).unwrap();
    assert_eq!(controller.reclaim(Ring::Commands, place), Err(ControllerFault::NotConsumed));
    assert_eq!(controller.context(Pipe::Status, 0), None);
    assert_eq!(uas::version(), (1, 0));
    assert_eq!(u32::from(Doorbell::from(0x0012_ff05)), 0x0012_0005);
    let threads = std::thread::spawn(move || (driver, controller));
    assert!(threads.join().is_ok());
}
