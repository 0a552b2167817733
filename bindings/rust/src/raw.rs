//! The declarations of `include/uas.h`, by hand.

use std::ffi::c_int;

#[repr(C)]
#[derive(Clone, Copy, Default)]
pub struct Trb {
    pub pointer: u64,
    pub length: u32,
    pub stream: u16,
    pub kind: u8,
    pub cycle: u8,
    pub td_size: u8,
    pub flags: u8,
    pub toggle: u8,
    pub chain: u8,
    pub ioc: u8,
    pub dequeue_cycle: u8,
    pub endpoint: u8,
    pub slot: u8,
    pub code: u8,
    pub reserved: [u8; 7],
}

#[repr(C)]
#[derive(Clone, Copy)]
pub struct Unit {
    pub id: u8,
    pub status: u8,
    pub code: u8,
    pub function: u8,
    pub tag: u16,
    pub task_tag: u16,
    pub lun: [u8; 8],
    pub cdb: [u8; 16],
    pub sense_length: u8,
    pub sense: [u8; 96],
    pub reserved: [u8; 3],
}

impl Unit {
    pub const ZEROED: Self = Self {
        id: 0,
        status: 0,
        code: 0,
        function: 0,
        tag: 0,
        task_tag: 0,
        lun: [0; 8],
        cdb: [0; 16],
        sense_length: 0,
        sense: [0; 96],
        reserved: [0; 3],
    };
}

#[repr(C)]
#[derive(Clone, Copy, Default)]
pub struct Operation {
    pub lba: u64,
    pub bytes: u64,
    pub count: u32,
    pub opcode: u8,
    pub fua: u8,
    pub direction: u8,
    pub reserved: u8,
}

#[repr(C)]
#[derive(Clone, Copy, Default)]
pub struct Sense {
    pub key: u8,
    pub asc: u8,
    pub ascq: u8,
    pub reserved: u8,
}

/// A block that can be neither read nor written.
#[repr(C)]
#[derive(Clone, Copy)]
pub struct BadBlock {
    pub unit: u32,
    pub lba: u32,
}

#[repr(C)]
#[derive(Clone, Copy, Default)]
pub struct ControllerDoor {
    pub address: u64,
    pub value: u32,
    pub lba: u32,
    pub stream: u16,
    pub tag: u16,
    pub unit: u16,
    pub call: u8,
    pub ring: u8,
    pub step: u8,
    pub acted: u8,
    pub kind: u8,
    pub code: u8,
    pub endpoint: u8,
    pub slot: u8,
    pub reserved: [u8; 2],
}

#[repr(C)]
#[derive(Clone, Copy)]
pub struct DriverDoor {
    pub ticket: u64,
    pub address: u64,
    pub operation: Operation,
    pub client: u32,
    pub length: u32,
    pub tag: u16,
    pub stream: u16,
    pub doorbells: u16,
    pub call: u8,
    pub pipe: u8,
    pub function: u8,
    pub acted: u8,
    pub kind: u8,
    pub code: u8,
    pub endpoint: u8,
    pub slot: u8,
    pub reply: u8,
    pub status: u8,
    pub sense_length: u8,
    pub state: u8,
    pub reserved: [u8; 2],
    pub moved: u32,
    pub sense: [u8; 96],
    pub doorbell: [u32; 256],
}

impl DriverDoor {
    pub const ZEROED: Self = Self {
        ticket: 0,
        address: 0,
        operation: Operation { lba: 0, bytes: 0, count: 0, opcode: 0, fua: 0, direction: 0, reserved: 0 },
        client: 0,
        length: 0,
        tag: 0,
        stream: 0,
        doorbells: 0,
        call: 0,
        pipe: 0,
        function: 0,
        acted: 0,
        kind: 0,
        code: 0,
        endpoint: 0,
        slot: 0,
        reply: 0,
        status: 0,
        sense_length: 0,
        state: 0,
        reserved: [0; 2],
        moved: 0,
        sense: [0; 96],
        doorbell: [0; 256],
    };
}

#[repr(C)]
#[derive(Clone, Copy)]
pub struct BusDoor {
    pub ticket: u64,
    pub steps: u64,
    pub operation: Operation,
    pub client: u32,
    pub length: u32,
    pub tag: u16,
    pub call: u8,
    pub step: u8,
    pub pipe: u8,
    pub function: u8,
    pub acted: u8,
    pub has_owner: u8,
    pub reply: u8,
    pub status: u8,
    pub sense_length: u8,
    pub reserved: [u8; 5],
    pub sense: [u8; 96],
}

impl BusDoor {
    pub const ZEROED: Self = Self {
        ticket: 0,
        steps: 0,
        operation: Operation { lba: 0, bytes: 0, count: 0, opcode: 0, fua: 0, direction: 0, reserved: 0 },
        client: 0,
        length: 0,
        tag: 0,
        call: 0,
        step: 0,
        pipe: 0,
        function: 0,
        acted: 0,
        has_owner: 0,
        reply: 0,
        status: 0,
        sense_length: 0,
        reserved: [0; 5],
        sense: [0; 96],
    };
}

const _: () = assert!(std::mem::size_of::<Trb>() == 32);
const _: () = assert!(std::mem::size_of::<Unit>() == 132);
const _: () = assert!(std::mem::size_of::<Operation>() == 24);
const _: () = assert!(std::mem::size_of::<Sense>() == 4);
const _: () = assert!(std::mem::size_of::<BadBlock>() == 8);
const _: () = assert!(std::mem::size_of::<ControllerDoor>() == 32);
const _: () = assert!(std::mem::size_of::<DriverDoor>() == 1192);
const _: () = assert!(std::mem::size_of::<BusDoor>() == 160);

/// What a handle points at; nothing of it is seen.
macro_rules! hidden {
    ($($name:ident),*) => {
        $(#[repr(C)]
        pub struct $name {
            _private: [u8; 0],
        })*
    };
}

hidden!(Device, Controller, Driver, Bus);

extern "C" {
    pub fn uas_version() -> u32;
    pub fn uas_trb_encode(trb: *const Trb, bytes: *mut [u8; 16]) -> u8;
    pub fn uas_trb_decode(bytes: *const [u8; 16], trb: *mut Trb) -> u8;
    pub fn uas_unit_read(bytes: *const u8, length: usize, unit: *mut Unit) -> u8;
    pub fn uas_unit_write(unit: *const Unit, bytes: *mut u8, room: usize, length: *mut usize) -> u8;
    pub fn uas_cdb_parse(cdb: *const [u8; 16], blocks: u32, operation: *mut Operation, sense: *mut Sense) -> u8;
    pub fn uas_cdb_write(operation: *const Operation, cdb: *mut [u8; 16]) -> u8;
    pub fn uas_sense_data(sense: *const Sense, bytes: *mut [u8; 18]);
    pub fn uas_inquiry_data(present: bool, bytes: *mut [u8; 36]);
    pub fn uas_capacity_data(blocks: u32, bytes: *mut [u8; 8]) -> u8;
    pub fn uas_long_capacity_data(blocks: u32, bytes: *mut [u8; 32]) -> u8;

    pub fn uas_ring_address(ring: u8, stream: u16, place: usize) -> u64;
    pub fn uas_ring_place(address: u64, ring: *mut u8, stream: *mut u16, place: *mut usize) -> bool;
    pub fn uas_buffer_address(buffer: u8, tag: u16) -> u64;
    pub fn uas_doorbell(endpoint: u8, stream: u16) -> u32;
    pub fn uas_doorbell_parts(value: u32, endpoint: *mut u8, stream: *mut u16);
    pub fn uas_context_read(bytes: *const [u8; 16], pointer: *mut u64, cycle: *mut u8, kind: *mut u8);
    pub fn uas_context_write(pointer: u64, cycle: u8, kind: u8, bytes: *mut [u8; 16]);

    pub fn uas_device_open(
        blocks: *const u32,
        units: usize,
        image: *const u8,
        length: usize,
        bad: *const BadBlock,
        bads: usize,
        device: *mut *mut Device,
    ) -> u8;
    pub fn uas_device_free(device: *mut Device);
    pub fn uas_device_receive_ended(device: *mut Device, bytes: *const u8, length: usize, tag: *mut u16, ended: *mut [u8; 32]) -> u8;
    pub fn uas_device_wants(device: *const Device, tag: u16, phase: *mut u8, length: *mut u32) -> u8;
    pub fn uas_device_next(device: *const Device, tag: *mut u16, there: *mut bool) -> u8;
    pub fn uas_device_give(device: *mut Device, tag: u16, data: *mut u8, length: usize, good: *mut bool) -> u8;
    pub fn uas_device_take(device: *mut Device, tag: u16, data: *const u8, length: usize, good: *mut bool) -> u8;
    pub fn uas_device_status(device: *const Device, tag: u16, bytes: *mut u8, room: usize, length: *mut u32) -> u8;
    pub fn uas_device_sent(device: *mut Device, tag: u16) -> u8;
    pub fn uas_device_reset(device: *mut Device) -> u8;
    pub fn uas_device_size(device: *const Device, unit: u16, blocks: *mut u32) -> u8;
    pub fn uas_device_blocks(device: *const Device, unit: u16, lba: u32, data: *mut u8, length: usize) -> u8;
    pub fn uas_device_medium(device: *const Device, unit: u16, lba: u32, data: *mut u8, length: usize) -> u8;

    pub fn uas_controller_open(
        blocks: *const u32,
        units: usize,
        image: *const u8,
        length: usize,
        bad: *const BadBlock,
        bads: usize,
        controller: *mut *mut Controller,
    ) -> u8;
    pub fn uas_controller_free(controller: *mut Controller);
    pub fn uas_controller_put_raw(controller: *mut Controller, ring: u8, stream: u16, bytes: *const [u8; 16], address: *mut u64) -> u8;
    pub fn uas_controller_doorbell(controller: *mut Controller, value: u32) -> u8;
    pub fn uas_controller_step(controller: *mut Controller, step: u8, tag: *mut u16, acted: *mut bool) -> u8;
    pub fn uas_controller_event(controller: *mut Controller, event: *mut ControllerDoor) -> u8;
    pub fn uas_controller_write(controller: *mut Controller, address: u64, data: *const u8, length: usize) -> u8;
    pub fn uas_controller_read(controller: *const Controller, address: u64, data: *mut u8, length: usize) -> u8;
    pub fn uas_controller_lend(controller: *mut Controller, tag: u16, data: *const u8, length: usize) -> u8;
    pub fn uas_controller_take_back(controller: *mut Controller, tag: u16, data: *mut u8, room: usize, length: *mut u32) -> u8;
    pub fn uas_controller_reclaim(controller: *mut Controller, ring: u8, stream: u16, address: u64) -> u8;
    pub fn uas_controller_context(controller: *const Controller, ring: u8, stream: u16, bytes: *mut [u8; 16]) -> u8;
    pub fn uas_controller_blocks(controller: *const Controller, unit: u16, lba: u32, data: *mut u8, length: usize) -> u8;
    pub fn uas_controller_medium(controller: *const Controller, unit: u16, lba: u32, data: *mut u8, length: usize) -> u8;

    pub fn uas_driver_open_tags(clients: usize, tags: usize, driver: *mut *mut Driver) -> u8;
    pub fn uas_driver_free(driver: *mut Driver);
    pub fn uas_driver_submit(
        driver: *mut Driver,
        client: u32,
        tag: u16,
        ticket: u64,
        operation: *const Operation,
        data: *const u8,
        length: usize,
        told: *mut DriverDoor,
    ) -> u8;
    pub fn uas_driver_task(driver: *mut Driver, client: u32, ticket: u64, function: u8, tag: u16, told: *mut DriverDoor) -> u8;
    pub fn uas_driver_retire(driver: *mut Driver, pipe: u8, tag: u16, told: *mut DriverDoor) -> u8;
    pub fn uas_driver_left_over(driver: *const Driver, pipe: u8, tag: *mut u16, there: *mut bool) -> u8;
    pub fn uas_driver_event(driver: *mut Driver, event: *const Trb, told: *mut DriverDoor) -> u8;
    pub fn uas_driver_reply(driver: *mut Driver, client: u32, data: *mut u8, length: usize, reply: *mut DriverDoor) -> u8;
    pub fn uas_driver_read(driver: *const Driver, address: u64, data: *mut u8, length: usize) -> u8;
    pub fn uas_driver_write(driver: *mut Driver, address: u64, data: *const u8, length: usize) -> u8;
    pub fn uas_driver_item(driver: *const Driver, address: u64, bytes: *mut [u8; 16]) -> u8;
    pub fn uas_driver_context(driver: *const Driver, pipe: u8, stream: u16, bytes: *mut [u8; 16]) -> u8;

    pub fn uas_bus_open_tags(
        tags: usize,
        blocks: *const u32,
        clients: usize,
        image: *const u8,
        length: usize,
        bad: *const BadBlock,
        bads: usize,
        bus: *mut *mut Bus,
    ) -> u8;
    pub fn uas_bus_free(bus: *mut Bus);
    pub fn uas_bus_submit(
        bus: *mut Bus,
        client: u32,
        tag: u16,
        ticket: u64,
        operation: *const Operation,
        data: *const u8,
        length: usize,
    ) -> u8;
    pub fn uas_bus_task(bus: *mut Bus, client: u32, ticket: u64, function: u8, tag: u16) -> u8;
    pub fn uas_bus_step(bus: *mut Bus, step: u8, pipe: u8, tag: u16, acted: *mut bool, owner: *mut c_int) -> u8;
    pub fn uas_bus_due(bus: *const Bus, step: u8, pipe: u8, tag: u16, due: *mut bool) -> u8;
    pub fn uas_bus_drain(bus: *mut Bus, most: u64, taken: *mut u64, quiet: *mut bool) -> u8;
    pub fn uas_bus_reply(bus: *mut Bus, client: u32, data: *mut u8, length: usize, reply: *mut BusDoor) -> u8;
    pub fn uas_bus_blocks(bus: *const Bus, client: u32, lba: u32, data: *mut u8, length: usize) -> u8;
    pub fn uas_bus_medium(bus: *const Bus, client: u32, lba: u32, data: *mut u8, length: usize) -> u8;
}
