//! The declarations of `include/uas_block.h`, by hand.

#[repr(C)]
pub struct Block {
    hidden: u8,
}

#[repr(C)]
#[derive(Clone, Copy)]
pub struct Options {
    pub bar_bytes: u32,
    pub tags: u8,
    pub trbs: u8,
    pub address_bits: u8,
    pub quirks: u8,
}

#[repr(C)]
#[derive(Clone, Copy, Default)]
pub struct Access {
    pub kind: u8,
    pub reserved: [u8; 3],
    pub length: u32,
    pub at: u64,
    pub value: u32,
    pub bytes: [u8; 32],
    pub reserved_too: [u8; 4],
}

#[repr(C)]
#[derive(Clone, Copy, Default)]
pub struct State {
    pub state: u8,
    pub row: u8,
    pub why: u8,
    pub can_unmap: bool,
    pub has_fua: bool,
    pub tags: u16,
    pub bytes: u32,
    pub block_bytes: u32,
    pub disk: u64,
    pub blocks: u64,
    pub most_blocks: u32,
    pub most_unmap: u32,
}

#[repr(C)]
#[derive(Clone, Copy)]
pub struct Request {
    pub disk: u64,
    pub block: u64,
    pub mark: u64,
    pub limit: u64,
    pub count: u32,
    pub kind: u8,
    pub fua: bool,
    pub reserved: [u8; 2],
}

#[repr(C)]
#[derive(Clone, Copy)]
pub struct Reply {
    pub mark: u64,
    pub moved: u32,
    pub tag: u16,
    pub kind: u8,
    pub code: u8,
    pub sense_length: u8,
    pub sense: [u8; 96],
    pub reserved: [u8; 7],
}

impl Reply {
    pub const ZEROED: Self = Self { mark: 0, moved: 0, tag: 0, kind: 0, code: 0, sense_length: 0, sense: [0; 96], reserved: [0; 7] };
}

extern "C" {
    pub fn uas_block_quirks(vendor: u16, device: u16) -> u8;
    pub fn uas_block_new(asked: *const Options, block: *mut *mut Block) -> u8;
    pub fn uas_block_free(block: *mut Block);
    pub fn uas_block_next(block: *mut Block, now: u64, access: *mut Access) -> u8;
    pub fn uas_block_answer(block: *mut Block, bytes: *const u8, length: usize) -> u8;
    pub fn uas_block_interrupted(block: *mut Block) -> u8;
    pub fn uas_block_state(block: *const Block, state: *mut State) -> u8;
    pub fn uas_block_refusal(block: *const Block, port: u8) -> u8;
    pub fn uas_block_lend(block: *mut Block, base: u64) -> u8;
    pub fn uas_block_submit(
        block: *mut Block,
        request: *const Request,
        segments: *const crate::block::Segment,
        count: usize,
        tag: *mut u16,
    ) -> u8;
    pub fn uas_block_take_reply(block: *mut Block, reply: *mut Reply) -> bool;
    pub fn uas_block_abort(block: *mut Block, tag: u16) -> u8;
    pub fn uas_block_shut_down(block: *mut Block) -> u8;
    pub fn uas_block_restart(block: *mut Block) -> u8;
}
