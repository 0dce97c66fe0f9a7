//! What `include/ufs.h` declares. `tests/layout.rs` has a C compiler compare the two.
use std::ffi::c_void;
use std::os::raw::c_char;

/// `ufs_device`.
#[repr(C)]
pub struct Handle {
    pub at: *mut c_void,
    pub is_open: bool,
}

/// `ufs_config`.
#[repr(C)]
pub struct ConfigRow {
    pub dies: u8,
    pub blocks: u16,
    pub pages: u16,
    pub rpmb: [u8; 4],
    pub slots: u16,
    pub spare: u16,
    pub profile: u8,
    pub serial: u64,
}

/// `ufs_unit`.
#[repr(C)]
pub struct UnitRow {
    pub blocks: u32,
    pub boot: u8,
    pub protect: u8,
}

/// `ufs_job`. `content` is its `body` and `spare`, of which one follows the other.
#[repr(C)]
pub struct JobRow {
    pub kind: u8,
    pub die: u8,
    pub block: u16,
    pub page: u16,
    pub content: [u8; UFS_PAGE_BYTES],
}

/// `ufs_answer`.
#[repr(C)]
pub struct AnswerRow {
    pub tag: u8,
    pub response: u8,
    pub status: u8,
    pub sense_key: u8,
    pub sense_code: u8,
    pub sense_qualifier: u8,
    pub residual: u32,
}

/// `ufs_frame`.
#[repr(C)]
pub struct FrameRow {
    pub key_or_mac: [u8; 32],
    pub data: [u8; 256],
    pub nonce: [u8; 16],
    pub write_counter: u32,
    pub address: u16,
    pub block_count: u16,
    pub result: u16,
    pub message_type: u16,
}

pub const UFS_PAGE_BYTES: usize = 4192;
pub const UFS_REPLY_BYTES: usize = 4128;
pub const UFS_MESSAGE_BYTES: usize = 4128;
pub const UFS_HEADER_BYTES: usize = 32;
pub const UFS_FRAME_BYTES: usize = 512;
pub const UFS_NOTHING: u32 = 9;
pub const UFS_NO_JOB: u32 = 10;

extern "C" {
    pub fn ufs_open(
        device: *mut Handle,
        config: *const ConfigRow,
        units: *const UnitRow,
        unit_count: usize,
    ) -> u32;
    pub fn ufs_open_image(
        device: *mut Handle,
        config: *const ConfigRow,
        units: *const UnitRow,
        unit_count: usize,
        image: *const u8,
        length: usize,
    ) -> u32;
    pub fn ufs_close(device: *mut Handle) -> u32;
    pub fn ufs_host(device: *mut Handle, message: *const u8, length: usize) -> u32;
    pub fn ufs_reply(device: *mut Handle, into: *mut u8, room: usize, length: *mut usize) -> u32;
    pub fn ufs_turn(device: *mut Handle) -> u32;
    pub fn ufs_take(device: *mut Handle, die: u8, job: *mut JobRow) -> u32;
    pub fn ufs_done(device: *mut Handle, die: u8, how: u8, page: *const u8, length: usize) -> u32;
    pub fn ufs_own_dies(device: *mut Handle) -> u32;
    pub fn ufs_work(device: *mut Handle, die: u8) -> u32;
    pub fn ufs_fail(device: *mut Handle, die: u8, left: u8) -> u32;
    pub fn ufs_settle(device: *mut Handle, rounds: u16) -> u32;
    pub fn ufs_stop(device: *mut Handle, lefts: *const u8, count: usize) -> u32;
    pub fn ufs_image_length(device: *mut Handle, length: *mut u64) -> u32;
    pub fn ufs_save(device: *mut Handle, into: *mut u8, room: usize) -> u32;
    pub fn ufs_command(
        flags: u8,
        lun: u8,
        tag: u8,
        expected: u32,
        cdb: *const u8,
        cdb_length: usize,
        into: *mut u8,
        room: usize,
    ) -> u32;
    pub fn ufs_data_out(
        lun: u8,
        tag: u8,
        offset: u32,
        data: *const u8,
        length: usize,
        into: *mut u8,
        room: usize,
    ) -> u32;
    pub fn ufs_read(lun: u8, tag: u8, address: u32, blocks: u16, into: *mut u8, room: usize)
        -> u32;
    pub fn ufs_write(
        lun: u8,
        tag: u8,
        address: u32,
        blocks: u16,
        fua: bool,
        into: *mut u8,
        room: usize,
    ) -> u32;
    pub fn ufs_verify(
        lun: u8,
        tag: u8,
        address: u32,
        blocks: u16,
        compare: bool,
        into: *mut u8,
        room: usize,
    ) -> u32;
    pub fn ufs_flush(lun: u8, tag: u8, immediate: bool, into: *mut u8, room: usize) -> u32;
    pub fn ufs_unmap(lun: u8, tag: u8, into: *mut u8, room: usize) -> u32;
    pub fn ufs_unmap_list(
        lun: u8,
        tag: u8,
        address: u64,
        blocks: u32,
        into: *mut u8,
        room: usize,
    ) -> u32;
    pub fn ufs_ask(
        operation: u8,
        lun: u8,
        tag: u8,
        allocation: u32,
        into: *mut u8,
        room: usize,
    ) -> u32;
    pub fn ufs_ask_for(
        operation: u8,
        selection: u32,
        lun: u8,
        tag: u8,
        allocation: u32,
        into: *mut u8,
        room: usize,
    ) -> u32;
    pub fn ufs_blocks_16(
        operation: u8,
        lun: u8,
        tag: u8,
        address: u64,
        blocks: u32,
        option: bool,
        into: *mut u8,
        room: usize,
    ) -> u32;
    pub fn ufs_query(
        tag: u8,
        opcode: u8,
        idn: u8,
        index: u8,
        selector: u8,
        length: u16,
        value: u32,
        into: *mut u8,
        room: usize,
    ) -> u32;
    pub fn ufs_task_management(
        lun: u8,
        tag: u8,
        function: u8,
        meant: u8,
        into: *mut u8,
        room: usize,
    ) -> u32;
    pub fn ufs_nop(tag: u8, into: *mut u8, room: usize) -> u32;
    pub fn ufs_link_event(kind: u8, into: *mut u8, room: usize) -> u32;
    pub fn ufs_response(reply: *const u8, length: usize, answer: *mut AnswerRow) -> u32;
    pub fn ufs_rpmb_mac(
        key: *const u8,
        key_length: usize,
        frames: *const u8,
        frames_length: usize,
        into: *mut u8,
        room: usize,
    ) -> u32;
    pub fn ufs_rpmb_frame(frame: *const FrameRow, into: *mut u8, room: usize) -> u32;
    pub fn ufs_rpmb_fields(bytes: *const u8, length: usize, frame: *mut FrameRow) -> u32;
    pub fn ufs_rpmb_command(
        is_out: bool,
        tag: u8,
        region: u8,
        frames: u8,
        into: *mut u8,
        room: usize,
    ) -> u32;
    pub fn ufs_fault_text(fault: u32, into: *mut c_char, room: usize) -> usize;
}
