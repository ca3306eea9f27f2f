//! The library's functions, as esdk.h has them.

use std::ffi::c_void;
use std::ptr;

pub const ABI: u32 = 1;
pub const ANY_LENGTH: u64 = u64::MAX;

/// Only the library reads or writes the fields.
#[repr(C)]
pub struct Handle {
    state: *mut c_void,
    live: bool,
}

impl Handle {
    /// ESDK_INIT.
    pub const fn new() -> Handle {
        Handle { state: ptr::null_mut(), live: false }
    }
}

extern "C" {
    pub fn esdk_abi() -> u32;
    pub fn esdk_check() -> i32;
    pub fn esdk_new(handle: *mut Handle, file: *const u8, file_len: usize) -> i32;
    pub fn esdk_close(handle: *mut Handle);
    pub fn esdk_pair(
        handle: *mut Handle,
        key: *const u8,
        key_len: usize,
        value: *const u8,
        value_len: usize,
    ) -> i32;
    pub fn esdk_require(handle: *mut Handle, key: *const u8, key_len: usize) -> i32;
    pub fn esdk_seal(handle: *mut Handle, frame_length: u32, length: u64, max_keys: u16) -> i32;
    pub fn esdk_open(handle: *mut Handle, max_keys: u16, max_unit: u64, uncommitted: bool) -> i32;
    pub fn esdk_reseal(
        handle: *mut Handle,
        file: *const u8,
        file_len: usize,
        frame_length: u32,
        max_keys: u16,
        max_unit: u64,
        uncommitted: bool,
    ) -> i32;
    pub fn esdk_feed(
        handle: *mut Handle,
        piece: *const u8,
        piece_len: usize,
        room: *mut u8,
        room_len: usize,
        written: *mut usize,
        waits: *mut usize,
    ) -> i32;
    pub fn esdk_finish(
        handle: *mut Handle,
        room: *mut u8,
        room_len: usize,
        written: *mut usize,
        waits: *mut usize,
    ) -> i32;
    pub fn esdk_take(
        handle: *mut Handle,
        room: *mut u8,
        room_len: usize,
        written: *mut usize,
        waits: *mut usize,
    ) -> i32;
    pub fn esdk_error(handle: *mut Handle, room: *mut u8, room_len: usize) -> usize;
    pub fn esdk_pairs(handle: *mut Handle) -> i32;
    pub fn esdk_pair_key(handle: *mut Handle, index: usize, room: *mut u8, len: usize) -> i32;
    pub fn esdk_pair_value(handle: *mut Handle, index: usize, room: *mut u8, len: usize) -> i32;
    pub fn esdk_list(
        message: *const u8,
        message_len: usize,
        uncommitted: bool,
        room: *mut u8,
        room_len: usize,
        whole: *mut usize,
    ) -> i32;
    pub fn esdk_openers(
        handle: *mut Handle,
        message: *const u8,
        message_len: usize,
        numbers: *mut u32,
        numbers_len: usize,
        whole: *mut usize,
    ) -> i32;
    pub fn esdk_span(
        message: *const u8,
        message_len: usize,
        uncommitted: bool,
        at: u64,
        count: u64,
        header: *mut u64,
        frame: *mut u32,
        offset: *mut u64,
        size: *mut u64,
    ) -> i32;
    pub fn esdk_range(
        handle: *mut Handle,
        front: *const u8,
        front_len: usize,
        offset: u64,
        part: *const u8,
        part_len: usize,
        ends: bool,
        uncommitted: bool,
        at: u64,
        room: *mut u8,
        room_len: usize,
        written: *mut usize,
    ) -> i32;
}
