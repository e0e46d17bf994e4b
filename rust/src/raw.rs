//! The exports that the crate calls, as include/kehldora.h declares them.
use std::ffi::c_void;

pub const VERSION: u32 = 1;
pub const MOST_PLACES: u64 = 1 << 40;

pub const DONE: i32 = 0;
pub const NO_MEMORY: i32 = 1;
pub const MOVED: i32 = 3;
pub const PENDING: i32 = 9;
pub const BROKEN: i32 = 10;
pub const FULL: i32 = 11;

/// One thread's hand of a vector.
#[repr(C)]
pub struct Hand {
    pub at: *mut c_void,
    pub full: bool,
}

impl Hand {
    pub const EMPTY: Hand = Hand { at: std::ptr::null_mut(), full: false };
}

extern "C" {
    pub fn kehldora_raw_version() -> u32;
    pub fn kehldora_raw_open(limit: u64, words: u64, first: u32, opaque: bool, hand: *mut Hand) -> i32;
    pub fn kehldora_raw_size(hand: *mut Hand, size: *mut u64) -> i32;
    pub fn kehldora_raw_split(hand: *mut Hand, shares: u32, other: *mut Hand) -> i32;
    pub fn kehldora_raw_join(hand: *mut Hand, other: *mut Hand) -> i32;
    pub fn kehldora_raw_reserve(hand: *mut Hand, size: u64) -> i32;
    pub fn kehldora_raw_free(hand: *mut Hand) -> i32;
    pub fn kehldora_raw_push(hand: *mut Hand, value: *const u64, words: usize, place: *mut u64) -> i32;
    pub fn kehldora_raw_look(hand: *mut Hand, place: u64, at: *mut *mut u64) -> i32;
    pub fn kehldora_raw_run(hand: *mut Hand, place: u64, at: *mut *mut u64, count: *mut u64) -> i32;
}
