//! The calls of the first part of `eraser_detector.h`, for programs with threads, and all statuses, with their names and meanings. That header has what
//! each one promises and asks.
//!
//! Safe Rust has no data race. These calls are for what is not safe Rust: interpreters, emulators and runtimes that run other code's threads, and
//! `unsafe` code with locks of its own.

use std::os::raw::{c_char, c_int, c_uint, c_void};

/// A detector. Only pointers to one are used.
#[repr(C)]
pub struct EraserDetector {
    _private: [u8; 0],
}

/// A race, as `on_race` gets it.
#[repr(C)]
#[derive(Debug)]
pub struct EraserRace {
    pub address: *const c_void,
    pub size: usize,
    pub word: *const c_void,
    pub writes: bool,
    pub thread: u32,
    pub other: u32,
    pub lock_count: usize,
    pub locks: *const *const c_void,
    pub lock_writes: *const bool,
    pub site: *const c_void,
}

pub type EraserOnRace = unsafe extern "C" fn(context: *mut c_void, race: *const EraserRace);

/// How a detector is to be. Zeros and `None` stand for the usual options.
#[repr(C)]
pub struct EraserOptions {
    pub shards: c_uint,
    pub max_sets: u32,
    pub on_race: Option<EraserOnRace>,
    pub context: *mut c_void,
    pub audit: bool,
}

pub const ERASER_QUIET: u32 = 0;
pub const ERASER_RACE: u32 = 1;
pub const ERASER_IGNORED: u32 = 2;
pub const ERASER_ALREADY_HELD: u32 = 3;
pub const ERASER_NOT_HELD: u32 = 4;
pub const ERASER_WRONG_MODE: u32 = 5;
pub const ERASER_IGNORE_NOT_ON: u32 = 6;
pub const ERASER_IGNORE_TOO_DEEP: u32 = 7;
pub const ERASER_HELD_FULL: u32 = 8;
pub const ERASER_SIZE_TOO_LARGE: u32 = 9;
pub const ERASER_ADDRESS_OUT_OF_RANGE: u32 = 10;
pub const ERASER_JOURNAL_FULL: u32 = 11;
pub const ERASER_TABLE_FULL: u32 = 12;
pub const ERASER_OUT_OF_MEMORY: u32 = 13;
pub const ERASER_FOREIGN_SEAT: u32 = 14;
pub const ERASER_TOO_MANY_THREADS: u32 = 15;
pub const ERASER_LEVEL_TOO_HIGH: u32 = 16;
pub const ERASER_LEVEL_LOCK: u32 = 17;
pub const ERASER_EMPTY_HANDLE: u32 = 18;
pub const ERASER_WRONG_HANDLE: u32 = 19;
pub const ERASER_VIRGIN: u32 = 20;
pub const ERASER_EXCLUSIVE: u32 = 21;
pub const ERASER_SHARED: u32 = 22;
pub const ERASER_SHARED_MODIFIED: u32 = 23;
pub const ERASER_SEAT_TWICE: u32 = 24;
pub const ERASER_SEAT_MISSING: u32 = 25;
pub const ERASER_ORDER: u32 = 26;
pub const ERASER_ENTRIES: u32 = 27;
pub const ERASER_ANSWER: u32 = 28;
pub const ERASER_FOREIGN_SHARD: u32 = 29;
pub const ERASER_BUSY: u32 = 32;

extern "C" {
    pub fn eraser_text(status: u32) -> *const c_char;
    pub fn eraser_start(options: *const EraserOptions) -> *mut EraserDetector;
    pub fn eraser_stop(detector: *mut EraserDetector);
    pub fn eraser_read(detector: *mut EraserDetector, address: *const c_void, size: usize) -> u32;
    pub fn eraser_write(detector: *mut EraserDetector, address: *const c_void, size: usize) -> u32;
    pub fn eraser_locked(detector: *mut EraserDetector, lock: *const c_void, writes: bool) -> u32;
    pub fn eraser_unlocking(detector: *mut EraserDetector, lock: *const c_void) -> u32;
    pub fn eraser_destroying(detector: *mut EraserDetector, lock: *const c_void) -> u32;
    pub fn eraser_freeing(detector: *mut EraserDetector, address: *const c_void, size: usize) -> u32;
    pub fn eraser_ignore_begin(detector: *mut EraserDetector) -> u32;
    pub fn eraser_ignore_end(detector: *mut EraserDetector) -> u32;
    pub fn eraser_look(detector: *mut EraserDetector, address: *const c_void) -> u32;
    pub fn eraser_self(detector: *mut EraserDetector) -> u32;
    pub fn eraser_settle(detector: *mut EraserDetector, steps: *mut u64) -> u32;
    pub fn eraser_pause();
    pub fn eraser_resume();
    pub fn eraser_print(context: *mut c_void, race: *const EraserRace);
}

// The size of a C `int` is that of the field `shards`.
const _: () = assert!(std::mem::size_of::<c_int>() == 4);
