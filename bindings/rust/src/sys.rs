//! The calls of the proved static library, and the only unsafe code of this crate. Nothing compares these declarations
//! with the library: a slice crosses as a pointer that isn't null and a length.
#![allow(unsafe_code)]

use crate::abi::{Ask, Checkup, Order, Record, Replayed, Said};
use std::mem::MaybeUninit;

const BYTES: usize = 512;

/// The memory of a domain: at most as large as the interface allows, and aligned as it demands.
#[repr(C, align(16))]
struct Bytes([MaybeUninit<u8>; BYTES]);

unsafe extern "C" {
    safe fn yalwythen_core_bytes() -> u64;
    fn yalwythen_core_init(at: *mut Bytes);
    fn yalwythen_core_init_recorded(at: *mut Bytes);
    fn yalwythen_core_end(at: *mut Bytes);
    fn yalwythen_core_ask(at: *mut Bytes, verb: u64, a: u64, b: u64) -> Said;
    fn yalwythen_core_transact(
        at: *mut Bytes,
        seat: u64,
        orders: *const Order,
        length: usize,
        replies: *mut Said,
        most: usize,
    ) -> Said;
    fn yalwythen_core_account(at: *mut Bytes, channel: u64, from: u64, records: *mut Record, most: usize) -> Said;
    safe fn yalwythen_core_is_bound(bound: u64) -> bool;
    fn yalwythen_core_check(script: *const u8, length: usize) -> Checkup;
    fn yalwythen_core_replay(script: *const u8, length: usize, out: *mut u8, most: usize) -> Replayed;
}

pub fn is_bound(bound: u64) -> bool {
    yalwythen_core_is_bound(bound)
}

pub fn check(script: &[u8]) -> Checkup {
    // SAFETY: the bytes are borrowed for the call, and the pointer of a slice is never null.
    unsafe { yalwythen_core_check(script.as_ptr(), script.len()) }
}

/// Writes the report to the front of `out`, as much of it as fits.
pub fn replay(script: &[u8], out: &mut [u8]) -> Replayed {
    // SAFETY: both slices are borrowed for the call, and `out` exclusively, so that they don't overlap.
    unsafe { yalwythen_core_replay(script.as_ptr(), script.len(), out.as_mut_ptr(), out.len()) }
}

/// A domain of the library. The box keeps it at its address.
pub struct Core(Box<Bytes>);

// SAFETY: a domain holds plain numbers and memory of the C library's allocator, and nothing of its thread.
unsafe impl Send for Core {}

impl Core {
    /// A domain without channels and seats. If it records, its queues have accounts.
    ///
    /// # Panics
    ///
    /// If the library needs more memory than its interface allows: it has another version then.
    pub fn new(records: bool) -> Core {
        assert!(yalwythen_core_bytes() <= BYTES as u64, "libyalwythen_c.a is of another version than this crate");
        let mut bytes = Box::new(Bytes([MaybeUninit::uninit(); BYTES]));
        // SAFETY: the memory is unused, as large as the library needs and aligned to 16.
        unsafe {
            if records {
                yalwythen_core_init_recorded(&mut *bytes);
            } else {
                yalwythen_core_init(&mut *bytes);
            }
        }
        Core(bytes)
    }

    pub fn ask(&mut self, ask: Ask) -> Said {
        let [verb, a, b] = ask.numbers();
        // SAFETY: `new` made the domain, only `drop` ends it, and `&mut` allows one call at a time.
        unsafe { yalwythen_core_ask(&mut *self.0, verb, a, b) }
    }

    /// Runs a transaction. If it commits, its replies are written to the front of `replies`, as many as fit.
    pub fn transact(&mut self, seat: u64, orders: &[Order], replies: &mut [Said]) -> Said {
        let (steps, length) = (orders.as_ptr(), orders.len());
        let (out, most) = (replies.as_mut_ptr(), replies.len());
        // SAFETY: see `ask` for the domain; both slices are borrowed for the call, and `replies` exclusively.
        unsafe { yalwythen_core_transact(&mut *self.0, seat, steps, length, out, most) }
    }

    /// Returns the number of records in the account of a channel, and writes those from `from` on, as many as fit.
    pub fn account(&mut self, channel: u16, from: u64, records: &mut [Record]) -> Said {
        let (out, most) = (records.as_mut_ptr(), records.len());
        // SAFETY: see `ask` for the domain; `records` is borrowed exclusively for the call.
        unsafe { yalwythen_core_account(&mut *self.0, channel.into(), from, out, most) }
    }
}

impl Drop for Core {
    fn drop(&mut self) {
        // SAFETY: the domain was made and not ended, and nobody has it after this.
        unsafe { yalwythen_core_end(&mut *self.0) }
    }
}
