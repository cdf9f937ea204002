//! The archive's functions, as include/kioskbasil.h declares them, and the memory that they ask
//! for.

use crate::{Item, MOST_SENDERS};
use std::ffi::c_void;
use std::ptr;

#[repr(C)]
pub struct RawSender {
    at: *mut c_void,
    live: u32,
}

#[repr(C)]
pub struct RawReceiver {
    at: *mut c_void,
    live: u32,
}

// SAFETY: the archive proves `Send` of what the handle leads to.
unsafe impl Send for RawSender {}

// SAFETY: as above.
unsafe impl Send for RawReceiver {}

impl RawSender {
    pub const NONE: RawSender = RawSender {
        at: ptr::null_mut(),
        live: 0,
    };
}

impl RawReceiver {
    pub const NONE: RawReceiver = RawReceiver {
        at: ptr::null_mut(),
        live: 0,
    };
}

#[repr(C)]
pub struct Sizes {
    pub rounds: u64,
    pub rows: u64,
    pub log_words: u64,
    pub again: bool,
    pub ring: bool,
    pub batch: u64,
}

#[repr(C)]
#[derive(Clone, Copy, Default)]
pub struct TurnAnswer {
    pub tenure: u64,
    pub first: u64,
    pub last: u64,
    pub sender: u8,
}

#[repr(C)]
#[derive(Clone, Copy)]
pub struct HeardAnswer {
    pub tenure: u64,
    pub owner: u8,
    pub item: Item,
}

#[repr(C)]
#[derive(Clone, Copy, Default)]
pub struct SenderShown {
    pub pending: u64,
    pub next_number: u64,
    pub words: u64,
    pub turns_left: u64,
    pub number: u8,
    pub is_closed: bool,
    pub wants_word: bool,
}

#[repr(C)]
#[derive(Clone, Copy, Default)]
pub struct ReceiverShown {
    pub known: u64,
    pub place: u64,
    pub has_ended: bool,
    pub passed: u64,
}

#[repr(C)]
#[derive(Clone, Copy)]
pub struct Left {
    pub counts: [u64; MOST_SENDERS],
    pub bases: [u64; MOST_SENDERS],
    pub next: [u64; MOST_SENDERS],
    pub words: u64,
    pub tenures: u64,
    pub ended: bool,
    pub gone: [bool; MOST_SENDERS],
    pub floor: u64,
}

impl Left {
    pub const NONE: Left = Left {
        counts: [0; MOST_SENDERS],
        bases: [0; MOST_SENDERS],
        next: [0; MOST_SENDERS],
        words: 0,
        tenures: 0,
        ended: false,
        gone: [false; MOST_SENDERS],
        floor: 0,
    };
}

extern "C" {
    pub fn bus_c_open(
        sizes: *const Sizes,
        senders: *mut RawSender,
        sender_count: usize,
        receivers: *mut RawReceiver,
        receiver_count: usize,
    ) -> u32;
    pub fn bus_c_open_after(
        sizes: *const Sizes,
        left: *const Left,
        senders: *mut RawSender,
        sender_count: usize,
        receivers: *mut RawReceiver,
        receiver_count: usize,
    ) -> u32;
    pub fn bus_c_put(
        sender: *mut RawSender,
        bytes: *const u8,
        length: usize,
        number: *mut u64,
    ) -> u32;
    pub fn bus_c_close(sender: *mut RawSender) -> u32;
    pub fn bus_c_leave(sender: *mut RawSender) -> u32;
    pub fn bus_c_carry(sender: *mut RawSender, next: *mut RawSender) -> u32;
    pub fn bus_c_turn(sender: *mut RawSender, word: u32, answer: *mut TurnAnswer) -> u32;
    pub fn bus_c_turns(
        sender: *mut RawSender,
        word: u32,
        more: u64,
        answer: *mut TurnAnswer,
    ) -> u32;
    pub fn bus_c_sender(sender: *mut RawSender, shown: *mut SenderShown) -> u32;
    pub fn bus_c_sender_bus(sender: *mut RawSender, place: *mut *const u8) -> u32;
    pub fn bus_c_begin_page(sender: *mut RawSender, senders: u64, left: *mut Left) -> u32;
    pub fn bus_c_note_sender(sender: *mut RawSender, number: u64, left: *mut Left) -> u32;
    pub fn bus_c_finish(sender: *mut RawSender, answer: *mut TurnAnswer) -> u32;
    pub fn bus_c_has_room(sender: *mut RawSender) -> u32;
    pub fn bus_c_free_sender(sender: *mut RawSender);
    pub fn bus_c_hear_once(receiver: *mut RawReceiver, answer: *mut HeardAnswer) -> u32;
    pub fn bus_c_hear(
        receiver: *mut RawReceiver,
        items: *mut Item,
        room: usize,
        looks: u64,
        many: *mut usize,
    ) -> u32;
    pub fn bus_c_receiver(receiver: *mut RawReceiver, shown: *mut ReceiverShown) -> u32;
    pub fn bus_c_receiver_bus(receiver: *mut RawReceiver, place: *mut *const u8) -> u32;
    pub fn bus_c_tell(receiver: *mut RawReceiver, sender: *mut RawSender, of_one_bus: bool) -> u32;
    pub fn bus_c_meet(
        receiver: *mut RawReceiver,
        other: *mut RawReceiver,
        of_one_bus: bool,
        order: *mut i32,
    ) -> u32;
    pub fn bus_c_fork(receiver: *mut RawReceiver, joined: *mut RawReceiver) -> u32;
    pub fn bus_c_free_receiver(receiver: *mut RawReceiver);
    pub fn bus_c_end(
        receiver: *mut RawReceiver,
        log: *mut u64,
        room: usize,
        left: *mut Left,
    ) -> u32;

    fn malloc(size: usize) -> *mut c_void;
    fn realloc(at: *mut c_void, size: usize) -> *mut c_void;
    fn free(at: *mut c_void);
}

/// What the archive is told of memory that it asks for. Where there is none, nobody follows the
/// pointer.
#[repr(C)]
pub struct Tried {
    ok: bool,
    at: *mut c_void,
}

fn tried(at: *mut c_void) -> Tried {
    if at.is_null() {
        Tried {
            ok: false,
            at: 16 as *mut c_void,
        }
    } else {
        Tried { ok: true, at }
    }
}

/// To which alignment `malloc` gives memory. More is refused.
const MOST_ALIGN: usize = 2 * std::mem::size_of::<usize>();

/// # Safety
/// The archive alone calls it. What it has to keep stands in `examples/c/heap.c`.
#[no_mangle]
pub unsafe extern "C" fn rattle_alloc(size: usize, align: usize) -> Tried {
    if align > MOST_ALIGN {
        return tried(ptr::null_mut());
    }
    tried(malloc(if size == 0 { align } else { size }))
}

/// # Safety
/// The archive alone calls it.
#[no_mangle]
pub unsafe extern "C" fn rattle_realloc(
    old: *mut c_void,
    _kept: usize,
    size: usize,
    align: usize,
) -> Tried {
    if align > MOST_ALIGN {
        return tried(ptr::null_mut());
    }
    tried(realloc(old, if size == 0 { align } else { size }))
}

/// # Safety
/// The archive alone calls it.
#[no_mangle]
pub unsafe extern "C" fn rattle_dealloc(at: *mut c_void, _size: usize, _align: usize) {
    free(at)
}
