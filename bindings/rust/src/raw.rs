//! The library's own functions and structs, as mdp_handler.h declares them.

#[repr(C)]
pub struct Handle {
    pub address: *mut u8,
}

#[repr(C)]
pub struct Options {
    pub size: u64,
    pub window: u32,
    pub start: u32,
    pub lines: u32,
    pub reserved: u32,
}

#[repr(C)]
#[derive(Clone, Copy, Debug)]
pub struct Listed {
    pub id: i32,
    pub leg1: i32,
    pub leg2: i32,
    pub depth: u8,
    pub length: u8,
    pub name: [u8; 20],
    pub reserved: u16,
}

#[repr(C)]
#[derive(Default)]
pub struct Became {
    pub kind: u32,
    pub fate: u32,
    pub has_loss: u32,
    pub has_jump: u32,
    pub news: u64,
    pub older: u64,
    pub unlisted: u64,
    pub after_close: u64,
    pub loss_next: u64,
    pub loss_highest: u64,
    pub jump_old: u64,
    pub jump_new: u64,
}

/// A price, in units of 10^-9, and the size there.
#[repr(C)]
#[derive(Clone, Copy, Debug, Default, PartialEq, Eq)]
pub struct Level {
    pub price: i64,
    pub size: i64,
}

#[repr(C)]
#[derive(Default)]
pub struct Best {
    pub bid: Level,
    pub offer: Level,
    pub has_bid: u32,
    pub has_offer: u32,
    pub is_faulty: u32,
    pub reserved: u32,
}

#[repr(C)]
#[derive(Default)]
pub struct BookFault {
    pub message: u64,
    pub packet: u32,
    pub entry: u32,
    pub is_faulty: u32,
    pub reserved: u32,
}

#[repr(C)]
#[derive(Default)]
pub struct State {
    pub next: u64,
    pub highest: u64,
    pub waiting: u64,
    pub stale: u64,
    pub is_lost: u32,
    pub has_stale: u32,
}

#[repr(C)]
pub struct Lent {
    pub bytes: *const u8,
    pub length: usize,
}

extern "C" {
    pub fn mdp_open(
        handle: *mut Handle,
        options: *const Options,
        listed: *const Listed,
        count: usize,
        place: *mut u64,
    ) -> u32;
    pub fn mdp_open_text(
        handle: *mut Handle,
        options: *const Options,
        text: *const u8,
        length: usize,
        line: *mut u64,
    ) -> u32;
    pub fn mdp_free(handle: *mut Handle);
    pub fn mdp_datagram(handle: *mut Handle, feed: u32, bytes: *const u8, length: usize, became: *mut Became) -> u32;
    pub fn mdp_close(handle: *mut Handle) -> u32;
    pub fn mdp_lines(handle: *mut Handle, lent: *mut Lent) -> u32;
    pub fn mdp_clear_lines(handle: *mut Handle) -> u32;
    pub fn mdp_changed(handle: *mut Handle, slots: *mut u32, room: usize, count: *mut u64) -> u32;
    pub fn mdp_is_current(handle: *mut Handle, slot: u32, current: *mut bool) -> u32;
    pub fn mdp_best(handle: *mut Handle, slot: u32, best: *mut Best) -> u32;
    pub fn mdp_levels(
        handle: *mut Handle,
        slot: u32,
        book: u32,
        side: u32,
        levels: *mut Level,
        room: usize,
        count: *mut u64,
    ) -> u32;
    pub fn mdp_fault(handle: *mut Handle, slot: u32, fault: *mut BookFault) -> u32;
    pub fn mdp_state(handle: *mut Handle, state: *mut State) -> u32;
}
