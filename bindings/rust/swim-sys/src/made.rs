//! swim.h, as it stands in C. Made of c/swim.h by .ci/bindings.

use std::mem::size_of;
use std::os::raw::{c_char, c_int, c_void};

pub const SWIM_VERSION: u32 = 1003;
pub const SWIM_DATAGRAM_MAX: usize = 512;
pub const SWIM_MEMBERS_MAX: usize = 257;
pub const SWIM_NOTES_MAX: usize = 32;
pub const SWIM_PEERS_MAX: usize = 8;
pub const SWIM_SEEDS_MAX: usize = 8;
pub const SWIM_LIMIT_MAX: u32 = 65536;

pub const SWIM_OK: c_int = 0;
pub const SWIM_NOTHING: c_int = 1;
pub const SWIM_NULL: c_int = 2;
pub const SWIM_CLOSED: c_int = 3;
pub const SWIM_IS_OPEN: c_int = 4;
pub const SWIM_NO_ENDPOINT: c_int = 5;
pub const SWIM_WAITING: c_int = 6;
pub const SWIM_SHORT: c_int = 7;
pub const SWIM_NO_MEMORY: c_int = 8;
pub const SWIM_FILE: c_int = 9;
pub const SWIM_LOCKED: c_int = 10;
pub const SWIM_BAD_LAMBDA: c_int = 11;
pub const SWIM_BAD_PERIOD: c_int = 12;
pub const SWIM_BAD_DIRECT: c_int = 13;
pub const SWIM_BAD_SUSPECT: c_int = 14;
pub const SWIM_BAD_FORGET: c_int = 15;
pub const SWIM_BAD_HELPERS: c_int = 16;
pub const SWIM_BAD_BLOCK: c_int = 17;
pub const SWIM_BAD_RULES: c_int = 18;
pub const SWIM_BAD_ADDRESS: c_int = 19;
pub const SWIM_BAD_RESERVED: c_int = 20;
pub const SWIM_OPEN_DEVICE: c_int = 21;
pub const SWIM_OPEN_NOT_STATE: c_int = 22;
pub const SWIM_OPEN_WRONG_OWNER: c_int = 23;
pub const SWIM_OPEN_NO_SLOT: c_int = 24;
pub const SWIM_OPEN_DAMAGED: c_int = 25;
pub const SWIM_OPEN_EXHAUSTED: c_int = 26;
pub const SWIM_OPEN_LIMIT: c_int = 27;
pub const SWIM_OPEN_NO_MEMORY: c_int = 28;
pub const SWIM_MAKE_NOT_EMPTY: c_int = 31;
pub const SWIM_MAKE_DEVICE: c_int = 32;
pub const SWIM_MAKE_RANGE: c_int = 33;
pub const SWIM_KEEP_DEVICE: c_int = 41;
pub const SWIM_KEEP_CHANGED: c_int = 42;
pub const SWIM_KEEP_EXHAUSTED: c_int = 43;
pub const SWIM_BUSY: c_int = 51;
pub const SWIM_FORKED: c_int = 52;
pub const SWIM_BAD_DESCRIPTOR: c_int = 53;
pub const SWIM_TOO_MANY: c_int = 54;
pub const SWIM_NO_HANDLE: c_int = 55;

pub const SWIM_NOTE_BAD_DATAGRAM: c_int = 1;
pub const SWIM_NOTE_OTHER_GROUP: c_int = 2;
pub const SWIM_NOTE_NOT_SENDER: c_int = 3;
pub const SWIM_NOTE_FROM_SELF: c_int = 4;
pub const SWIM_NOTE_LEAP: c_int = 5;
pub const SWIM_NOTE_NO_NUMBER_LEFT: c_int = 6;
pub const SWIM_NOTE_TABLE_FULL: c_int = 7;
pub const SWIM_NOTE_MISDIRECTED: c_int = 8;
pub const SWIM_NOTE_RELAYS_FULL: c_int = 9;
pub const SWIM_NOTE_UNKNOWN_TARGET: c_int = 10;
pub const SWIM_NOTE_UNASKED: c_int = 11;
pub const SWIM_NOTE_SAVE_FAILED: c_int = 12;
pub const SWIM_NOTE_EXPELLED: c_int = 13;
pub const SWIM_NOTE_STOPPED: c_int = 14;
pub const SWIM_NOTE_RECEIVE_FAILED: c_int = 15;
pub const SWIM_NOTE_SEND_FAILED: c_int = 16;
pub const SWIM_NOTE_TIME_OVER: c_int = 17;
pub const SWIM_NOTE_OTHER_VERSION: c_int = 18;

pub const SWIM_ALIVE: c_int = 1;
pub const SWIM_SUSPECT: c_int = 2;
pub const SWIM_CONFIRM: c_int = 3;

pub const SWIM_RUNNING: c_int = 0;
pub const SWIM_LEFT: c_int = 1;
pub const SWIM_EXPELLED: c_int = 2;

/// `struct swim_endpoint`.
#[repr(C)]
#[derive(Clone, Copy, Debug)]
pub struct swim_endpoint {
    pub address: u32,
    pub port: u16,
}

/// `struct swim_settings`.
#[repr(C)]
#[derive(Clone, Copy, Debug)]
pub struct swim_settings {
    pub group: u64,
    pub period: u64,
    pub direct: u64,
    pub suspect: u64,
    pub forget: u64,
    pub block: u64,
    pub address: u32,
    pub lambda: u32,
    pub helpers: u32,
    pub rules: u32,
    pub port: u16,
    pub tick_ms: u16,
    pub reserved: [u8; 28],
}

/// `struct swim_row`.
#[repr(C)]
#[derive(Clone, Copy, Debug)]
pub struct swim_row {
    pub number: u64,
    pub address: u32,
    pub port: u16,
    pub kind: u8,
    pub reserved: [u8; 17],
}

/// `struct swim_status`.
#[repr(C)]
#[derive(Clone, Copy, Debug)]
pub struct swim_status {
    pub number: u64,
    pub first: u64,
    pub alive: u64,
    pub suspect: u64,
    pub confirmed: u64,
    pub phase: u32,
    pub reserved: [u8; 52],
}

/// `struct swim_inside`.
#[repr(C)]
#[derive(Clone, Copy, Debug)]
pub struct swim_inside {
    pub mark: u64,
    pub at: *mut c_void,
}

/// `struct swim_member`.
#[repr(C)]
#[derive(Clone, Copy, Debug)]
pub struct swim_member {
    pub inside: swim_inside,
    pub busy: u32,
    pub forks: u32,
    pub tick_ms: u32,
    pub reserved: u32,
}

const _: () = assert!(size_of::<swim_endpoint>() == 8);
const _: () = assert!(size_of::<swim_settings>() == 96);
const _: () = assert!(size_of::<swim_row>() == 32);
const _: () = assert!(size_of::<swim_status>() == 96);
const _: () = assert!(size_of::<swim_inside>() == 16);
const _: () = assert!(size_of::<swim_member>() == 32);

/// The defaults of `swim run`, by rules 2. Group, address and port are yours to set.
pub const SWIM_USUAL_SETTINGS: swim_settings = swim_settings {
    group: 0,
    period: 10,
    direct: 3,
    suspect: 50,
    forget: 6000,
    block: 1,
    address: 0,
    lambda: 3,
    helpers: 3,
    rules: 2,
    port: 0,
    tick_ms: 100,
    reserved: [0; 28],
};

/// The preset `lan`, by rules 2, with ticks of 50 ms. Group, address and port are yours to set.
pub const SWIM_LAN_SETTINGS: swim_settings = swim_settings {
    group: 0,
    period: 10,
    direct: 2,
    suspect: 80,
    forget: 12000,
    block: 1,
    address: 0,
    lambda: 3,
    helpers: 5,
    rules: 2,
    port: 0,
    tick_ms: 50,
    reserved: [0; 28],
};

extern "C" {
    pub fn swim_version() -> u32;
    pub fn swim_name(code: c_int) -> *const c_char;
    pub fn swim_text(code: c_int) -> *const c_char;
    pub fn swim_note_name(note: c_int) -> *const c_char;
    pub fn swim_make(path: *const c_char, settings: *const swim_settings) -> c_int;
    pub fn swim_make_state(fd: c_int, settings: *const swim_settings) -> c_int;
    pub fn swim_open(member: *mut swim_member, path: *const c_char, settings: *const swim_settings, limit: u32) -> c_int;
    pub fn swim_open_descriptor(member: *mut swim_member, fd: c_int, settings: *const swim_settings, limit: u32) -> c_int;
    pub fn swim_open_memory(member: *mut swim_member, settings: *const swim_settings, limit: u32) -> c_int;
    pub fn swim_close(member: *mut swim_member) -> c_int;
    pub fn swim_tick(member: *mut swim_member, random: u64) -> c_int;
    pub fn swim_advance(member: *mut swim_member, now_ms: u64, random: u64, next_ms: *mut u64) -> c_int;
    pub fn swim_receive(member: *mut swim_member, from: swim_endpoint, bytes: *const u8, length: usize) -> c_int;
    pub fn swim_receive_failed(member: *mut swim_member) -> c_int;
    pub fn swim_send_failed(member: *mut swim_member, count: u32) -> c_int;
    pub fn swim_seeds(member: *mut swim_member, seeds: *const swim_endpoint, count: usize, random: u64) -> c_int;
    pub fn swim_join(member: *mut swim_member, peer: swim_endpoint) -> c_int;
    pub fn swim_leave(member: *mut swim_member) -> c_int;
    pub fn swim_next_datagram(member: *mut swim_member, to: *mut swim_endpoint, bytes: *mut u8, room: usize, length: *mut usize) -> c_int;
    pub fn swim_members(member: *const swim_member, rows: *mut swim_row, room: usize, count: *mut usize) -> c_int;
    pub fn swim_next_change(member: *mut swim_member, row: *mut swim_row, was: *mut swim_row) -> c_int;
    pub fn swim_get_status(member: *const swim_member, status: *mut swim_status) -> c_int;
    pub fn swim_notes(member: *const swim_member, notes: *mut u8, count: *mut usize) -> c_int;
    pub fn swim_stored_peers(member: *const swim_member, peers: *mut swim_endpoint, count: *mut usize) -> c_int;
    pub fn swim_keep_peers(member: *mut swim_member) -> c_int;
}
