//! Declarations of the static library: its permits, and its pool, which is a thread pool's rule as a book of jobs.
use std::ffi::c_void;
use std::ptr;

// As in include/, with which tools/check_bindings compares these declarations.
#[repr(C)]
#[derive(Clone, Copy)]
pub struct Handle {
    pub at: *mut c_void,
}

impl Handle {
    pub const EMPTY: Handle = Handle {
        at: ptr::null_mut(),
    };
}

#[repr(C)]
#[derive(Clone, Copy, Default)]
pub struct PoolJob {
    pub work: u64,
    pub number: u64,
    pub place: u32,
    pub caller: u16,
}

#[repr(C)]
#[derive(Clone, Copy, Default)]
pub struct PoolCounts {
    pub accepted: u64,
    pub refused: u64,
    pub finished: u64,
    pub core: u32,
    pub max: u32,
    pub greatest: u32,
    pub capacity: u32,
    pub workers: u32,
    pub running: u32,
    pub waiting: u32,
    pub closed: u32,
}

#[repr(C)]
#[derive(Clone, Copy, Default)]
pub struct PoolEvent {
    pub number: u64,
    pub caller: u16,
    pub kind: u8,
    pub reply: u8,
    pub core: u32,
    pub max: u32,
}

unsafe extern "C" {
    pub fn resil_permit_new(max: u32, out: *mut Handle) -> u8;
    pub fn resil_permit_split(pass: Handle, back: *mut Handle, out: *mut Handle) -> u8;
    pub fn resil_permit_try_once(pass: Handle, back: *mut Handle) -> u8;
    pub fn resil_permit_leave(pass: Handle, back: *mut Handle) -> u8;
    pub fn resil_permit_retire(pass: Handle, back: *mut Handle) -> u8;
    pub fn resil_permit_raise(pass: Handle, back: *mut Handle) -> u8;
    pub fn resil_permit_retired(pass: Handle, back: *mut Handle) -> u32;
    pub fn resil_permit_available(pass: Handle, back: *mut Handle) -> u32;
    pub fn resil_permit_free(pass: Handle);
    pub fn resil_pool_new(
        core: u32,
        max: u32,
        queue: u32,
        callers: u32,
        kept: u32,
        out: *mut Handle,
    ) -> u8;
    pub fn resil_pool_submit(
        pool: Handle,
        back: *mut Handle,
        caller: u16,
        number: u64,
        work: u64,
    ) -> u8;
    pub fn resil_pool_pick(pool: Handle, back: *mut Handle, job: *mut PoolJob) -> u8;
    pub fn resil_pool_finish(
        pool: Handle,
        back: *mut Handle,
        caller: u16,
        number: u64,
        place: u32,
    ) -> u8;
    pub fn resil_pool_resize(pool: Handle, back: *mut Handle, core: u32, max: u32) -> u8;
    pub fn resil_pool_idle_end(pool: Handle, back: *mut Handle) -> u8;
    pub fn resil_pool_close(pool: Handle, back: *mut Handle) -> u8;
    pub fn resil_pool_numbers(pool: Handle, back: *mut Handle, counts: *mut PoolCounts) -> u8;
    pub fn resil_pool_event_count(pool: Handle, back: *mut Handle) -> usize;
    pub fn resil_pool_lost(pool: Handle, back: *mut Handle) -> u64;
    pub fn resil_pool_event(
        pool: Handle,
        back: *mut Handle,
        index: usize,
        event: *mut PoolEvent,
    ) -> u8;
    pub fn resil_pool_free(pool: Handle);
}
