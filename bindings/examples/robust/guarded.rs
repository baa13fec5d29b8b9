//! Memory between two pages that nobody may touch: an access outside a part that ends or begins there ends the program. Linux, x86-64.

use std::ptr::null_mut;
use std::slice::from_raw_parts_mut;

mod c {
    extern "C" {
        pub fn mmap(at: *mut u8, length: usize, protection: i32, flags: i32, file: i32, offset: i64) -> *mut u8;
        pub fn mprotect(at: *mut u8, length: usize, protection: i32) -> i32;
    }
    pub const NO_ACCESS: i32 = 0;
    pub const READ_AND_WRITE: i32 = 3;
    /// MAP_PRIVATE and MAP_ANONYMOUS.
    pub const OWN_MEMORY: i32 = 0x22;
}

const PAGE: usize = 4096;
/// Room for any sheet, roll, listing or shapefile, and for what is lent beyond it.
const INSIDE: usize = 6 * PAGE;

/// Where a lent part lies.
#[derive(Clone, Copy, Debug)]
pub enum Side {
    AfterAPage,
    BeforeAPage,
}

pub const SIDES: [Side; 2] = [Side::AfterAPage, Side::BeforeAPage];

/// Kept until the program ends. A copy is the same memory: only one of the two may be lent from while what was lent is in use.
#[derive(Clone, Copy)]
pub struct Guarded {
    inside: *mut u8,
}

impl Guarded {
    pub fn new() -> Self {
        // SAFETY: new memory, at no address that is asked for.
        let all = unsafe { c::mmap(null_mut(), INSIDE + 2 * PAGE, c::NO_ACCESS, c::OWN_MEMORY, -1, 0) };
        assert_ne!(all as isize, -1, "mmap");
        let inside = all.wrapping_add(PAGE);
        // SAFETY: whole pages of the memory above, which nothing uses yet.
        let opened = unsafe { c::mprotect(inside, INSIDE, c::READ_AND_WRITE) };
        assert_eq!(opened, 0, "mprotect");
        Guarded { inside }
    }

    /// Where a part of so many bytes starts.
    fn first(&mut self, length: usize, side: Side) -> *mut u8 {
        assert!(length <= INSIDE);
        match side {
            Side::AfterAPage => self.inside,
            Side::BeforeAPage => self.inside.wrapping_add(INSIDE - length),
        }
    }

    pub fn lend(&mut self, length: usize, side: Side) -> &mut [u8] {
        // SAFETY: `first` gives so many bytes of memory that may be read and written and stays; it began as zeros, and `self` is
        // borrowed for as long as it is lent.
        unsafe { from_raw_parts_mut(self.first(length, side), length) }
    }

    /// A page begins at a multiple of 8, so that numbers lie where they may.
    pub fn lend_numbers(&mut self, count: usize, side: Side) -> &mut [u64] {
        // SAFETY: as for bytes, 8 for each number; any 8 bytes are a number.
        unsafe { from_raw_parts_mut(self.first(8 * count, side).cast(), count) }
    }

    pub fn lend_copy(&mut self, bytes: &[u8], side: Side) -> &[u8] {
        let lent = self.lend(bytes.len(), side);
        lent.copy_from_slice(bytes);
        lent
    }
}

/// Reads the byte next to a lent part, which must end the program.
pub fn read_outside(side: Side) {
    let mut memory = Guarded::new();
    let lent = memory.lend(10, side);
    let outside = match side {
        Side::AfterAPage => lent.as_ptr().wrapping_sub(1),
        Side::BeforeAPage => lent.as_ptr().wrapping_add(10),
    };
    // SAFETY: none, on purpose: the page may not be read, so that the system ends the program here.
    let byte = unsafe { outside.read_volatile() };
    println!("read {byte}");
}
