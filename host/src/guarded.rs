//! Memory between two pages that are not mapped: a slice lent from it ends, or begins, where a further byte faults.

use std::ffi::{c_int, c_long, c_void};
use std::slice;

extern "C" {
    fn mmap(at: *mut c_void, length: usize, protection: c_int, flags: c_int, file: c_int, offset: c_long) -> *mut c_void;
    fn mprotect(at: *mut c_void, length: usize, protection: c_int) -> c_int;
}

const PROTECTION_NONE: c_int = 0;
const PROTECTION_READ_WRITE: c_int = 1 | 2;
const MAP_PRIVATE_ANONYMOUS: c_int = 0x02 | 0x20;

/// The largest page that the machines in question have; a boundary of it is one of every smaller page.
const PAGE: usize = 1 << 16;

/// Which edge of a lent slice touches the page that is not mapped.
#[derive(Clone, Copy, PartialEq, Eq, Debug)]
pub enum Edge {
    End,
    Begin,
}

/// Room for slices of up to 64 KiB, kept until the program ends.
pub struct Guarded {
    room: *mut u8,
}

impl Guarded {
    pub fn new() -> Guarded {
        // SAFETY: a new anonymous mapping that nothing else knows; only its middle page is made usable.
        unsafe {
            let whole = mmap(std::ptr::null_mut(), 4 * PAGE, PROTECTION_NONE, MAP_PRIVATE_ANONYMOUS, -1, 0);
            assert!(whole as isize != -1, "mmap");
            let room = ((whole as usize).next_multiple_of(PAGE) + PAGE) as *mut u8;
            assert!(mprotect(room.cast(), PAGE, PROTECTION_READ_WRITE) == 0, "mprotect");
            Guarded { room }
        }
    }

    /// A slice of so many bytes with its edge at the page that is not mapped. Its bytes are what was last written there.
    pub fn bytes(&mut self, length: usize, edge: Edge) -> &mut [u8] {
        // SAFETY: `place` leaves `length` bytes inside the usable page, which lives as long as the program.
        unsafe { slice::from_raw_parts_mut(self.place(length, edge), length) }
    }

    fn place(&self, bytes: usize, edge: Edge) -> *mut u8 {
        assert!(bytes <= PAGE);
        match edge {
            Edge::Begin => self.room,
            Edge::End => self.room.wrapping_add(PAGE - bytes),
        }
    }
}

impl Default for Guarded {
    fn default() -> Guarded {
        Guarded::new()
    }
}
