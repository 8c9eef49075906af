//! Memory between two walls, stretches of addresses that may not be touched. A slice that stands flush against a wall cannot be read
//! or written past that end without a fault, which ends the test. By Linux's numbers.

use std::ffi::c_void;
use std::{ptr, slice};

/// Bytes of a wall: whole pages, whatever their size.
const WALL: usize = 65_536;

const NEITHER: i32 = 0;
const READ_AND_WRITE: i32 = 1 | 2;
const PRIVATE_AND_OF_NO_FILE: i32 = 0x02 | 0x20;

unsafe extern "C" {
    fn mmap(
        at: *mut c_void,
        bytes: usize,
        may: i32,
        kind: i32,
        file: i32,
        from: i64,
    ) -> *mut c_void;
    fn mprotect(at: *mut c_void, bytes: usize, may: i32) -> i32;
    fn munmap(at: *mut c_void, bytes: usize) -> i32;
}

/// The end of a slice that stands against a wall.
#[derive(Clone, Copy, Debug)]
pub enum Flush {
    Start,
    End,
}

pub const FLUSHES: [Flush; 2] = [Flush::Start, Flush::End];

pub struct Fenced {
    /// Where the first wall starts. Behind it is the room, then the second wall.
    start: *mut u8,
    room: usize,
}

impl Fenced {
    pub fn new(bytes: usize) -> Self {
        let room = bytes.next_multiple_of(WALL);
        // SAFETY: nobody else has what is mapped, and what is opened lies inside.
        unsafe {
            let start = mmap(
                ptr::null_mut(),
                room + 2 * WALL,
                NEITHER,
                PRIVATE_AND_OF_NO_FILE,
                -1,
                0,
            );
            assert_ne!(start.addr(), usize::MAX, "nothing was mapped");
            let opened = mprotect(start.byte_add(WALL), room, READ_AND_WRITE);
            assert_eq!(opened, 0, "the room was not opened");
            let start = start.cast();
            Fenced { start, room }
        }
    }

    /// The words, copied to where one end of them is at a wall.
    pub fn lend<T: Copy>(&mut self, words: &[T], flush: Flush) -> &mut [T] {
        let bytes = size_of_val(words);
        assert!(bytes <= self.room, "{bytes} bytes do not fit");
        let at = match flush {
            Flush::Start => WALL,
            Flush::End => WALL + self.room - bytes,
        };
        // SAFETY: the words fit between the walls, at whole multiples of their size from both, and the borrow goes over.
        unsafe {
            let place = self.start.add(at).cast();
            ptr::copy_nonoverlapping(words.as_ptr(), place, words.len());
            slice::from_raw_parts_mut(place, words.len())
        }
    }
}

impl Drop for Fenced {
    fn drop(&mut self) {
        // SAFETY: as it was mapped; every borrow has ended.
        unsafe { munmap(self.start.cast(), self.room + 2 * WALL) };
    }
}
