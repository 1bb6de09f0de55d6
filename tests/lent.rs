//! Memory that is lent to the product: between two pages that can't be touched, and canary bytes in what is left over.
//!
//! A read or write past an end that lies on the edge faults at once; a write elsewhere shows in the canary bytes.

use std::ffi::c_void;

extern "C" {
    fn mmap(at: *mut c_void, length: usize, allowed: i32, flags: i32, file: i32, offset: i64) -> *mut c_void;
    fn mprotect(at: *mut c_void, length: usize, allowed: i32) -> i32;
}

const PAGE: usize = 4096;
const NONE: i32 = 0;
const READ_WRITE: i32 = 3;
const PRIVATE_ANONYMOUS: i32 = 0x22;
const NO_RESERVE: i32 = 0x4000;

/// Which edge the slice lies on.
#[derive(Clone, Copy, PartialEq, Eq, Debug)]
pub enum Side {
    Front,
    Middle,
    Back,
}

pub struct Lent {
    base: *mut u8,
    size: usize,
    /// What the whole memory should hold.
    image: Vec<u8>,
    at: usize,
    length: usize,
}

impl Lent {
    pub fn new(size: usize) -> Lent {
        let base = between_guards(size, 0).expect("memory for the lists");
        Lent { base, size, image: vec![0; size], at: 0, length: 0 }
    }

    /// Puts the content on the side, canary bytes around it.
    pub fn lend(&mut self, content: &[u8], side: Side, canary: u64) -> *mut u8 {
        let spare = self.size - content.len();
        self.at = match side {
            Side::Front => 0,
            Side::Middle => canary as usize % (spare + 1),
            Side::Back => spare,
        };
        self.length = content.len();
        fill_canary(&mut self.image, canary);
        self.image[self.at..self.at + self.length].copy_from_slice(content);
        unsafe {
            std::ptr::copy_nonoverlapping(self.image.as_ptr(), self.base, self.size);
            self.base.add(self.at)
        }
    }

    pub fn fits(&self, length: usize) -> bool {
        length <= self.size
    }

    /// The lent bytes as they are now.
    pub fn content(&self) -> Vec<u8> {
        self.memory()[self.at..self.at + self.length].to_vec()
    }

    /// A changed byte outside the slice, counted from the slice's first byte.
    pub fn touched_outside(&self) -> Option<isize> {
        let (at, end) = (self.at, self.at + self.length);
        let now = self.memory();
        if now[..at] == self.image[..at] && now[end..] == self.image[end..] {
            return None;
        }
        let outside = |place: &usize| (*place < at || *place >= end) && now[*place] != self.image[*place];
        (0..self.size).find(outside).map(|place| place as isize - at as isize)
    }

    fn memory(&self) -> &[u8] {
        unsafe { std::slice::from_raw_parts(self.base, self.size) }
    }
}

fn fill_canary(image: &mut [u8], canary: u64) {
    let mut word = canary | 1;
    for chunk in image.chunks_mut(8) {
        word = word.wrapping_mul(0x2545_f491_4f6c_dd1d).rotate_left(17);
        chunk.copy_from_slice(&word.to_le_bytes()[..chunk.len()]);
    }
}

/// Memory of whole pages between two pages that fault; nothing where the system won't give it.
fn between_guards(size: usize, more_flags: i32) -> Option<*mut u8> {
    assert!(size % PAGE == 0);
    unsafe {
        let whole = mmap(std::ptr::null_mut(), size + 2 * PAGE, NONE, PRIVATE_ANONYMOUS | more_flags, -1, 0);
        if whole as isize == -1 {
            return None;
        }
        let base = (whole as *mut u8).add(PAGE);
        (mprotect(base as *mut c_void, size, READ_WRITE) == 0).then_some(base)
    }
}

/// Zeros of more than four gigabytes, of which only the touched pages take memory: for lengths that need 33 bits.
pub fn vast(size: usize) -> Option<*mut u8> {
    between_guards(size.div_ceil(PAGE) * PAGE, NO_RESERVE)
}
