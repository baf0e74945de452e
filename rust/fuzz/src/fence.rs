//! Slices that end, or begin, at a page that nobody may touch.
use std::ffi::c_void;
use std::marker::PhantomData;
use std::{mem, ptr, slice};

extern "C" {
    fn mmap(
        at: *mut c_void,
        length: usize,
        protection: i32,
        flags: i32,
        file: i32,
        offset: i64,
    ) -> *mut c_void;
    fn mprotect(at: *mut c_void, length: usize, protection: i32) -> i32;
    fn sysconf(name: i32) -> i64;
}

// Linux's numbers.
const PROT_NONE: i32 = 0;
const PROT_READ_WRITE: i32 = 3;
const MAP_PRIVATE_ANONYMOUS: i32 = 0x22;
const SC_PAGESIZE: i32 = 30;

/// How many elements beside a slice, where no fence is, are looked at.
const NEAR: usize = 32;

/// What a place holds before a call.
pub trait Mark: Copy + PartialEq {
    const MARK: Self;
}

impl Mark for u8 {
    const MARK: u8 = 77;
}

impl Mark for i64 {
    const MARK: i64 = 7777;
}

impl Mark for u64 {
    const MARK: u64 = 7777;
}

/// The side of a slice that a fence stands at. At its other side are marked places.
#[derive(Debug, Clone, Copy, PartialEq, Eq)]
pub enum Side {
    Before,
    Behind,
}

/// Pages between two fences, and the slice that is lent of them.
pub struct Fenced<T> {
    pages: *mut T,
    /// How many elements the pages hold.
    room: usize,
    side: Side,
    len: usize,
    elements: PhantomData<T>,
}

impl<T: Mark> Fenced<T> {
    /// Pages for slices of up to that many elements.
    pub fn new(most: usize) -> Self {
        // SAFETY: a new mapping, whose two outer pages are then closed; it stays as long as the process.
        unsafe {
            let page = sysconf(SC_PAGESIZE) as usize;
            let bytes = ((most + NEAR) * mem::size_of::<T>()).next_multiple_of(page);
            let all = mmap(ptr::null_mut(), bytes + 2 * page, PROT_READ_WRITE, MAP_PRIVATE_ANONYMOUS, -1, 0);
            assert!(all as isize != -1, "mmap gives no pages");
            for fence in [all, all.byte_add(page + bytes)] {
                assert_eq!(mprotect(fence, page, PROT_NONE), 0, "mprotect closes no page");
            }
            let pages = all.byte_add(page).cast::<T>();
            let room = bytes / mem::size_of::<T>();
            Fenced { pages, room, side: Side::Behind, len: 0, elements: PhantomData }
        }
    }

    /// Lends that many marked places, against the fence of a side.
    pub fn places(&mut self, len: usize, side: Side) -> &mut Self {
        assert!(len + NEAR <= self.room, "more places than the pages were made for");
        (self.len, self.side) = (len, side);
        let from = if side == Side::Before { 0 } else { self.room - len - NEAR };
        self.elements_mut(from, len + NEAR).fill(T::MARK);
        self
    }

    /// Lends a slice that holds this.
    pub fn holding(&mut self, content: &[T], side: Side) -> &mut Self {
        self.places(content.len(), side);
        let first = self.first();
        self.elements_mut(first, content.len()).copy_from_slice(content);
        self
    }

    pub fn pointer(&self) -> *mut T {
        // SAFETY: within the pages, or at their end.
        unsafe { self.pages.add(self.first()) }
    }

    pub fn len(&self) -> usize {
        self.len
    }

    pub fn is_empty(&self) -> bool {
        self.len == 0
    }

    pub fn content(&self) -> &[T] {
        self.elements(self.first(), self.len)
    }

    /// Whether the places are these and then marked ones, and those beside the slice are marked.
    pub fn is(&self, first: &[T]) -> bool {
        let (given, kept) = self.content().split_at(first.len().min(self.len));
        given == first && kept.iter().all(|place| *place == T::MARK) && self.is_alone()
    }

    /// Whether those beside the slice are marked, whatever it holds.
    pub fn is_alone(&self) -> bool {
        let near = if self.side == Side::Before { self.len } else { self.first() - NEAR };
        self.elements(near, NEAR).iter().all(|place| *place == T::MARK)
    }

    fn first(&self) -> usize {
        if self.side == Side::Before {
            0
        } else {
            self.room - self.len
        }
    }

    fn elements(&self, from: usize, len: usize) -> &[T] {
        assert!(from + len <= self.room);
        // SAFETY: within the pages, which are all zero or elements at first.
        unsafe { slice::from_raw_parts(self.pages.add(from), len) }
    }

    fn elements_mut(&mut self, from: usize, len: usize) -> &mut [T] {
        assert!(from + len <= self.room);
        // SAFETY: the same, and borrowed exclusively.
        unsafe { slice::from_raw_parts_mut(self.pages.add(from), len) }
    }
}

#[cfg(test)]
mod tests {
    use super::*;

    #[test]
    fn every_place_that_is_looked_at_shows() {
        let mut fenced = Fenced::<i64>::new(10);
        for side in [Side::Before, Side::Behind] {
            for len in 0..10 {
                let from = if side == Side::Before { 0 } else { fenced.room - len - NEAR };
                for place in from..from + len + NEAR {
                    assert!(fenced.places(len, side).is(&[]));
                    fenced.elements_mut(place, 1)[0] = 1;
                    assert!(!fenced.is(&[]), "{side:?}, {len} lent, place {place}");
                    let lent = fenced.first()..fenced.first() + len;
                    assert_eq!(fenced.is_alone(), lent.contains(&place));
                }
                let content: Vec<i64> = (0..len as i64).collect();
                assert!(fenced.holding(&content, side).is(&content));
            }
        }
    }
}
