//! Memory that is lent to the library: every part and every buffer lies between pages that cannot be touched, and ends where these begin or begins where these
//! end, so that a read or write past what was lent ends the process. And each lies in memory twice, once where it can only be read: a call that takes it with
//! const is lent it there, so that a write ends the process even where it puts back what was there.

use std::ffi::{c_char, c_int, c_uint, c_void};
use std::ptr::null_mut;

use crate::header::*;

const PAGE: usize = 4096;
/// So much cannot be touched on either side: more than any number of the tables, a byte, times the size of a label's place.
const GUARD: usize = 1 << 20;

const NOTHING: c_int = 0;
const READ: c_int = 1;
const READ_AND_WRITE: c_int = 3;
const PRIVATE_NEW_MEMORY: c_int = 0x22;
const SHARED_NEW_MEMORY: c_int = 0x21;
const SHARED_AT_THIS_PLACE: c_int = 0x11;

unsafe extern "C" {
    fn mmap(at: *mut c_void, bytes: usize, access: c_int, flags: c_int, file: c_int, offset: i64) -> *mut c_void;
    fn munmap(at: *mut c_void, bytes: usize) -> c_int;
    fn memfd_create(name: *const c_char, flags: c_uint) -> c_int;
    fn ftruncate(file: c_int, bytes: i64) -> c_int;
    fn close(file: c_int) -> c_int;
}

fn mapped(bytes: usize, access: c_int, flags: c_int) -> *mut u8 {
    let at = unsafe { mmap(null_mut(), bytes, access, flags, -1, 0) };
    assert!(at as isize != -1, "no memory");
    at.cast()
}

/// Memory that a process shares with those that it forks, of zeros at first: for types that are made of numbers alone. It is not given back.
pub fn shared<T: Copy>() -> *mut T {
    mapped(size_of::<T>().next_multiple_of(PAGE), READ_AND_WRITE, SHARED_NEW_MEMORY).cast()
}

/// Where in its room a part lies: it ends where that begins which cannot be touched, or begins where such memory ends, or one element behind that: bytes at
/// an odd address, words at one that is no multiple of 16.
#[derive(Clone, Copy, PartialEq, Eq, Debug)]
pub enum Place {
    End,
    Front,
    Odd,
}

/// Pages that lie in memory twice, between others that cannot be touched, and what is lent of them now: `length` elements from `start` on.
pub struct Room<T> {
    pages: *mut u8,
    bytes: usize,
    place: Place,
    start: *mut T,
    length: usize,
}

impl<T: Copy> Room<T> {
    pub fn new(bytes: usize, place: Place) -> Room<T> {
        let bytes = bytes.next_multiple_of(PAGE);
        let pages = unsafe { mapped(2 * bytes + 3 * GUARD, NOTHING, PRIVATE_NEW_MEMORY).add(GUARD) };
        let file = unsafe { memfd_create(c"lent".as_ptr(), 0) };
        assert!(file >= 0 && unsafe { ftruncate(file, bytes as i64) } == 0, "no memory");
        for (at, access) in [(pages, READ_AND_WRITE), (unsafe { pages.add(bytes + GUARD) }, READ)] {
            assert!(unsafe { mmap(at.cast(), bytes, access, SHARED_AT_THIS_PLACE, file, 0) } == at.cast(), "no memory");
        }
        unsafe { close(file) };
        let mut room = Room { pages, bytes, place, start: pages.cast(), length: 0 };
        room.set_length(0);
        room
    }

    /// Lends so many elements; what they hold is left open.
    fn set_length(&mut self, length: usize) {
        let bytes = length * size_of::<T>();
        assert!(bytes + size_of::<T>() <= self.bytes, "{bytes} bytes are more than a room has");
        self.length = length;
        self.start = match self.place {
            Place::Front => self.pages.cast(),
            Place::Odd => unsafe { self.pages.add(size_of::<T>()).cast() },
            Place::End => unsafe { self.pages.add(self.bytes - bytes).cast() },
        };
    }

    /// Lends a copy of these.
    pub fn lend(&mut self, elements: &[T]) {
        if self.length != elements.len() {
            self.set_length(elements.len());
        }
        self.now().copy_from_slice(elements);
    }

    /// Lends so many elements, each of them this.
    pub fn fill(&mut self, length: usize, element: T) {
        self.set_length(length);
        self.now().fill(element);
    }

    /// What is lent gets another length: it is cut at its end, or `element` is added.
    pub fn resize(&mut self, length: usize, element: T) {
        let mut kept = self.now().to_vec();
        kept.resize(length, element);
        self.lend(&kept);
    }

    pub fn now(&mut self) -> &mut [T] {
        unsafe { std::slice::from_raw_parts_mut(self.start, self.length) }
    }

    pub fn seen(&self) -> &[T] {
        unsafe { std::slice::from_raw_parts(self.start, self.length) }
    }

    /// Where it can be written.
    pub fn start(&self) -> *mut T {
        self.start
    }

    /// Where it can only be read: for a call that takes it with const.
    pub fn shown(&self) -> *const T {
        unsafe { self.start.byte_add(self.bytes + GUARD) }
    }

    pub fn len(&self) -> usize {
        self.length
    }
}

impl<T> Drop for Room<T> {
    fn drop(&mut self) {
        unsafe { munmap(self.pages.sub(GUARD).cast(), 2 * self.bytes + 3 * GUARD) };
    }
}

/// All that is lent: the three parts of the tables, the line, and what single calls get to read and to write.
pub struct Lent {
    pub labels: Room<u8>,
    pub entries: Room<u8>,
    pub words: Room<u64>,
    pub line: Room<u8>,
    pub loader: bq_loader,
    pub texts: [Room<u8>; 3],
    pub output: Room<u8>,
    /// What the output is to hold after the call.
    pub expected_output: Vec<u8>,
    pub records: Room<bq_record>,
    pub fields: [Room<u64>; 3],
    /// How often a run was searched: bq_lowest_of gets arrays of other lengths from turn to turn.
    pub turn: usize,
}

/// The most elements that a part can get, a megabyte of bytes, and room for one more.
const ROOM: usize = (1 << 20) + PAGE;

impl Lent {
    pub fn new(place: Place) -> Lent {
        let bytes = || Room::new(ROOM, place);
        let words = || Room::new(8 * ROOM, place);
        let mut lent = Lent {
            labels: bytes(),
            entries: bytes(),
            words: words(),
            line: bytes(),
            loader: bq_loader::default(),
            texts: [bytes(), bytes(), bytes()],
            output: bytes(),
            expected_output: Vec::new(),
            records: Room::new(8 * ROOM, place),
            fields: [words(), words(), words()],
            turn: 0,
        };
        lent.clear();
        lent
    }

    /// All parts of their full size and zero, as before the first call.
    pub fn clear(&mut self) {
        self.labels.fill(LABELS, 0);
        self.entries.fill(ENTRIES, 0);
        self.words.fill(WORDS, 0);
        self.line.fill(LINE, 0);
        self.loader = bq_loader::default();
        self.turn = 0;
    }

    pub fn place(&self) -> Place {
        self.labels.place
    }
}

impl Lent {
    /// A copy of the bytes as text number `which` of a call: where it stands and how long it is.
    pub fn text(&mut self, which: usize, bytes: &[u8]) -> (*const u8, usize) {
        self.texts[which].lend(bytes);
        (self.texts[which].shown(), bytes.len())
    }

    /// A copy of the bytes as a call's output.
    pub fn output(&mut self, bytes: &[u8]) -> (*mut u8, usize) {
        self.output.lend(bytes);
        (self.output.start(), bytes.len())
    }
}
