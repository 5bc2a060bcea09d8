//! Memory between two forbidden pages: a read or a write outside what lies flush against one of them ends the program.
//! Pages between them can be forbidden too, all but those that have certain bytes. Memory can be shared with a program
//! that is started, which has forbidden pages of its own.
#![allow(unsafe_code)]

use std::ffi::{c_char, c_int, c_uint, c_void};
use std::ops::Range;
use std::os::fd::{AsRawFd, FromRawFd, OwnedFd, RawFd};
use std::sync::OnceLock;
use std::{ptr, slice};

const PROT_NONE: c_int = 0;
const PROT_READ: c_int = 1;
const PROT_READ_WRITE: c_int = 3;
/// Private, of no file, and without memory set aside: a large room costs what is touched of it.
const MAP_FLAGS: c_int = 0x4022;
/// Shared, at the place that is named, and without memory set aside.
const MAP_FLAGS_OF_A_FILE: c_int = 0x4011;

const SIGBUS: c_int = 7;
const SIGSEGV: c_int = 11;

/// A multiple of every page size that Linux has on the machines concerned.
const PAGE: usize = 65_536;

extern "C" {
    fn mmap(at: *mut c_void, length: usize, allow: c_int, flags: c_int, file: c_int, offset: i64) -> *mut c_void;
    fn mprotect(at: *mut c_void, length: usize, allow: c_int) -> c_int;
    fn munmap(at: *mut c_void, length: usize) -> c_int;
    fn memfd_create(name: *const c_char, flags: c_uint) -> c_int;
    fn ftruncate(file: c_int, length: i64) -> c_int;
    fn getpagesize() -> c_int;
    fn signal(number: c_int, handler: extern "C" fn(c_int)) -> *mut c_void;
    fn _exit(status: c_int) -> !;
}

/// The end of a room that something lies flush against.
#[derive(Clone, Copy, Debug, PartialEq, Eq)]
pub enum Side {
    Front,
    End,
}

impl Side {
    pub const BOTH: [Side; 2] = [Side::Front, Side::End];

    // Where something of a length begins in a room.
    fn place(self, room: usize, length: usize) -> usize {
        match self {
            Side::Front => 0,
            Side::End => room - length,
        }
    }
}

/// From now on a touched forbidden page is told by this function, in the thread that touched it, and ends the program
/// with status 1.
pub fn tell_faults_by(tell: fn()) {
    static TELL: OnceLock<fn()> = OnceLock::new();
    extern "C" fn told(_: c_int) {
        if let Some(tell) = TELL.get() {
            tell();
        }
        // SAFETY: ends the program at once, which cannot go on from here.
        unsafe { _exit(1) }
    }
    TELL.get_or_init(|| tell);
    // SAFETY: the handler is a function that stays, and the two signals are those of memory that may not be touched.
    unsafe {
        signal(SIGSEGV, told);
        signal(SIGBUS, told);
    }
}

pub struct Guarded {
    /// The first forbidden page.
    base: *mut u8,
    /// The bytes between the two forbidden pages.
    room: usize,
    /// The file that a shared room is the memory of.
    file: Option<OwnedFd>,
}

impl Guarded {
    /// Room for at least so many bytes.
    ///
    /// # Panics
    /// Where the system does not give it.
    pub fn with_room(bytes: usize) -> Guarded {
        let room = Guarded::forbidden(bytes);
        // SAFETY: the middle of a new mapping, which nothing is lent of yet.
        let opened = unsafe { mprotect(room.base.add(PAGE).cast(), room.room, PROT_READ_WRITE) };
        assert_eq!(opened, 0, "the room cannot be opened");
        room
    }

    /// The same, of memory that every program has which is started from then on, by the number of its file.
    ///
    /// # Panics
    /// Where the system does not give it.
    pub fn shared(bytes: usize) -> Guarded {
        let mut room = Guarded::forbidden(bytes);
        let file = memory_file(room.room);
        // SAFETY: the middle of a new mapping, which nothing is lent of yet, is mapped once more.
        let opened = unsafe {
            let (at, flags) = (room.base.add(PAGE).cast(), MAP_FLAGS_OF_A_FILE);
            mmap(at, room.room, PROT_READ_WRITE, flags, file.as_raw_fd(), 0)
        };
        assert_ne!(opened as isize, -1, "the shared room cannot be opened");
        room.file = Some(file);
        room
    }

    // A room for at least so many bytes that is not opened yet.
    fn forbidden(bytes: usize) -> Guarded {
        let room = bytes.max(1).next_multiple_of(PAGE);
        // SAFETY: a new mapping of its own; nothing else knows its address.
        let base = unsafe { mmap(ptr::null_mut(), room + 2 * PAGE, PROT_NONE, MAP_FLAGS, -1, 0) };
        assert!(!base.is_null() && base as isize != -1, "no memory for {bytes} bytes");
        Guarded { base: base.cast(), room, file: None }
    }

    /// The addresses between the two forbidden pages.
    pub fn addresses(&self) -> Range<usize> {
        let begin = self.base as usize + PAGE;
        begin..begin + self.room
    }

    /// The number of a shared room's file.
    pub fn file(&self) -> Option<RawFd> {
        self.file.as_ref().map(AsRawFd::as_raw_fd)
    }

    /// A copy that lies flush against the forbidden page of a side.
    pub fn bytes_at(&mut self, side: Side, bytes: &[u8]) -> &[u8] {
        self.longer_at(side, bytes, bytes.len())
    }

    /// The same of a length that is longer than the copy; what stands behind the copy is whatever the room holds.
    ///
    /// # Panics
    /// Where there is no room for it.
    pub fn longer_at(&mut self, side: Side, bytes: &[u8], length: usize) -> &[u8] {
        assert!(bytes.len() <= length && length <= self.room);
        let place = side.place(self.room, length);
        // SAFETY: the copy lies inside the room, which was opened and is lent by no one else while self is borrowed.
        unsafe {
            let to = self.base.add(PAGE + place);
            ptr::copy_nonoverlapping(bytes.as_ptr(), to, bytes.len());
            slice::from_raw_parts(to, length)
        }
    }

    /// A copy of words, to be written to.
    ///
    /// # Panics
    /// Where there is no room for it.
    pub fn words_at(&mut self, side: Side, words: &[u64]) -> &mut [u64] {
        let length = size_of_val(words);
        assert!(length <= self.room);
        let place = side.place(self.room, length);
        // SAFETY: as for bytes. The room begins at a page and ends at one, so that every place that is a multiple of 8
        // bytes from either is one for words.
        unsafe {
            let to = self.base.add(PAGE + place).cast::<u64>();
            ptr::copy_nonoverlapping(words.as_ptr(), to, words.len());
            slice::from_raw_parts_mut(to, words.len())
        }
    }
}

/// Bytes of which only some pages can be read; the others are forbidden until this is dropped.
pub struct Sparse<'a> {
    room: &'a mut Guarded,
    place: usize,
    length: usize,
    /// How many pages of the system's size can be read.
    pub pages: usize,
}

impl Guarded {
    /// A copy that lies flush against the forbidden page of a side, of which every page is forbidden that has none of
    /// the bytes at these places.
    ///
    /// # Panics
    /// Where there is no room for it, or the system does not forbid the pages.
    pub fn sparse_at(&mut self, side: Side, bytes: &[u8], readable: &[Range<usize>]) -> Sparse<'_> {
        self.bytes_at(side, bytes);
        let (place, length) = (side.place(self.room, bytes.len()), bytes.len());
        let page = page_size();
        let mut is_read = vec![false; self.room / page];
        for places in readable.iter().filter(|places| !places.is_empty()) {
            assert!(places.end <= length, "{places:?} are not all inside");
            is_read[(place + places.start) / page..=(place + places.end - 1) / page].fill(true);
        }
        let pages = is_read.iter().filter(|&&is_read| is_read).count();
        let mut at = 0;
        for run in is_read.chunk_by(|a, b| a == b) {
            self.allow(at * page, run.len() * page, if run[0] { PROT_READ } else { PROT_NONE });
            at += run.len();
        }
        Sparse { room: self, place, length, pages }
    }

    // From a place of the room on, both being multiples of the page size.
    fn allow(&mut self, from: usize, length: usize, allow: c_int) {
        // SAFETY: the pages are this mapping's own, and nothing is lent of it while self is borrowed.
        let done = unsafe { mprotect(self.base.add(PAGE + from).cast(), length, allow) };
        assert_eq!(done, 0, "{length} bytes from {from} on cannot be made what they should be");
    }
}

impl Sparse<'_> {
    /// The bytes; who reads one of a forbidden page ends the program.
    pub fn bytes(&self) -> &[u8] {
        // SAFETY: the copy lies inside the room, which stays mapped; what is forbidden of it stops a reader, and
        // nothing writes to it.
        unsafe { slice::from_raw_parts(self.room.base.add(PAGE + self.place), self.length) }
    }
}

impl Drop for Sparse<'_> {
    fn drop(&mut self) {
        self.room.allow(0, self.room.room, PROT_READ_WRITE);
    }
}

// A file in memory alone, of so many bytes; without flags it stays open in a program that is started.
fn memory_file(bytes: usize) -> OwnedFd {
    // SAFETY: the name ends with 0, and the file is this function's own before anyone else has it.
    unsafe {
        let file = memfd_create(c"room".as_ptr(), 0);
        assert!(file >= 0, "no file in memory");
        let file = OwnedFd::from_raw_fd(file);
        assert_eq!(ftruncate(file.as_raw_fd(), bytes as i64), 0, "no file of {bytes} bytes in memory");
        file
    }
}

/// The system's, which may be smaller than ours.
pub fn page_size() -> usize {
    // SAFETY: the call has no conditions.
    unsafe { getpagesize() as usize }
}

impl Drop for Guarded {
    fn drop(&mut self) {
        // SAFETY: the mapping is this value's own, and nothing borrows from it any more.
        unsafe { munmap(self.base.cast(), self.room + 2 * PAGE) };
    }
}
