//! A section in a file that is mapped into memory, and how much of it is resident.
//!
//! Only pages that are touched become resident: the file is dropped from the page cache before it is mapped, and
//! nothing is read ahead in the mapping. A page that is in the cache would be mapped with a touched one beside it.
#![allow(unsafe_code)]

use std::ffi::{c_int, c_void};
use std::fs::{self, OpenOptions};
use std::io::{Result, Write};
use std::marker::PhantomData;
use std::os::fd::AsRawFd;
use std::{env, process, ptr, slice};

const PROT_READ: c_int = 1;
const MAP_PRIVATE: c_int = 2;
const MADV_RANDOM: c_int = 1;
const POSIX_FADV_DONTNEED: c_int = 4;

/// No page is smaller on the machines concerned.
const SMALLEST_PAGE: usize = 4_096;

extern "C" {
    fn mmap(at: *mut c_void, length: usize, allow: c_int, flags: c_int, file: c_int, offset: i64) -> *mut c_void;
    fn munmap(at: *mut c_void, length: usize) -> c_int;
    fn madvise(at: *mut c_void, length: usize, advice: c_int) -> c_int;
    fn mincore(at: *mut c_void, length: usize, pages: *mut u8) -> c_int;
    fn posix_fadvise(file: c_int, offset: i64, length: i64, advice: c_int) -> c_int;
}

/// A section on the disk, in a file that has no name any more and ends with this value.
pub struct Stored {
    file: fs::File,
    length: usize,
}

impl Stored {
    /// Writes it, in the folder for temporary files.
    pub fn write(section: &[u8]) -> Result<Stored> {
        let path = env::temp_dir().join(format!("suntimpani-bench-{}", process::id()));
        let mut file = OpenOptions::new().read(true).write(true).create_new(true).open(&path)?;
        fs::remove_file(&path)?;
        file.write_all(section)?;
        file.sync_all()?;
        Ok(Stored { file, length: section.len() })
    }

    /// Maps it with no page of it in memory, as far as the system lets go of them. There is one mapping at a time: what
    /// is mapped cannot be dropped.
    ///
    /// # Panics
    /// Where the system does not map it.
    pub fn map(&mut self) -> Mapped<'_> {
        // SAFETY: a new mapping of a file that nothing writes to while it is there; the two advices change no byte.
        unsafe {
            posix_fadvise(self.file.as_raw_fd(), 0, 0, POSIX_FADV_DONTNEED);
            let at = mmap(ptr::null_mut(), self.length, PROT_READ, MAP_PRIVATE, self.file.as_raw_fd(), 0);
            assert!(at as isize != -1, "the file cannot be mapped");
            madvise(at, self.length, MADV_RANDOM);
            Mapped { at, length: self.length, of: PhantomData }
        }
    }
}

/// A mapping of a stored section.
pub struct Mapped<'a> {
    at: *mut c_void,
    length: usize,
    of: PhantomData<&'a mut Stored>,
}

impl Mapped<'_> {
    pub fn section(&self) -> &[u8] {
        // SAFETY: the mapping is as long as this, can be read, and stays for as long as this value.
        unsafe { slice::from_raw_parts(self.at.cast(), self.length) }
    }

    /// Whether the page cache has any page of the file.
    pub fn is_cached(&self) -> bool {
        let mut pages = vec![0; self.length.div_ceil(SMALLEST_PAGE)];
        // SAFETY: the mapping is this value's own, and there is a byte for each of its pages.
        let told = unsafe { mincore(self.at, self.length, pages.as_mut_ptr()) };
        told != 0 || pages.iter().any(|page| page & 1 != 0)
    }

    /// How many KiB of the mapping are resident, as /proc/self/smaps tells it.
    ///
    /// # Panics
    /// Where it does not.
    pub fn resident(&self) -> usize {
        let maps = fs::read_to_string("/proc/self/smaps").expect("/proc/self/smaps can be read");
        let head = format!("{:08x}-", self.at as usize);
        let mut lines = maps.lines().skip_while(|line| !line.starts_with(&head));
        let told = lines.find_map(|line| line.strip_prefix("Rss:")).expect("the mapping is in /proc/self/smaps");
        told.trim().trim_end_matches(" kB").parse().expect("a number of kB")
    }
}

impl Drop for Mapped<'_> {
    fn drop(&mut self) {
        // SAFETY: the mapping is this value's own, and nothing borrows from it any more.
        unsafe { munmap(self.at, self.length) };
    }
}
