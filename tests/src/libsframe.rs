//! The system's libsframe, where one is present that reads version 2: the reader of the GNU tools, to be timed beside
//! the library.
//!
//! It is loaded while the program runs, so that nothing is needed to build this.
#![allow(unsafe_code)]

use crate::cases::S;
use std::ffi::{c_char, c_int, c_void, CStr, CString};
use std::marker::PhantomData;
use std::{env, mem};

const RTLD_NOW: c_int = 2;

extern "C" {
    fn dlopen(file: *const c_char, flags: c_int) -> *mut c_void;
    fn dlsym(library: *mut c_void, name: *const c_char) -> *mut c_void;
}

/// `sframe_decoder_ctx`, of which only libsframe knows what it is.
type Context = *mut c_void;

/// `sframe_frame_row_entry`, with room to spare behind its three fields.
#[repr(C)]
struct RowEntry {
    start: u32,
    rest: [u8; 60],
}

type Decode = unsafe extern "C" fn(*const c_char, usize, *mut c_int) -> Context;
type Free = unsafe extern "C" fn(*mut Context);
type Version = unsafe extern "C" fn(Context) -> u8;
type Find = unsafe extern "C" fn(Context, i32, *mut RowEntry) -> c_int;
type CfaOffset = unsafe extern "C" fn(Context, *mut RowEntry, *mut c_int) -> i32;

/// The functions that are used of it.
pub struct Libsframe {
    decode: Decode,
    free: Free,
    version: Version,
    find: Find,
    cfa_offset: CfaOffset,
}

/// A decoded section.
pub struct Decoded<'a> {
    libsframe: &'a Libsframe,
    context: Context,
    section: PhantomData<&'a [u8]>,
}

impl Libsframe {
    /// The one that the variable LIBSFRAME names, or the system's; or why there is none.
    pub fn open() -> Result<Libsframe, String> {
        let file = env::var("LIBSFRAME").unwrap_or_else(|_| "libsframe.so.1".to_string());
        let name = CString::new(file.clone()).map_err(|_| "LIBSFRAME has a byte 0".to_string())?;
        // SAFETY: the name is a string of C, and what is loaded is what the user or the system calls libsframe.
        let library = unsafe { dlopen(name.as_ptr(), RTLD_NOW) };
        if library.is_null() {
            return Err(format!("{file} is not there; the variable LIBSFRAME may name another"));
        }
        let libsframe = Libsframe::in_library(library)
            .ok_or(format!("{file} has not the functions of a libsframe that reads version 2"))?;
        let version = libsframe.decode(&S).map(|decoded| decoded.version());
        if version != Some(2) {
            return Err(format!("{file} does not read version 2"));
        }
        Ok(libsframe)
    }

    fn in_library(library: *mut c_void) -> Option<Libsframe> {
        // SAFETY: each name is a string of C; the forms are those of sframe-api.h, the same since version 2 came.
        unsafe {
            let named = |name: &CStr| {
                let found = dlsym(library, name.as_ptr());
                (!found.is_null()).then_some(found)
            };
            Some(Libsframe {
                decode: mem::transmute::<*mut c_void, Decode>(named(c"sframe_decode")?),
                free: mem::transmute::<*mut c_void, Free>(named(c"sframe_decoder_free")?),
                version: mem::transmute::<*mut c_void, Version>(named(c"sframe_decoder_get_version")?),
                find: mem::transmute::<*mut c_void, Find>(named(c"sframe_find_fre")?),
                cfa_offset: mem::transmute::<*mut c_void, CfaOffset>(named(c"sframe_fre_get_cfa_offset")?),
            })
        }
    }

    /// None where it refuses the section.
    pub fn decode<'a>(&'a self, section: &'a [u8]) -> Option<Decoded<'a>> {
        let mut error = 0;
        // SAFETY: the pointer and the length are those of a slice, which is lent for as long as what is decoded stays.
        let context = unsafe { (self.decode)(section.as_ptr().cast(), section.len(), &mut error) };
        (!context.is_null()).then_some(Decoded { libsframe: self, context, section: PhantomData })
    }
}

impl Decoded<'_> {
    fn version(&self) -> u8 {
        // SAFETY: the context is one that this libsframe gave, and it was not freed.
        unsafe { (self.libsframe.version)(self.context) }
    }

    /// The start and the CFA offset of the row for a place, PC minus the section's address; none where it finds none.
    #[inline]
    pub fn find(&self, place: i32) -> Option<(u32, i32)> {
        let (mut row, mut error) = (RowEntry { start: 0, rest: [0; 60] }, 0);
        // SAFETY: as before; the row entry has room for the fields that libsframe writes.
        unsafe {
            let found = (self.libsframe.find)(self.context, place, &mut row) == 0;
            found.then(|| (row.start, (self.libsframe.cfa_offset)(self.context, &mut row, &mut error)))
        }
    }
}

impl Drop for Decoded<'_> {
    fn drop(&mut self) {
        // SAFETY: the context is one that this libsframe gave, and this is the last that is done with it.
        unsafe { (self.libsframe.free)(&mut self.context) };
    }
}
