//! How deep a run goes into its stack: it runs on memory of its own, painted before, and what is no longer painted was
//! written to. The stack's end is followed by a forbidden page. For x86-64 and AArch64, as the archives are.
#![allow(unsafe_code)]

use crate::guarded::{Guarded, Side};

const WORDS: usize = 8_192;

/// No word that a call writes.
const PAINT: u64 = 0x5ca1_ab1e_0dd5_ba11;

pub struct Painted {
    room: Guarded,
    paint: Vec<u64>,
}

impl Default for Painted {
    fn default() -> Painted {
        Painted { room: Guarded::with_room(8 * WORDS), paint: vec![PAINT; WORDS] }
    }
}

impl Painted {
    /// The bytes between the top of the stack and the lowest word that a run writes.
    pub fn depth_of(&mut self, mut run: impl FnMut()) -> usize {
        let stack = self.room.words_at(Side::Front, &self.paint);
        run_on(stack, &mut run);
        let untouched = stack.iter().take_while(|word| **word == PAINT).count();
        8 * (WORDS - untouched)
    }
}

extern "C" fn enter(run: &mut &mut dyn FnMut()) {
    run();
}

fn run_on(stack: &mut [u64], mut run: &mut dyn FnMut()) {
    let top = stack.as_mut_ptr_range().end;
    assert!((top as usize).is_multiple_of(16), "a stack begins at a multiple of 16");
    // SAFETY: the stack is writable memory lent for the call.
    unsafe { enter_on(top, &mut run) };
}

// The stack pointer is changed for one call alone, which nothing unwinds through: a panic in it ends the program. The
// call keeps r12, or x20, which has the old stack pointer.
#[cfg(target_arch = "x86_64")]
unsafe fn enter_on(top: *mut u64, run: &mut &mut dyn FnMut()) {
    std::arch::asm!(
        "mov r12, rsp",
        "mov rsp, {top}",
        "call {enter}",
        "mov rsp, r12",
        top = in(reg) top,
        enter = sym enter,
        in("rdi") run,
        out("r12") _,
        clobber_abi("C"),
    );
}

#[cfg(target_arch = "aarch64")]
unsafe fn enter_on(top: *mut u64, run: &mut &mut dyn FnMut()) {
    std::arch::asm!(
        "mov x20, sp",
        "mov sp, {top}",
        "bl {enter}",
        "mov sp, x20",
        top = in(reg) top,
        enter = sym enter,
        in("x0") run,
        out("x20") _,
        clobber_abi("C"),
    );
}

#[cfg(test)]
mod tests {
    use super::*;
    use std::hint::black_box;

    #[test]
    fn what_a_run_writes_is_seen() {
        let mut painted = Painted::default();
        let empty = painted.depth_of(|| ());
        let large = painted.depth_of(|| {
            black_box([1_u8; 4_000]);
        });
        assert!(empty < 512, "{empty} bytes of nothing");
        assert!((4_000..5_000).contains(&(large - empty)), "{} bytes of 4,000", large - empty);
        assert_eq!(painted.depth_of(|| ()), empty, "painted anew");
    }

    #[test]
    fn a_run_changes_what_it_borrows() {
        let mut sum = 0;
        Painted::default().depth_of(|| sum = black_box(40) + 2);
        assert_eq!(sum, 42);
    }
}
