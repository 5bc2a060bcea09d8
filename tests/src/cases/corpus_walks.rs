//! Walks through sections written by public assemblers, on stacks laid out by hand from their dumps
//! (vectors/corpus/sections/*.txt); each section lies where its dump shows its functions.

use super::walks::Expected;
use super::{corpus_section, Case, ACCEPTED};
use crate::reader::{Ending, Process, Registers, Step};
use crate::walk::Walk;

/// A stack by hand: where it begins and ends, and its words that are not 0, each with its address.
struct Laid {
    section: u64,
    mask: u64,
    registers: Registers,
    begin: u64,
    end: u64,
    words: &'static [(u64, u64)],
    frames: &'static [[u64; 3]],
    ending: Ending,
    /// What the step comes to where it is not the trace's first: the registers have no mark.
    later: Option<Result<[u64; 3], u64>>,
}

/// Walks with a mask, in the two sections that have signed rows: each stands here once more, for these walks alone.
pub fn signed() -> Vec<Case> {
    let of = |name: &str, big| {
        let laid = [THROUGH_SIGNED, BY_KEY_B, BEFORE_SIGNING, SIGNED_IN_LR, SIGNED_IN_LR_BEHIND];
        let walks = laid.iter().map(|laid| walk(laid, big)).collect();
        Case::new(format!("ok_walk_signed_{name}"), corpus_section(name), ACCEPTED).walked(walks)
    };
    vec![of("aarch64_hand_exe", false), of("aarch64be_hand_exe", true)]
}

/// The walks in a section of the corpus, by its name.
pub fn of(name: &str) -> Vec<Expected> {
    match name {
        "amd64_hand_exe" => {
            [FROM_FP, AT_RET, FROM_FP_BEHIND, BEHIND_RET].iter().map(|laid| walk(laid, false)).collect()
        }
        "aarch64_hand_exe" => vec![walk(&FROM_LEAF, false)],
        "aarch64be_hand_exe" => vec![walk(&FROM_LEAF, true)],
        "amd64_plt_so" => vec![walk(&FROM_PLT, false)],
        "llvm_amd64_hand_exe" => vec![walk(&BY_LLVM, false)],
        _ => Vec::new(),
    }
}

// The first frame is the step's caller too, where there is one and the registers have the mark.
fn walk(laid: &Laid, big: bool) -> Expected {
    let mut stack = vec![0; (laid.end - laid.begin) as usize];
    for (address, word) in laid.words {
        let place = (address - laid.begin) as usize;
        stack[place..place + 8].copy_from_slice(&if big { word.to_be_bytes() } else { word.to_le_bytes() });
    }
    let old = laid.registers;
    let first = laid.frames.first().copied().ok_or(laid.ending.number());
    let step = match laid.later.unwrap_or(first) {
        Ok([sp, pc, fp]) => Step::Caller(Registers { pc, sp, fp, lr: old.lr, first: 0 }),
        Err(number) => Step::Refused { old, number },
    };
    let process = Process { section: laid.section, stack: laid.begin, mask: laid.mask };
    let walk = Walk { process, registers: old, stack, limit: 64, words: 192 };
    let walked = walk.stated(step, laid.frames, laid.ending);
    (walk, walked)
}

// fp+16 with FP at c-16. It returns to where a row begins, so that the one before it counts, sp+8.
const FROM_FP: Laid = Laid {
    section: 0x41_30f8,
    mask: 0,
    registers: Registers { pc: 0x40_1012, sp: 0x7000, fp: 0x7010, lr: 0, first: 1 },
    begin: 0x7000,
    end: 0x70d0,
    words: &[
        (0x7010, 0x7777),
        (0x7018, 0x40_1019),
        (0x7098, 0x40_1036),
        (0x70a0, 0x8888),
        (0x70a8, 0x40_1500),
        (0x70b8, 0x40_1006),
    ],
    frames: &[[0x7020, 0x40_1019, 0x7777], [0x7028, 0, 0x7777]],
    ending: Ending::Outermost,
    later: None,
};

// Each return address one behind. fp+16 with FP at c-16; sp+128; sp+16 with FP at c-16; sp+16 in a function of 70,003
// bytes; sp+16.
const FROM_FP_BEHIND: Laid = Laid {
    words: &[
        (0x7010, 0x7777),
        (0x7018, 0x40_101a),
        (0x7098, 0x40_1037),
        (0x70a0, 0x8888),
        (0x70a8, 0x40_1501),
        (0x70b8, 0x40_1007),
    ],
    frames: &[
        [0x7020, 0x40_101a, 0x7777],
        [0x70a0, 0x40_1037, 0x7777],
        [0x70b0, 0x40_1501, 0x8888],
        [0x70c0, 0x40_1007, 0x8888],
        [0x70d0, 0, 0x8888],
    ],
    ..FROM_FP
};

// sp+8 with FP at c-16, as it stands at a ret: FP's place is 8 below SP, where this window begins. Without the mark the
// row before it counts, sp+16.
const AT_RET: Laid = Laid {
    registers: Registers { pc: 0x40_1420, sp: 0x7000, fp: 0x7010, lr: 0, first: 0 },
    frames: &[],
    ending: Ending::Refused(28),
    later: Some(Ok([0x7010, 0, 0])),
    ..FROM_FP
};

// One behind the ret, where the next function begins with sp+8; without the mark it is the ret.
const BEHIND_RET: Laid = Laid {
    registers: Registers { pc: 0x40_1421, sp: 0x7000, fp: 0x7010, lr: 0, first: 0 },
    frames: &[[0x7008, 0, 0x7010]],
    ending: Ending::Outermost,
    later: Some(Err(28)),
    ..FROM_FP
};

// sp+0 with RA in LR; fp+32 with RA at c-24 and FP at c-32; sp+16 with RA at c-16 and FP unchanged; sp+16 with RA at
// c-8 and FP at c-16; then a row whose return address is signed.
const FROM_LEAF: Laid = Laid {
    section: 0x40_0720,
    mask: 0,
    registers: Registers { pc: 0x40_00f0, sp: 0x7000, fp: 0x7010, lr: 0x40_0100, first: 1 },
    begin: 0x7000,
    end: 0x7060,
    words: &[(0x7010, 0x7777), (0x7018, 0x40_0110), (0x7030, 0x40_0164), (0x7040, 0x8888), (0x7048, 0x40_0124)],
    frames: &[
        [0x7000, 0x40_0100, 0x7010],
        [0x7030, 0x40_0110, 0x7777],
        [0x7040, 0x40_0164, 0x7777],
        [0x7050, 0x40_0124, 0x8888],
    ],
    ending: Ending::Refused(24),
    later: None,
};

// In blocks of 16 bytes from 0x1010 on: sp+16 from byte 11 of each, before it sp+8. Between two of them sp+240 with FP
// at c-16, and sp+16.
const FROM_PLT: Laid = Laid {
    section: 0x21b8,
    mask: 0,
    registers: Registers { pc: 0x104b, sp: 0x7000, fp: 0x9999, lr: 0, first: 1 },
    begin: 0x7000,
    end: 0x7120,
    words: &[(0x7008, 0x1092), (0x70f0, 0x4444), (0x70f8, 0x1244), (0x7108, 0x104a), (0x7110, 0x10d2)],
    frames: &[
        [0x7010, 0x1092, 0x9999],
        [0x7100, 0x1244, 0x4444],
        [0x7110, 0x104a, 0x4444],
        [0x7118, 0x10d2, 0x4444],
        [0x7120, 0, 0x4444],
    ],
    ending: Ending::Outermost,
    later: None,
};

// Under flag 0x4: fp+16, sp+128, sp+16, sp+8, and fp+16 again, where FP leads out of the window.
const BY_LLVM: Laid = Laid {
    section: 0x20_0120,
    mask: 0,
    registers: Registers { pc: 0x20_1228, sp: 0x7000, fp: 0x7010, lr: 0, first: 1 },
    begin: 0x7000,
    end: 0x70b8,
    words: &[
        (0x7010, 0x7777),
        (0x7018, 0x20_1232),
        (0x7098, 0x20_1250),
        (0x70a0, 0x8888),
        (0x70a8, 0x20_124b),
        (0x70b0, 0x20_1228),
    ],
    frames: &[
        [0x7020, 0x20_1232, 0x7777],
        [0x70a0, 0x20_1250, 0x7777],
        [0x70b0, 0x20_124b, 0x8888],
        [0x70b8, 0x20_1228, 0x8888],
    ],
    ending: Ending::Refused(28),
    later: None,
};

/// Signatures of 7 bits above addresses of 48, below a top byte that is ignored.
const MASK: u64 = 0x007f_0000_0000_0000;

// As from the leaf above, where the fifth frame's row, sp+16 with RA at c-8[s] and FP at c-16, has its RA cleared and
// its FP as it is. It returns into a row that is not signed, and that one into the signed row again, whose RA is all
// signature.
const THROUGH_SIGNED: Laid = Laid {
    mask: MASK,
    end: 0x7080,
    words: &[
        (0x7010, 0x7777),
        (0x7018, 0x40_0110),
        (0x7030, 0x40_0164),
        (0x7040, 0x8888),
        (0x7048, 0x40_0124),
        (0x7050, 0x0013_0000_0000_5555),
        (0x7058, 0x0055_0000_0040_0164),
        (0x7060, 0x6666),
        (0x7068, 0x40_0128),
        (0x7070, 0x007f_0000_0000_0000),
        (0x7078, 0x002a_0000_0000_0000),
    ],
    frames: &[
        [0x7000, 0x40_0100, 0x7010],
        [0x7030, 0x40_0110, 0x7777],
        [0x7040, 0x40_0164, 0x7777],
        [0x7050, 0x40_0124, 0x8888],
        [0x7060, 0x40_0164, 0x0013_0000_0000_5555],
        [0x7070, 0x40_0128, 0x6666],
        [0x7080, 0, 0x007f_0000_0000_0000],
    ],
    ending: Ending::Outermost,
    ..FROM_LEAF
};

// sp+69632 with RA in LR, signed by key B; sp+16 with RA at c-8[s] and FP at c-16; sp+69632 with RA at c-69624[s] and
// FP at c-69632; then a frame that is not in the window.
const BY_KEY_B: Laid = Laid {
    mask: MASK,
    registers: Registers { pc: 0x40_0140, sp: 0xe_f000, fp: 0x9999, lr: 0x0041_0000_0040_0124, first: 1 },
    begin: 0x10_0000,
    end: 0x10_0020,
    words: &[
        (0x10_0000, 0x7777),
        (0x10_0008, 0x0012_0000_0040_0148),
        (0x10_0010, 0x8888),
        (0x10_0018, 0x007f_0000_0040_0164),
    ],
    frames: &[[0x10_0000, 0x40_0124, 0x9999], [0x10_0010, 0x40_0148, 0x7777], [0x11_1010, 0x40_0164, 0x8888]],
    ending: Ending::Refused(28),
    ..FROM_LEAF
};

// sp+0 with RA in LR, before it is signed: LR is left as it is.
const BEFORE_SIGNING: Laid = Laid {
    mask: MASK,
    registers: Registers { pc: 0x40_0118, sp: 0x7000, fp: 0x7010, lr: 0x0041_0000_0040_0100, first: 1 },
    frames: &[[0x7000, 0x0041_0000_0040_0100, 0x7010]],
    ending: Ending::Refused(21),
    ..FROM_LEAF
};

// The row behind it, sp+0 with RA in LR[s]; then as from the leaf, up to the row for which the window has no frame.
const SIGNED_IN_LR: Laid = Laid {
    registers: Registers { pc: 0x40_011c, sp: 0x7000, fp: 0x7010, lr: 0x0041_0000_0040_0100, first: 1 },
    end: 0x7050,
    frames: &[
        [0x7000, 0x40_0100, 0x7010],
        [0x7030, 0x40_0110, 0x7777],
        [0x7040, 0x40_0164, 0x7777],
        [0x7050, 0x40_0124, 0x8888],
    ],
    ending: Ending::Refused(28),
    ..BEFORE_SIGNING
};

// The row behind that, sp+16 with RA at c-8[s]; without the mark the one before it counts, whose CFA is SP.
const SIGNED_IN_LR_BEHIND: Laid = Laid {
    registers: Registers { pc: 0x40_0120, sp: 0x7040, fp: 0x7010, lr: 0x0041_0000_0040_0100, first: 0 },
    words: &[(0x7040, 0x0041_0000_0000_8888), (0x7048, 0x00c1_0000_0040_0124)],
    // The mask has not the highest bit of that byte.
    frames: &[[0x7050, 0x0080_0000_0040_0124, 0x0041_0000_0000_8888]],
    ending: Ending::Refused(21),
    later: Some(Err(26)),
    ..SIGNED_IN_LR
};
