//! Walks by the mask of signature bits. On AArch64 they are cleared from the RA of a row with the signed bit, whether
//! it came from LR or from the stack, and from nothing else; where the mask is 0 such a row is refused with 24. On
//! AMD64 neither the bit nor the mask changes anything.

use super::walks::{at, from_fp, from_sp, half, in_lr, later, shared_out, signed, start_of, Expected, Ground, Stack};
use super::Case;
use crate::maker::{Function, Machine, Section, SORTED};
use crate::reader::{Ending, Process, Registers, Step};
use crate::walk::Walk;

pub fn all() -> Vec<Case> {
    let of_machine = |machine| [with_masks(machine), chains(machine), behind_24(machine)];
    let near_zero = [Machine::Aarch64, Machine::Aarch64Big].map(near_zero);
    Machine::ALL.into_iter().flat_map(of_machine).chain(near_zero).collect()
}

/// The section lies low, so that a mask for addresses of 39 bits leaves its PCs whole.
const LOADED: u64 = 0x55_5555_6000;

/// A signature has these bits where the mask has them.
const MADE_UP: u64 = 0xd5b6_9a5c_3c5a_69b7;

/// Where signatures stand above user addresses of 48 bits and of 39: below a top byte that is ignored, in that byte
/// too, and in the bit between them as well, which tells user addresses from the kernel's.
pub const USUAL: [u64; 5] =
    [0x007f_0000_0000_0000, 0x007f_ff80_0000_0000, 0xff7f_0000_0000_0000, 0xffff_0000_0000_0000, 0xffff_ff80_0000_0000];

/// No bit and all of them, single ones, and masks that take bits of the addresses too.
const UNUSUAL: [u64; 8] = [0, u64::MAX, 1, 1 << 1, 1 << 55, 1 << 63, 0x00ff_0000_0000, 0xffff_ffff_ffff_f000];

/// The functions by number, each named for its row.
const LEAF: i64 = 0;
const LEAF_UP: i64 = 1;
const SAVED: i64 = 2;
const FRAMED: i64 = 3;
const BY_FP: i64 = 4;
const DOWN: i64 = 5;
const PLAIN_LEAF: i64 = 6;
const PLAIN: i64 = 7;

// A leaf of AMD64 has its RA on the stack.
fn ground(machine: Machine) -> Ground {
    let leaf = |cfa| if machine == Machine::Amd64 { from_sp(machine, cfa + 8, None) } else { in_lr(cfa) };
    let sp = |cfa, fp| from_sp(machine, cfa, fp);
    let with_signed_bit =
        [leaf(0), leaf(16), sp(16, None), sp(16, Some(-16)), from_fp(machine, 16, Some(-16)), sp(-16, None)];
    let rows = with_signed_bit.map(signed).into_iter().chain([leaf(0), sp(16, Some(-16))]);
    Ground::of_rows(machine, rows.collect())
}

fn pc(function: i64) -> u64 {
    LOADED + start_of(function) as u64 + 0x2c
}

// A return address in the middle of a function.
fn behind(function: i64) -> u64 {
    pc(function) + 1
}

// At a function, where a leaf's caller has its frame from 0x7000 on.
fn from(machine: Machine, function: i64, lr: u64) -> Registers {
    let on_stack = machine == Machine::Amd64 && [LEAF, PLAIN_LEAF].contains(&function);
    Registers { lr, ..at(pc(function), if on_stack { 0x6ff8 } else { 0x7000 }, 0x9999) }
}

fn masked(ground: &Ground, mask: u64, registers: Registers, stack: Stack, limit: u64) -> Expected {
    let process = Process { section: LOADED, stack: stack.0, mask };
    ground.defined(Walk { process, registers, stack: stack.1, limit, words: 3 * limit as usize })
}

// Each walk of AArch64 in one of its byte orders, and as many of AMD64.
fn with_masks(machine: Machine) -> Case {
    let ground = ground(machine);
    let walks = UNUSUAL.into_iter().chain(USUAL).flat_map(|mask| with_mask(&ground, mask)).collect();
    ground.case("signed_masks", half(walks, u32::from(machine == Machine::Aarch64Big)))
}

// An RA signed by the mask's own bits, in LR and on the stack, of a signed row and another, and an FP that has them
// too; the outermost RA is a signature and nothing else. Then all ones, so that what is left is what the mask has not.
fn with_mask(ground: &Ground, mask: u64) -> Vec<Expected> {
    let machine = ground.machine;
    let signature = MADE_UP & mask;
    let lr = behind(FRAMED) | signature;
    let frames = [lr, 0x7050 | signature, behind(SAVED) | signature, 0, signature];
    let (stack, ones) = (ground.words(0x6ff8, &frames), ground.words(0x6ff8, &[u64::MAX; 3]));
    let walk = |registers, stack: &Stack| masked(ground, mask, registers, stack.clone(), 4);
    vec![
        walk(from(machine, LEAF, lr), &stack),
        walk(later(from(machine, FRAMED, lr)), &stack),
        walk(from(machine, PLAIN, lr), &stack),
        walk(from(machine, LEAF, u64::MAX), &ones),
        walk(from(machine, FRAMED, u64::MAX), &ones),
        walk(from(machine, PLAIN_LEAF, u64::MAX), &ones),
    ]
}

/// What is odd about a chain: one bit of every signature that the mask has not; the signature where none belongs, in
/// the RA or the FP of the frame of that number; or a whole stack at addresses with the signature's bits.
#[derive(Clone, Copy)]
enum Odd {
    Nothing,
    BesideTheMask,
    SignedRa(usize),
    SignedFp(usize),
    HighStack,
}

/// Functions of all kinds, one calling the other from the last to the first.
const LONG: [i64; 8] = [LEAF, FRAMED, BY_FP, PLAIN, SAVED, FRAMED, PLAIN, BY_FP];

// Frames as a program leaves them: RA signed where the row says so, 0 in the outermost, and FP the beginning of the
// frame behind. Each but a leaf's has 16 bytes.
fn chain(ground: &Ground, functions: &[i64], mask: u64, signature: u64, odd: Odd) -> Expected {
    let bits_if = |is_so, bits: u64| if is_so { bits } else { 0 };
    let beside = bits_if(matches!(odd, Odd::BesideTheMask), 1 << 63);
    let high = bits_if(matches!(odd, Odd::HighStack), signature);
    let ra = |frame: usize| {
        let next = functions.get(frame + 1).map_or(0, |function| behind(*function));
        let is_signed = functions[frame] < PLAIN_LEAF || matches!(odd, Odd::SignedRa(odd) if odd == frame);
        next | bits_if(is_signed, signature | beside)
    };
    let fp = |frame: usize| {
        let is_signed = matches!(odd, Odd::SignedFp(odd) if odd == frame);
        (0x7000 + 16 * frame as u64) | high | bits_if(is_signed, signature)
    };
    let frames = (1..functions.len()).flat_map(|frame| [fp(frame), ra(frame)]);
    let words: Vec<u64> = [ra(0)].into_iter().chain(frames).collect();
    let low = from(ground.machine, functions[0], ra(0));
    masked(ground, mask, Registers { sp: low.sp | high, ..low }, ground.words(0x6ff8 | high, &words), 8)
}

fn chains(machine: Machine) -> Case {
    let ground = ground(machine);
    ground.case("signed_chains", shared_out(machine, walks_of_chains(&ground)))
}

fn walks_of_chains(ground: &Ground) -> Vec<Expected> {
    let (mask, signature) = (USUAL[0], MADE_UP & USUAL[0]);
    let long = |mask, signature, odd| chain(ground, &LONG, mask, signature, odd);
    let short = [PLAIN_LEAF, PLAIN, SAVED];
    let (to_the_end, _) = long(mask, signature, Odd::Nothing);
    let mut walks: Vec<Expected> = USUAL.map(|mask| long(mask, MADE_UP & mask, Odd::Nothing)).into();
    walks.extend([
        long(mask, 0, Odd::Nothing),
        long(0, 0, Odd::Nothing),
        long(mask, signature, Odd::SignedRa(3)),
        long(mask, signature, Odd::SignedFp(1)),
        long(mask, signature, Odd::BesideTheMask),
        long(mask, signature, Odd::HighStack),
        // One bit of the addresses too, so that SAVED is taken for the caller and not FRAMED.
        long(mask | 0x100, signature, Odd::Nothing),
        chain(ground, &short, mask, signature, Odd::Nothing),
        chain(ground, &short, 0, 0, Odd::Nothing),
        ground.defined(Walk { limit: 7, words: 21, ..to_the_end }),
    ]);
    walks
}

/// A function, SP and FP, how many bytes from 0x7000 on are lent, the mark, and what a step comes to on AArch64 where
/// there is a mask; 0 is a caller.
type Behind24 = (i64, u64, u64, usize, u64, u64);

const BEHIND_24: [Behind24; 14] = [
    (SAVED, u64::MAX - 15, 0, 32, 1, 25),
    (FRAMED, u64::MAX, 0, 0, 0, 25),
    (BY_FP, 0x7000, u64::MAX - 7, 32, 1, 25),
    (DOWN, 0x7010, 0, 32, 1, 26),
    (DOWN, 0x7020, 0, 0, 0, 26),
    (LEAF, 0x7000, 0, 32, 0, 26),
    (LEAF_UP, 0x7000, 0, 32, 0, 27),
    (LEAF_UP, 0x7000, 0, 0, 0, 27),
    (SAVED, 0x7000, 0, 15, 1, 28),
    (FRAMED, 0x6ff8, 0, 32, 0, 28),
    (BY_FP, 0x7000, 0x7ff0, 32, 0, 28),
    (LEAF_UP, 0x7000, 0, 0, 1, 0),
    (SAVED, 0x7000, 0, 32, 1, 0),
    (FRAMED, 0x7000, 0, 32, 0, 0),
];

// Where a mask is known, what 24 would have come before is tried.
fn behind_24(machine: Machine) -> Case {
    let ground = ground(machine);
    ground.case("signed_behind_24", half(walks_behind_24(&ground), u32::from(machine == Machine::Aarch64Big)))
}

// Without a mask and with one, one behind the other.
fn walks_behind_24(ground: &Ground) -> Vec<Expected> {
    let walk = |(function, sp, fp, bytes, first, _): Behind24| {
        let (address, mut stack) = ground.words(0x7000, &[0, 0x2a << 48, 0, 0x2a << 48]);
        stack.truncate(bytes);
        let registers = Registers { pc: behind(function), sp, fp, lr: 0x2a << 48, first };
        [0, USUAL[0]].map(|mask| masked(ground, mask, registers, (address, stack.clone()), 4))
    };
    BEHIND_24.into_iter().flat_map(walk).collect()
}

/// The mask of the walks near 0, and a signature under it.
const ABOVE_48: u64 = 0xffff_0000_0000_0000;
const SIGNED: u64 = 0x8001_0000_0000_0000;

/// A walk from a leaf with LR, and the RAs of the two frames behind it; its limit, the RAs as they are written, and the
/// ending. The function that lies at 0 has 32 bytes.
type NearZero = (u64, [u64; 2], u64, &'static [u64], Ending);

const NEAR_ZERO: [NearZero; 9] = [
    // RA is 0 where only a signature is left, also in the last frame that the limit allows.
    (SIGNED, [0, 0], 4, &[0], Ending::Outermost),
    (SIGNED, [0, 0], 1, &[0], Ending::Outermost),
    (0, [0, 0], 1, &[0], Ending::Outermost),
    // RA is 1, and 0 is looked up.
    (SIGNED + 1, [SIGNED, 0], 2, &[1, 0], Ending::Outermost),
    (SIGNED + 1, [SIGNED, 0], 1, &[1], Ending::Full),
    (1, [0, 0], 2, &[1, 0], Ending::Outermost),
    (SIGNED + 1, [SIGNED + 2, ABOVE_48], 3, &[1, 2, 0], Ending::Outermost),
    // The function's last byte is looked up, and the one behind it.
    (SIGNED + 0x20, [SIGNED + 0x21, 0], 3, &[0x20, 0x21], Ending::Refused(21)),
    (SIGNED + 0x20, [0x20, SIGNED], 3, &[0x20, 0x20, 0], Ending::Outermost),
];

// Stated whole.
fn near_zero(machine: Machine) -> Case {
    let mut section = Section::new(machine);
    section.flags = SORTED;
    section.functions = vec![
        Function::new(-0x1000, 0x20, 0, vec![signed(from_sp(machine, 16, None))]),
        Function::new(0x1000, 0x20, 0, vec![signed(in_lr(0))]),
    ];
    let ground = Ground::of(machine, section);
    let from_leaf = NEAR_ZERO.iter().map(|near| from_leaf(&ground, near));
    let walks = from_leaf.chain([0, 1, SIGNED, SIGNED + 1].map(|pc| without_mark(&ground, pc))).collect();
    ground.case("signed_near_0", walks)
}

fn lent_near_zero(ground: &Ground, registers: Registers, ras: [u64; 2], limit: u64) -> Walk {
    let (address, stack) = ground.words(0x7000, &[7, ras[0], 7, ras[1]]);
    let process = Process { section: 0x1000, stack: address, mask: ABOVE_48 };
    Walk { process, registers, stack, limit, words: 12 }
}

fn from_leaf(ground: &Ground, &(lr, ras, limit, written, ending): &NearZero) -> Expected {
    let registers = Registers { pc: 0x2004, sp: 0x7000, fp: SIGNED, lr, first: 1 };
    let walk = lent_near_zero(ground, registers, ras, limit);
    let frames: Vec<[u64; 3]> = (0x7000..).step_by(16).zip(written).map(|(cfa, ra)| [cfa, *ra, SIGNED]).collect();
    let walked = walk.stated(Step::Caller(Registers { pc: written[0], first: 0, ..registers }), &frames, ending);
    (walk, walked)
}

// Without the mark PC 1 looks 0 up and PC 0 nothing, and a PC that is handed in is not cleared. The trace has the mark.
fn without_mark(ground: &Ground, pc: u64) -> Expected {
    let old = later(Registers { lr: SIGNED, ..at(pc, 0x7000, 0x7000) });
    let walk = lent_near_zero(ground, old, [SIGNED + 1, SIGNED], 4);
    let step = match pc {
        1 => Step::Caller(Registers { pc: 1, sp: 0x7010, ..old }),
        _ => Step::Refused { old, number: 21 },
    };
    let walked = match pc {
        0 | 1 => walk.stated(step, &[[0x7010, 1, 0x7000], [0x7020, 0, 0x7000]], Ending::Outermost),
        _ => walk.stated(step, &[], Ending::Refused(21)),
    };
    (walk, walked)
}

#[cfg(test)]
mod tests {
    use super::*;

    const ON_AARCH64: [Machine; 2] = [Machine::Aarch64, Machine::Aarch64Big];

    fn endings(walks: &[Expected]) -> Vec<(u64, u64)> {
        walks.iter().map(|(_, walked)| (walked.traced.frames, walked.traced.ending.number())).collect()
    }

    // Frames and endings by hand, in the order of the walks.
    #[test]
    fn chains_end_where_they_are_meant_to() {
        let usual = [(8, 30); 5];
        let others = [(8, 30), (0, 24), (4, 21), (2, 28), (1, 21), (8, 30), (2, 28), (3, 30), (2, 24), (7, 31)];
        for machine in ON_AARCH64 {
            assert_eq!(endings(&walks_of_chains(&ground(machine))), [&usual[..], &others].concat(), "{machine:?}");
        }
        let usual = [(1, 21); 5];
        let others = [(8, 30), (8, 30), (1, 21), (1, 21), (1, 21), (1, 21), (1, 21), (3, 21), (3, 30), (1, 21)];
        assert_eq!(endings(&walks_of_chains(&ground(Machine::Amd64))), [&usual[..], &others].concat());
    }

    // Every RA of a chain is written as it was before it was signed.
    #[test]
    fn signatures_do_not_show() {
        let unsigned: Vec<u64> = LONG[1..].iter().map(|function| behind(*function)).chain([0]).collect();
        for machine in ON_AARCH64 {
            for (walk, walked) in &walks_of_chains(&ground(machine))[..USUAL.len()] {
                let written: Vec<u64> = walked.frames().iter().map(|[_, ra, _]| *ra).collect();
                assert_eq!(written, unsigned, "{walk:x?}");
                assert_ne!(walk.registers.lr, written[0], "{walk:x?}");
            }
        }
    }

    #[test]
    fn all_ones_leave_what_the_mask_has_not() {
        for mask in UNUSUAL.into_iter().chain(USUAL).filter(|&mask| mask != 0) {
            for machine in ON_AARCH64 {
                let walks = with_mask(&ground(machine), mask);
                let [in_lr, saved, unsigned] = [3, 4, 5].map(|place: usize| walks[place].1.step);
                let caller = |pc, sp, fp| Step::Caller(Registers { pc, sp, fp, lr: u64::MAX, first: 0 });
                assert_eq!(in_lr, caller(!mask, 0x7000, 0x9999), "{mask:x}");
                assert_eq!(saved, caller(!mask, 0x7010, u64::MAX), "{mask:x}");
                assert_eq!(unsigned, caller(u64::MAX, 0x7000, 0x9999), "{mask:x}");
            }
        }
    }

    #[test]
    fn without_a_mask_24_comes_before_the_rest() {
        let number = |(_, walked): &Expected| walked.step.number();
        let numbers = |machine| -> Vec<u64> { walks_behind_24(&ground(machine)).iter().map(number).collect() };
        let stated: Vec<u64> = BEHIND_24.iter().flat_map(|(.., number)| [24, *number]).collect();
        assert_eq!(ON_AARCH64.map(numbers), [stated.clone(), stated]);
        let on_amd64 = numbers(Machine::Amd64);
        let is_alike = |pair: &[u64]| pair[0] == pair[1] && ![24, 27].contains(&pair[0]);
        assert!(on_amd64.chunks(2).all(is_alike), "{on_amd64:?}");
    }
}
