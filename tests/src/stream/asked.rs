//! Small sections to be asked one address at a time: most of them sorted, sound and damaged in what an answer needs or
//! beside it; and a twin of each, which differs from it in bytes that the request does not name.
#![forbid(unsafe_code)]

use super::lookups::question;
use super::turns::random_of;
use super::{sound_of, Random};
use crate::maker::{Machine, Section, SORTED};
use crate::reader::{function_at, named_bytes, Header, Order};

/// How many sections are asked at a turn.
pub const ASKED_OF_A_TURN: u64 = 4;

/// So that a turn's sections share nothing with the one that everything else is asked of.
const OTHER_SEED: u64 = 0x61_736b_6564;

/// A section, and what is asked of it.
#[derive(Clone, Debug, PartialEq, Eq)]
pub struct ToAsk {
    pub section: Vec<u8>,
    /// An address and a PC each.
    pub questions: Vec<(u64, u64)>,
    /// As long as the section, and like it in every byte that is named for the first question.
    pub twin: Vec<u8>,
}

/// The sections that are asked at a turn: one as it was made, and others with damage.
pub fn to_ask(seed: u64, number: u64) -> Vec<ToAsk> {
    let random = &mut random_of(seed ^ OTHER_SEED, number);
    let made = if random.once_in(8) { noise(random) } else { sorted(random).bytes() };
    let one = |turn: u64| {
        let mut section = made.clone();
        for _ in 0..if turn == 0 { 0 } else { 1 + random.below(3) } {
            damage(random, &mut section);
        }
        let questions: Vec<(u64, u64)> = (0..3).map(|_| question(random, |r| near_an_entry(r, &section))).collect();
        ToAsk { twin: twin(random, &section, questions[0]), questions, section }
    };
    (0..ASKED_OF_A_TURN).map(one).collect()
}

// Now and then without the flag.
fn sorted(random: &mut Random) -> Section {
    let machine = random.pick(&Machine::ALL);
    let others = 2 * random.below(4) as u8;
    let flags = if random.once_in(16) { others } else { others | SORTED };
    sound_of(random, machine, flags)
}

// A sound header over entries and row bytes by chance, of which the entries are not too far from sound.
fn noise(random: &mut Random) -> Vec<u8> {
    let mut header = Section::new(random.pick(&Machine::ALL));
    let (functions, row_bytes) = (random.below(6) as u32, random.below(60) as u32);
    header.flags = (2 * random.below(4)) as u8 | SORTED;
    (header.claims.functions, header.claims.row_bytes) = (Some(functions), Some(row_bytes));
    header.claims.area_offset = Some(20 * functions);
    let big = header.big;
    let mut section = header.bytes();
    for _ in 0..functions {
        let size = random.number() as u32 >> random.below(32);
        let start = random.number() as i32 >> random.below(24);
        let first_row = random.below(u64::from(row_bytes) + 2) as u32;
        for field in [start as u32, size, first_row, random.below(4) as u32] {
            section.extend(if big { field.to_be_bytes() } else { field.to_le_bytes() });
        }
        let info = random.pick(&[0, 0, 1, 1, 2, 2, 0x10, 0x11, 0x22, 0x03, 0x40]);
        section.extend([info, random.number() as u8, 0, 0]);
    }
    section.extend(random.bytes(row_bytes as usize));
    section
}

// One byte of the header, two entries in each other's place, one field of an entry, or one byte of the rows.
fn damage(random: &mut Random, section: &mut [u8]) {
    let Some(header) = Header::read(section) else { return };
    let table = 28 + usize::from(header.auxiliary);
    let entries = (section.len().saturating_sub(table) / 20).min(header.functions as usize);
    let area = table + 20 * entries;
    match random.below(16) {
        0 => change(random, section, 0, 28),
        1..=2 if entries >= 2 => {
            let (one, other) = (random.index(entries), random.index(entries));
            (0..20).for_each(|byte| section.swap(table + 20 * one + byte, table + 20 * other + byte));
        }
        3..=8 if entries >= 1 => {
            // The highest bytes of a start and a size are left alone: with them few functions would cover anything.
            let field = match header.order {
                Order::Little => random.pick(&[0, 1, 4, 5, 8, 12, 16, 16, 17]),
                Order::Big => random.pick(&[3, 2, 7, 6, 11, 15, 16, 16, 17]),
            };
            let entry = table + 20 * random.index(entries);
            change(random, section, entry + field, 1);
        }
        _ if area < section.len() => change(random, section, area, section.len() - area),
        _ => (),
    }
}

// One of so many bytes from a place on.
fn change(random: &mut Random, section: &mut [u8], from: usize, count: usize) {
    let at = from + random.index(count);
    section[at] = match random.below(3) {
        0 => section[at] ^ 1 << random.below(8),
        1 => section[at].wrapping_add(random.pick(&[1, 255])),
        _ => random.number() as u8,
    };
}

// A place that a function covers as its entry stands, or beside it; anywhere where there is none.
fn near_an_entry(random: &mut Random, section: &[u8]) -> i64 {
    let count = Header::read(section).map_or(0, |header| header.functions);
    let told = function_at(section, random.below(u64::from(count).max(1)));
    let within = match random.below(8) {
        0 => 0,
        1 => told.size,
        2 => told.size.saturating_sub(1),
        3 => random.below(told.size + 1),
        _ => random.below(told.size.min(64) + 1),
    };
    told.start + within as i64 - i64::from(random.once_in(16))
}

fn twin(random: &mut Random, section: &[u8], (address, pc): (u64, u64)) -> Vec<u8> {
    let mut is_named = vec![false; section.len()];
    named_bytes(section, address, pc).into_iter().for_each(|bytes| is_named[bytes].fill(true));
    let all_of_them = random.once_in(2);
    let other = |(&byte, &is_named): (&u8, &bool)| {
        let kept = is_named || !(all_of_them || random.once_in(8));
        if kept {
            byte
        } else {
            random.number() as u8
        }
    };
    section.iter().zip(&is_named).map(other).collect()
}

#[cfg(test)]
mod tests {
    use super::*;
    use crate::obvious;
    use crate::reader::{ask, check, lookup, Outcome, Verdict};
    use std::collections::BTreeMap;

    const TURNS: u64 = 20_000;

    fn all() -> impl Iterator<Item = ToAsk> {
        (0..TURNS).flat_map(|number| to_ask(8, number))
    }

    #[test]
    fn what_is_asked_is_by_the_definition_and_every_answer_comes_often() {
        let (mut counts, mut of_accepted) = (BTreeMap::<u64, u32>::new(), BTreeMap::<u64, u32>::new());
        for ToAsk { section, questions, .. } in all() {
            let verdict = check(&section);
            for (address, pc) in questions {
                let asked = ask(&section, address, pc);
                assert_eq!(asked, obvious::ask(&section, address, pc), "{section:x?}, {address:x}, PC {pc:x}");
                *counts.entry(asked.refusal()).or_default() += 1;
                if verdict == Verdict::Accepted {
                    *of_accepted.entry(asked.refusal()).or_default() += 1;
                }
            }
        }
        println!("how often each number is answered (0: found): {counts:?}, in accepted sections: {of_accepted:?}");
        let numbers: Vec<u64> = counts.keys().copied().collect();
        assert_eq!(numbers, [0, 3, 4, 5, 6, 7, 8, 21, 23, 44, 45]);
        assert!(counts.values().all(|&count| count >= 50), "{counts:?}");
        for number in [0, 21, 23] {
            let (all, accepted) = (counts[&number], of_accepted[&number]);
            assert!(accepted >= 1_000 && all - accepted >= 1_000, "{number}: {accepted} of {all}");
        }
        assert!(counts[&44] >= 10_000, "{counts:?}");
    }

    // How often more than the function landed on, or another one, covers the PC: where a scan would answer otherwise.
    #[test]
    fn some_land_elsewhere_than_a_scan() {
        let mut elsewhere = 0;
        for ToAsk { mut section, questions, .. } in all() {
            section[3] &= !SORTED;
            for (address, pc) in questions {
                let mut as_sorted = section.clone();
                as_sorted[3] |= SORTED;
                let scanned = lookup(&section, address, pc).outcome;
                let refused = matches!(scanned, Outcome::SectionRefused { .. });
                let number = ask(&as_sorted, address, pc).refusal();
                elsewhere += u32::from(!refused && number != lookup(&section, address, pc).refusal());
            }
        }
        assert!(elsewhere >= 1_000, "{elsewhere} times");
    }

    #[test]
    fn twins_are_asked_alike_and_often_looked_up_otherwise() {
        let (mut differ, mut told_apart) = (0, 0);
        for ToAsk { section, questions, twin } in all() {
            let (address, pc) = questions[0];
            assert_eq!(section.len(), twin.len());
            assert_eq!(ask(&section, address, pc), ask(&twin, address, pc), "{section:x?}, PC {pc:x}, {twin:x?}");
            differ += u32::from(section != twin);
            told_apart += u32::from(lookup(&section, address, pc) != lookup(&twin, address, pc));
        }
        assert!(differ > 50_000 && told_apart > 10_000, "{differ} twins differ, {told_apart} are told apart");
    }

    #[test]
    fn a_turns_sections_are_found_again_by_its_number() {
        assert_eq!(to_ask(3, 7), to_ask(3, 7));
        assert_ne!(to_ask(3, 7), to_ask(3, 8));
        assert_ne!(to_ask(3, 7), to_ask(4, 7));
        assert_eq!(to_ask(3, 7).len() as u64, ASKED_OF_A_TURN);
    }
}
