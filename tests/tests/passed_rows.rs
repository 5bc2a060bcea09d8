//! What a lookup does not look at changes nothing: bytes of the row area that the request to pass rows by their length
//! leaves unread are overwritten, and where the section is still accepted the library answers as before.

use suntimpani_tests::cases;
use suntimpani_tests::library::{self, LIBRARY};
use suntimpani_tests::reader::{check, functions, lookup, rows_of, Function, Outcome, Verdict};
use suntimpani_tests::stream::{turn, Random};

const SEED: u64 = 20_260_105;
const TURNS: u64 = 20_000;

/// The bytes of one function's rows, as places in the section.
#[derive(Default)]
struct Bytes {
    looked_at: Vec<usize>,
    /// Those of the row found that are its offsets.
    offsets_found: Vec<usize>,
    /// Not looked at: the offsets of all other rows.
    offsets: Vec<usize>,
    /// Not looked at either: the info byte of the row that the scan stops at, starts and info bytes of those behind it.
    behind: Vec<usize>,
}

// Of each row passed its start and its info byte, of the row found all, of the row that the scan stops at its start.
fn bytes_of(section: &[u8], index: u64, function: &Function, found: usize) -> Bytes {
    let rows = rows_of(section, index);
    let (mut place, width) = (rows.at as usize, 1 << rows.row_type);
    let mut bytes = Bytes::default();
    for number in 0..function.rows.len() {
        let info_at = place + width;
        let info = section[info_at];
        let end = info_at + 1 + (usize::from(info >> 1 & 0xf) << (info >> 5 & 0x3));
        let looked_to = match number {
            n if n < found => info_at + 1,
            n if n == found => end,
            n if n == found + 1 => info_at,
            _ => place,
        };
        bytes.looked_at.extend(place..looked_to);
        bytes.behind.extend(looked_to..info_at + 1);
        let offsets = if number == found { &mut bytes.offsets_found } else { &mut bytes.offsets };
        offsets.extend(info_at + 1..end);
        place = end;
    }
    bytes
}

/// How often a section was changed and still accepted, and how often the row found then had other offsets.
#[derive(Default)]
struct Times {
    offsets: u64,
    behind: u64,
    found: u64,
}

impl Times {
    fn try_questions(&mut self, random: &mut Random, section: &[u8], questions: &[(u64, u64)]) {
        if check(section) != Verdict::Accepted {
            return;
        }
        let functions = functions(section);
        for &(address, pc) in questions {
            if let Outcome::Found { function, number, .. } = lookup(section, address, pc).outcome {
                let bytes = bytes_of(section, function, &functions[function as usize], number as usize);
                self.try_bytes(random, section, (address, pc), &bytes);
            }
        }
    }

    fn try_bytes(&mut self, random: &mut Random, section: &[u8], (address, pc): (u64, u64), bytes: &Bytes) {
        let right = LIBRARY.lookup(section, address, pc);
        assert_eq!(right, library::Answer::of(&lookup(section, address, pc)));
        let mut again = |places: &[usize]| {
            let changed = overwritten(random, section, places);
            let accepted = changed != section && LIBRARY.check(&changed) == Verdict::Accepted;
            accepted.then(|| (LIBRARY.lookup(&changed, address, pc), changed))
        };
        for (places, times) in [(&bytes.offsets, &mut self.offsets), (&bytes.behind, &mut self.behind)] {
            if let Some((answer, changed)) = again(places) {
                assert_eq!(answer, right, "PC {pc:x}, section {section:x?}, changed {changed:x?}");
                assert!(bytes.looked_at.iter().all(|&place| changed[place] == section[place]));
                *times += 1;
            }
        }
        // So the same test would notice a byte that does count.
        if let Some((answer, changed)) = again(&bytes.offsets_found) {
            assert_eq!(answer, library::Answer::of(&lookup(&changed, address, pc)));
            self.found += u64::from(answer != right);
        }
    }
}

fn overwritten(random: &mut Random, section: &[u8], places: &[usize]) -> Vec<u8> {
    let mut changed = section.to_vec();
    places.iter().for_each(|&place| changed[place] = random.below(256) as u8);
    changed
}

#[test]
fn what_is_not_looked_at_changes_no_answer() {
    let (mut times, mut random) = (Times::default(), Random::new(SEED));
    for case in cases::all() {
        let questions: Vec<(u64, u64)> = case.questions.iter().map(|asked| (asked.address, asked.pc)).collect();
        times.try_questions(&mut random, &case.section, &questions);
    }
    for number in 0..TURNS {
        let turn = turn(SEED, number);
        times.try_questions(&mut random, &turn.section, &turn.questions);
    }
    println!(
        "{} times offsets, {} times what is behind, {} times what counts",
        times.offsets, times.behind, times.found
    );
    assert!(times.offsets > 10_000 && times.behind > 100 && times.found > 10_000);
}

// Why a scan that guesses a row's length by the row before is worth it in a real section.
#[test]
fn most_neighbours_in_gnu_as_have_one_info_byte() {
    let section = cases::corpus_section("gas_exe");
    let (mut pairs, mut alike) = (0, 0);
    for (index, function) in (0..).zip(functions(&section)) {
        let rows = rows_of(&section, index);
        let mut place = rows.at as usize;
        let mut infos = Vec::new();
        for _ in &function.rows {
            let info = section[place + (1 << rows.row_type)];
            place += (1 << rows.row_type) + 1 + (usize::from(info >> 1 & 0xf) << (info >> 5 & 0x3));
            infos.push(info);
        }
        pairs += infos.windows(2).count();
        alike += infos.windows(2).filter(|pair| pair[0] == pair[1]).count();
    }
    assert_eq!((pairs, alike), (21_936, 19_413));
}
