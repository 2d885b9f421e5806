//! Random texts and sets at every limit, for the readers and writers of core sets.
#![forbid(unsafe_code)]

use super::{Run, READ_LIST, READ_MASK, WRITE_LIST, WRITE_MASK};
use crate::layout::{Reading, Written, LIST_ROOM};
use crate::paper::core_sets as paper;
use crate::random::Random;

/// Limits above 64 count as 64: a few of them, and the largest.
const LIMITS: std::ops::RangeInclusive<u8> = 0..=70;
const LARGEST: u8 = u8::MAX;

type Reader = fn(&[u8], u8) -> Reading;
type Writer = fn(u64, u8, &mut [u8]) -> Written;

impl Run {
    /// At each limit one text of each format is read and one set written in both.
    pub(super) fn core_sets(&mut self) {
        for limit in LIMITS.chain([LARGEST]) {
            let text = list_near(&mut self.random, limit);
            self.read_text(READ_LIST, crate::read_list, paper::read_list, &text, limit);
            let text = mask_near(&mut self.random, limit);
            self.read_text(READ_MASK, crate::read_mask, paper::read_mask, &text, limit);
            let set = set_near(&mut self.random, limit);
            self.write_set(WRITE_LIST, crate::write_list, paper::write_list, set, limit);
            self.write_set(WRITE_MASK, crate::write_mask, paper::write_mask, set, limit);
        }
    }

    fn read_text(&mut self, kind: usize, library: Reader, paper: Reader, text: &[u8], limit: u8) {
        let (got, expected) = (library(text, limit), paper(text, limit));
        assert!(
            got == expected,
            "seed {}: {:?} at limit {limit}: library {got:?}, paper {expected:?}",
            self.seed,
            String::from_utf8_lossy(text)
        );
        self.seen.count(kind, expected.number);
    }

    /// One set into a buffer of some size around the one that is needed.
    fn write_set(&mut self, kind: usize, library: Writer, paper: Writer, set: u64, limit: u8) {
        let exact = paper(set, limit, &mut [0; LIST_ROOM]).length;
        let rooms = [exact, exact.saturating_sub(1), exact + 1, 0, LIST_ROOM];
        let room = self.random.pick(&rooms);
        let mut given = [0; LIST_ROOM];
        self.random.fill(&mut given);
        let (mut ours, mut theirs) = (given, given);
        let got = library(set, limit, &mut theirs[..room]);
        let expected = paper(set, limit, &mut ours[..room]);
        assert!(
            got == expected && ours == theirs,
            "seed {}: {set:#x} at limit {limit} in {room} bytes: library {got:?} {:?}\npaper {expected:?} {:?}",
            self.seed,
            String::from_utf8_lossy(&theirs),
            String::from_utf8_lossy(&ours)
        );
        assert!(expected.number == 0 || ours == given);
        self.seen.count(kind, expected.number);
    }
}

/// A set of few cores, of many or of long runs; most name no core at or above the limit.
fn set_near(random: &mut Random, limit: u8) -> u64 {
    let (a, b, c) = (random.word(), random.word(), random.word());
    let run = (a >> random.below(64)) << random.below(64);
    let set = random.pick(&[a, a & b, a & b & c, a | b, a | b | c, run, !run, 0, !0]);
    let below = 1u64.checked_shl(u32::from(limit)).map_or(!0, |bit| bit - 1);
    match random.below(6) {
        0 => set,
        1 => set & (below << 1 | 1),
        _ => set & below,
    }
}

/// The number of a core, most often below the limit, and sometimes after zeros.
fn number_near(random: &mut Random, limit: u8) -> String {
    let limit = usize::from(limit);
    let below = random.below(limit.clamp(1, 64));
    let value = match random.below(24) {
        0 => limit.to_string(),
        1 => random
            .pick(&["64", "100", "256", "4294967296", "18446744073709551616"])
            .into(),
        2 => "9".repeat(random.between(1, 400)),
        _ => below.to_string(),
    };
    let zeros = random.pick(&[0, 0, 0, 0, 1, 2, 50]);
    "0".repeat(zeros) + &value
}

/// A List text, as it is written or otherwise, or something like one.
fn list_near(random: &mut Random, limit: u8) -> Vec<u8> {
    let mut text = match random.below(8) {
        0 => paper::list_text(set_near(random, limit)),
        1 => (0..random.below(9))
            .map(|_| random.pick(&['0', '1', '9', '-', ',']))
            .collect(),
        _ => {
            let items: Vec<String> = (0..random.below(7))
                .map(|_| item_near(random, limit))
                .collect();
            items.join(",")
        }
    }
    .into_bytes();
    spoil(random, &mut text);
    text
}

/// A number or a range; of the ranges few run backward.
fn item_near(random: &mut Random, limit: u8) -> String {
    let first = number_near(random, limit);
    if random.chance(1, 2) {
        return first;
    }
    let second = number_near(random, limit);
    let backward = first.parse::<u8>().unwrap_or(0) > second.parse().unwrap_or(255);
    if backward && random.chance(7, 8) {
        return format!("{second}-{first}");
    }
    format!("{first}-{second}")
}

/// A Mask text of as many words as the limit needs, or of another number, in either case.
fn mask_near(random: &mut Random, limit: u8) -> Vec<u8> {
    let of = random.pick(&[limit, limit, limit, limit, limit, limit, 0, 1, 33, 64]);
    let mut text = paper::mask_text(set_near(random, limit), of).into_bytes();
    for c in &mut text {
        if random.chance(1, 2) {
            c.make_ascii_uppercase();
        }
    }
    spoil(random, &mut text);
    text
}

/// One time in three a character is changed, put in or left out, or the text is cut or doubled.
fn spoil(random: &mut Random, text: &mut Vec<u8>) {
    let place = random.below(text.len() + 1);
    let any = random.word() as u8;
    let c = random.pick(&[
        b'0', b'9', b'f', b'F', b'g', b'G', b'/', b':', b'@', b'`', b',', b'-', b' ', b'\n', 0, any,
    ]);
    match random.below(15) {
        0 => text.insert(place, c),
        1 => text.truncate(place),
        2 => text.extend_from_within(place..),
        3 if place < text.len() => drop(text.remove(place)),
        4 if place < text.len() => text[place] = c,
        _ => {}
    }
}
