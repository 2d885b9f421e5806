//! One call over and over on copies of prepared dispatchers, to be run under callgrind:
//! `bench SIDE CALL CORES READY CHAIN REPEAT`.
//!
//! SIDE is `library`, `rust` or `none` (all but the call), CALL is `wake`, `block` or `delete`,
//! CHAIN is `typical` or `worst`, or `asleep` for a delete of a task that is not ready. READY counts
//! the ready tasks together with the one that the call names. Instructions per call are the
//! difference to `none`, divided by REPEAT.

use std::hint::black_box;
use std::{env, process};

use makxirund::layout::{Dispatcher, Report, CORES, NONE, SLOTS};
use makxirund::paper;
use makxirund::random::Random;
use makxirund::states::full_mask;

type InPlace = fn(&mut Dispatcher, u16) -> Report;

#[inline(never)]
fn library_wake(d: &mut Dispatcher, slot: u16) -> Report {
    d.wake(slot)
}

#[inline(never)]
fn library_block(d: &mut Dispatcher, slot: u16) -> Report {
    d.block(slot)
}

#[inline(never)]
fn library_delete(d: &mut Dispatcher, slot: u16) -> Report {
    d.delete(slot)
}

#[inline(never)]
fn rust_wake(d: &mut Dispatcher, slot: u16) -> Report {
    paper::wake(d, slot)
}

#[inline(never)]
fn rust_block(d: &mut Dispatcher, slot: u16) -> Report {
    paper::block(d, slot)
}

#[inline(never)]
fn rust_delete(d: &mut Dispatcher, slot: u16) -> Report {
    paper::delete(d, slot)
}

#[inline(never)]
fn no_call(_: &mut Dispatcher, _: u16) -> Report {
    Report::plain(0)
}

/// A dispatcher reached from fresh, and the slot that the measured call names.
struct Prepared {
    d: Dispatcher,
    slot: u16,
}

fn main() {
    let words: Vec<String> = env::args().skip(1).collect();
    let words: Vec<&str> = words.iter().map(String::as_str).collect();
    let &[side, call, cores, ready, chain, repeat] = &words[..] else {
        usage()
    };
    let (cores, ready) = (number(cores), number(ready));
    if !(1..=CORES).contains(&cores) || !(2..=SLOTS).contains(&ready) {
        usage();
    }
    let paper_call: InPlace = match call {
        "wake" => rust_wake,
        "block" => rust_block,
        "delete" => rust_delete,
        _ => usage(),
    };
    let measured: InPlace = match (side, call) {
        ("library", "wake") => library_wake,
        ("library", "block") => library_block,
        ("library", "delete") => library_delete,
        ("rust", _) => paper_call,
        ("none", _) => no_call,
        _ => usage(),
    };
    // A ready task is deleted in the states in which it is blocked: the two stand side by side.
    let prepared = match (chain, call) {
        ("asleep", "delete") => asleep(cores, ready),
        ("worst", "wake") => vec![worst_wake(cores, ready)],
        ("worst", _) => vec![worst_block(cores, ready)],
        ("typical", _) => typical(call == "wake", cores, ready),
        _ => usage(),
    };

    let mut moves = 0;
    let mut starts = 0;
    for Prepared { d, slot } in &prepared {
        let report = paper_call(&mut d.clone(), *slot);
        assert_eq!(report.number, 0);
        moves += u32::from(report.moves);
        starts += u32::from(report.started != NONE);
    }
    let states = prepared.len() as f64;
    println!(
        "moves {:.2} starts {:.2}",
        f64::from(moves) / states,
        f64::from(starts) / states
    );

    repeated(black_box(measured), &prepared, number(repeat));
}

/// The measured loop; it is the same for all sides but for the function that it is given.
#[inline(never)]
fn repeated(call: InPlace, prepared: &[Prepared], repeat: usize) {
    let mut scratch = Dispatcher::empty(1);
    for Prepared { d, slot } in prepared.iter().cycle().take(repeat) {
        scratch.clone_from(black_box(d));
        black_box(call(black_box(&mut scratch), *slot));
    }
}

/// A step chain over as many cores as there are runners: the newcomer may sit on core 0 only and
/// shifts everybody, up to an idle core or to the least urgent runner.
fn worst_wake(cores: usize, ready: usize) -> Prepared {
    let before = ready - 1;
    let runners = before.min(cores);
    let mut board = Board::new(cores);
    for core in 0..runners {
        board.wake(200 - core as u8, 3 << core & full_mask(cores));
    }
    board.crowd(before - runners);
    let slot = board.create(255, 1);
    let mut trial = board.d.clone();
    let report = paper::wake(&mut trial, slot);
    assert_eq!(
        usize::from(report.moves),
        if before < cores { runners } else { cores - 1 }
    );
    Prepared { d: board.d, slot }
}

/// The same chain with its far end blocked: the best waiting task may sit on core 0 only.
fn worst_block(cores: usize, ready: usize) -> Prepared {
    let runners = (ready - 1).min(cores);
    let mut board = Board::new(cores);
    let mut last = NONE;
    for core in 0..runners {
        last = board.wake(200 - core as u8, 3 << core & full_mask(runners));
    }
    board.crowd(ready - runners - 1);
    board.wake(100, 1);
    let mut trial = board.d.clone();
    let report = paper::block(&mut trial, last);
    assert_eq!(usize::from(report.moves), runners - 1);
    Prepared {
        d: board.d,
        slot: last,
    }
}

/// A dispatcher in the making; slots are strewn over the table.
struct Board {
    d: Dispatcher,
    created: usize,
}

impl Board {
    fn new(cores: usize) -> Board {
        let mut d = Dispatcher::empty(1);
        assert_eq!(paper::fresh(&mut d, cores as u8).number, 0);
        Board { d, created: 0 }
    }

    fn create(&mut self, priority: u8, mask: u32) -> u16 {
        let slot = (self.created * 37 % SLOTS) as u16;
        self.created += 1;
        assert_eq!(paper::create(&mut self.d, slot, priority, mask).number, 0);
        slot
    }

    fn wake(&mut self, priority: u8, mask: u32) -> u16 {
        let slot = self.create(priority, mask);
        assert_eq!(paper::wake(&mut self.d, slot).number, 0);
        slot
    }

    /// Waiting tasks that are worse than all runners and reach every core.
    fn crowd(&mut self, count: usize) {
        let everywhere = full_mask(usize::from(self.d.cores));
        for place in 0..count {
            self.wake(1 + place as u8 % 50, everywhere);
        }
    }

    fn idle_cores(&self) -> usize {
        let seats = &self.d.seats[..usize::from(self.d.cores)];
        seats.iter().filter(|&&slot| slot == NONE).count()
    }
}

/// How many shifts the 16 typical calls make, and whether anybody starts.
const WANTED: [(u8, bool); 8] = [
    (0, true),
    (1, true),
    (0, false),
    (0, true),
    (1, true),
    (2, true),
    (0, true),
    (1, true),
];

fn typical(wake: bool, cores: usize, ready: usize) -> Vec<Prepared> {
    let mut random = Random::new((cores * 1000 + ready) as u64);
    (0..16)
        .map(|k| typical_one(&mut random, wake, cores, ready, WANTED[k % WANTED.len()]))
        .collect()
}

/// A busy board on which the call makes the wanted shifts, or at most two where no try gives them.
fn typical_one(
    random: &mut Random,
    wake: bool,
    cores: usize,
    ready: usize,
    wanted: (u8, bool),
) -> Prepared {
    let mut fallback = None;
    for _ in 0..20 {
        let board = busy(random, cores, if wake { ready - 1 } else { ready });
        for _ in 0..40 {
            let (trial, slot) = if wake {
                let mut d = board.d.clone();
                let slot = (board.created * 37 % SLOTS) as u16;
                let priority = random.between(1, 10) as u8;
                paper::create(&mut d, slot, priority, neighbours(random, cores, None));
                (d, slot)
            } else {
                let running: Vec<u16> = board
                    .d
                    .seats
                    .iter()
                    .copied()
                    .filter(|&slot| slot != NONE)
                    .collect();
                (board.d.clone(), random.pick(&running))
            };
            let mut after = trial.clone();
            let report = if wake {
                paper::wake(&mut after, slot)
            } else {
                paper::block(&mut after, slot)
            };
            let found = Prepared { d: trial, slot };
            if (report.moves, report.started != NONE) == wanted {
                return found;
            }
            if report.moves <= 2 {
                fallback = Some(found);
            }
        }
    }
    fallback.expect("800 tries give a call with at most two shifts")
}

/// Busy boards with one more task, which is not ready.
fn asleep(cores: usize, ready: usize) -> Vec<Prepared> {
    let mut random = Random::new((cores * 1000 + ready) as u64);
    (0..16)
        .map(|_| {
            let mut board = busy(&mut random, cores, ready - 1);
            let slot = board.create(9, 1);
            Prepared { d: board.d, slot }
        })
        .collect()
}

/// Tasks on two to four neighbouring cores with eight priorities, after some blocks and wakes. With
/// as many ready tasks as cores every core is busy, for each core is in the mask of a task of its own.
fn busy(random: &mut Random, cores: usize, ready: usize) -> Board {
    let mut board = Board::new(cores);
    let mut homes: Vec<usize> = (0..cores).collect();
    random.shuffle(&mut homes);
    let mut slots = Vec::new();
    for place in 0..ready {
        let mask = neighbours(random, cores, homes.get(place).copied());
        slots.push(board.wake(random.between(1, 8) as u8, mask));
    }
    for _ in 0..cores {
        let slot = random.pick(&slots);
        assert_eq!(paper::block(&mut board.d, slot).number, 0);
        assert_eq!(paper::wake(&mut board.d, slot).number, 0);
    }
    assert!(ready < cores || board.idle_cores() == 0);
    board
}

fn neighbours(random: &mut Random, cores: usize, home: Option<usize>) -> u32 {
    let width = random.between(2, 4).min(cores);
    let last = cores - width;
    let first = match home {
        Some(home) => random.between((home + 1).saturating_sub(width), home.min(last)),
        None => random.between(0, last),
    };
    full_mask(width) << first
}

fn number(word: &str) -> usize {
    word.parse().unwrap_or_else(|_| usage())
}

fn usage() -> ! {
    eprintln!(
        "usage: bench library|rust|none wake|block|delete CORES READY typical|worst|asleep REPEAT"
    );
    process::exit(2)
}
