//! Random dispatchers for the tests: sound ones built directly, whether or not a sequence of calls
//! gives them, and damaged ones.
#![forbid(unsafe_code)]

use crate::layout::{answer, Answer, Dispatcher, Task, CORES, NONE, SLOTS};
use crate::random::Random;

/// How the masks of a scenario are drawn.
#[derive(Clone, Copy, Debug)]
pub enum Masks {
    Single,
    Pair,
    Step,
    Neighbours,
    Interval,
    Nested,
    Sparse,
    Dense,
    Full,
    Mixed,
}

impl Masks {
    const PLAIN: [Masks; 9] = [
        Masks::Single,
        Masks::Pair,
        Masks::Step,
        Masks::Neighbours,
        Masks::Interval,
        Masks::Nested,
        Masks::Sparse,
        Masks::Dense,
        Masks::Full,
    ];

    /// A style for a whole scenario; a fifth of them mix all styles.
    pub fn draw(random: &mut Random) -> Masks {
        if random.chance(1, 5) {
            Masks::Mixed
        } else {
            random.pick(&Masks::PLAIN)
        }
    }

    /// A legal mask for the given number of cores.
    pub fn mask(self, random: &mut Random, cores: usize) -> u32 {
        let full = full_mask(cores);
        let any = 1 << random.below(cores);
        match self {
            Masks::Single => any,
            Masks::Pair => any | 1 << random.below(cores),
            Masks::Step => (any | any << 1) & full,
            Masks::Neighbours => {
                let width = random.between(2, 4).min(cores);
                full_mask(width) << random.below(cores - width + 1)
            }
            Masks::Interval => {
                let width = random.between(1, cores);
                full_mask(width) << random.below(cores - width + 1)
            }
            Masks::Nested => {
                // Halving the cores some times over: two such masks never cross.
                let (mut first, mut width) = (0, cores);
                for _ in 0..random.below(6) {
                    let half = width / 2;
                    if half == 0 {
                        break;
                    }
                    if random.chance(1, 2) {
                        width = half;
                    } else {
                        first += half;
                        width -= half;
                    }
                }
                full_mask(width) << first
            }
            Masks::Sparse => any | (random.word() & random.word() & random.word()) as u32 & full,
            Masks::Dense => any | (random.word() | random.word()) as u32 & full,
            Masks::Full => full,
            Masks::Mixed => random.pick(&Masks::PLAIN).mask(random, cores),
        }
    }
}

/// How priorities are drawn: few give many ties.
#[derive(Clone, Copy, Debug)]
pub enum Priorities {
    One(u8),
    UpTo(u8),
    Ends,
}

impl Priorities {
    pub fn draw(random: &mut Random) -> Priorities {
        match random.below(8) {
            0 => Priorities::One(random.between(1, 255) as u8),
            1 | 2 => Priorities::UpTo(2),
            3 | 4 => Priorities::UpTo(4),
            5 => Priorities::UpTo(12),
            6 => Priorities::UpTo(255),
            _ => Priorities::Ends,
        }
    }

    pub fn priority(self, random: &mut Random) -> u8 {
        match self {
            Priorities::One(priority) => priority,
            Priorities::UpTo(last) => random.between(1, usize::from(last)) as u8,
            Priorities::Ends => random.pick(&[1, 1, 2, 254, 255]),
        }
    }
}

pub fn full_mask(cores: usize) -> u32 {
    (u64::MAX >> (64 - cores)) as u32
}

/// A sound dispatcher with the given number of cores, not bound to what calls can give.
pub fn random_sound(random: &mut Random, cores: usize) -> Dispatcher {
    if random.chance(1, 2) {
        loose(random, cores)
    } else {
        layered(random, cores)
    }
}

/// Random tasks, some of them ready in a random order, some of those on random legal seats.
fn loose(random: &mut Random, cores: usize) -> Dispatcher {
    let mut d = Dispatcher::empty(cores as u8);
    let masks = Masks::draw(random);
    let priorities = Priorities::draw(random);
    let most = random.pick(&[4, 16, 64, 128]).min(2 + 4 * cores).max(cores);
    let mut slots = shuffled_slots(random);
    slots.truncate(random.between(0, most));
    for &slot in &slots {
        d.tasks[usize::from(slot)] = Task {
            priority: priorities.priority(random),
            mask: masks.mask(random, cores),
        };
    }
    slots.truncate(random.between(0, slots.len()));
    d.order[..slots.len()].copy_from_slice(&slots);

    random.shuffle(&mut slots);
    let (hits, tries) = random.pick(&[(1, 1), (1, 1), (9, 10), (1, 2), (0, 1)]);
    let mut by_chance: Vec<usize> = (0..cores).collect();
    random.shuffle(&mut by_chance);
    for core in by_chance {
        if random.chance(hits, tries) {
            let fits = |&slot: &u16| d.tasks[usize::from(slot)].mask & (1 << core) != 0;
            if let Some(place) = slots.iter().position(fits) {
                d.seats[core] = slots.swap_remove(place);
            }
        }
    }
    d
}

/// Cores in layers, each sitter's mask leading to the next layer and perhaps back: long chains and
/// many equally short ones. With one core in each layer there is a single long chain.
fn layered(random: &mut Random, cores: usize) -> Dispatcher {
    let mut d = Dispatcher::empty(cores as u8);
    let priorities = Priorities::draw(random);
    let masks = Masks::draw(random);
    let mut by_chance: Vec<usize> = (0..cores).collect();
    if random.chance(3, 4) {
        random.shuffle(&mut by_chance);
    }
    let widest = if random.chance(1, 3) {
        1
    } else {
        random.between(1, 6)
    };
    let mut layers: Vec<u32> = Vec::new();
    while !by_chance.is_empty() {
        let width = random.between(1, widest).min(by_chance.len());
        let layer = by_chance
            .drain(..width)
            .fold(0, |layer, core| layer | 1 << core);
        layers.push(layer);
    }

    let mut slots = shuffled_slots(random);
    let mut ready = Vec::new();
    let falling = random.chance(1, 2);
    let unbroken = random.chance(1, 2);
    let gaps = random.chance(1, 4);
    let back = random.below(3);
    let mut behind = 0;
    for (place, &layer) in layers.iter().enumerate() {
        behind |= layer;
        let ahead = layers.get(place + 1).copied().unwrap_or(0);
        let last = place + 1 == layers.len();
        for core in (0..cores).filter(|core| layer & (1 << core) != 0) {
            if last && random.chance(1, 3) || gaps && random.chance(1, 20) {
                continue;
            }
            let mut mask = 1 << core | ahead & random.word() as u32;
            if ahead != 0 && (unbroken || random.chance(1, 2)) {
                mask |= 1 << ahead.trailing_zeros();
            }
            if random.chance(back, 2) {
                mask |= behind & random.word() as u32;
            }
            let slot = slots.pop().expect("128 slots are more than 32 cores");
            d.tasks[usize::from(slot)] = Task {
                priority: if falling {
                    200 - place as u8
                } else {
                    priorities.priority(random)
                },
                mask,
            };
            d.seats[core] = slot;
            ready.push(slot);
        }
    }
    for slot in slots.drain(..random.pick(&[1, 4, 32, 96])) {
        let start = layers[0] & random.word() as u32;
        d.tasks[usize::from(slot)] = Task {
            priority: priorities.priority(random),
            mask: if start != 0 {
                start
            } else {
                masks.mask(random, cores)
            },
        };
        if random.chance(1, 2) {
            ready.push(slot);
        }
    }
    random.shuffle(&mut ready);
    d.order[..ready.len()].copy_from_slice(&ready);
    d
}

fn shuffled_slots(random: &mut Random) -> Vec<u16> {
    let mut slots: Vec<u16> = (0..SLOTS as u16).collect();
    random.shuffle(&mut slots);
    slots
}

/// Changes some fields, mostly so that the dispatcher, whose core count is legal, is no longer sound:
/// stray writes, or breaches of some of (a) to (e), in one place or in several.
pub fn damage(random: &mut Random, d: &mut Dispatcher) {
    if random.chance(1, 2) {
        for _ in 0..random.between(1, 3) {
            stray_write(random, d);
        }
        return;
    }
    // The one that is answered is drawn first, so that each comes up as often as the others. The
    // count is spoilt last, for the others need it.
    let first = random.below(BREACHES.len());
    for (condition, breach) in BREACHES.iter().enumerate().skip(first).rev() {
        if condition == first || random.chance(1, 2) {
            for _ in 0..random.pick(&[1, 1, 2, 3]) {
                breach(random, d);
            }
        }
    }
}

type Breach = fn(&mut Random, &mut Dispatcher);

/// Breaches of (a) to (e), in this order.
const BREACHES: [Breach; 5] = [
    spoil_count,
    spoil_task,
    spoil_order,
    spoil_missing_core,
    spoil_seat,
];

fn spoil_count(random: &mut Random, d: &mut Dispatcher) {
    let other = random.between(CORES + 1, 255) as u8;
    d.cores = random.pick(&[0, 33, 255, other, other]);
}

fn spoil_task(random: &mut Random, d: &mut Dispatcher) {
    let slot = random.below(SLOTS);
    let slot = random.pick(&[0, slot, slot, slot, slot, SLOTS - 1]);
    let task = &mut d.tasks[slot];
    match random.below(3) {
        0 => {
            task.priority = 0;
            task.mask |= 1;
        }
        1 => {
            task.priority |= 1;
            task.mask = 0;
        }
        _ => {
            // With 32 cores none is missing; then the priority is wrong.
            let missing = !full_mask(usize::from(d.cores));
            let (lowest, any) = (missing & missing.wrapping_neg(), random.word() as u32);
            task.priority = u8::from(missing != 0);
            task.mask |= 1 | missing & random.pick(&[lowest, 1 << 31, any | lowest]);
        }
    }
}

/// An entry that is no used slot or stands there twice, a gap, or something after the last entry.
fn spoil_order(random: &mut Random, d: &mut Dispatcher) {
    let ready = ready_count(d);
    let place = random.below(ready.max(1));
    let entry = d.order[random.below(ready.max(1))];
    let beyond = random.between(ready, SLOTS).min(SLOTS - 1);
    match random.below(6) {
        0 => d.order[place] = nasty(random),
        1 => d.order[place] = random.below(SLOTS) as u16,
        2 => d.order[place] = entry,
        3 => d.order[place] = NONE,
        4 => d.order[beyond] = random.below(SLOTS) as u16,
        _ => d.order[beyond] = nasty(random),
    }
}

fn spoil_missing_core(random: &mut Random, d: &mut Dispatcher) {
    let count = usize::from(d.cores);
    if count < CORES {
        let core = random.between(count, CORES - 1);
        let core = random.pick(&[count, core, core, core, CORES - 1]);
        let slot = random.below(SLOTS) as u16;
        d.seats[core] = random.pick(&[slot, 0, 127, 128, 200, 254, 256, 65_535]);
    }
}

/// A sitter that is not ready or no slot at all, sits twice, or sits on another core than before.
fn spoil_seat(random: &mut Random, d: &mut Dispatcher) {
    let count = usize::from(d.cores);
    let (core, other) = (random.below(count), random.below(count));
    match random.below(4) {
        0 => d.seats[core] = nasty(random),
        1 => d.seats[core] = random.below(SLOTS) as u16,
        2 => d.seats[core] = d.seats[other],
        _ => d.seats.swap(core, other),
    }
}

/// Mends the one word that the answer to an unsound dispatcher names; the count as given.
pub fn mend(d: &mut Dispatcher, answer: Answer, cores: u8) {
    let place = usize::from(answer.place);
    match answer.number {
        answer::UNSOUND_COUNT => d.cores = cores,
        answer::UNSOUND_SLOT => d.tasks[place] = Task::EMPTY,
        answer::UNSOUND_PLACE => d.order[place] = NONE,
        _ => d.seats[place] = NONE,
    }
}

/// How many places of the wake order are before the first mark.
pub fn ready_count(d: &Dispatcher) -> usize {
    d.order
        .iter()
        .position(|&slot| slot == NONE)
        .unwrap_or(SLOTS)
}

fn stray_write(random: &mut Random, d: &mut Dispatcher) {
    let count = usize::from(d.cores);
    let ready = ready_count(d);
    let place = random.below(SLOTS);
    let near = random.below(SLOTS.min(ready + 2));
    let core = random.below(CORES);
    let used: Vec<usize> = (0..SLOTS)
        .filter(|&slot| !d.tasks[slot].is_empty())
        .collect();
    let slot = if used.is_empty() || random.chance(1, 8) {
        random.below(SLOTS)
    } else {
        random.pick(&used)
    };
    match random.below(22) {
        0 => d.order[near] = nasty(random),
        1 => d.order[place] = nasty(random),
        2 => d.seats[core] = nasty(random),
        3 => d.seats[random.below(count.clamp(1, CORES))] = nasty(random),
        4 => d.tasks[slot].priority = 0,
        5 => d.tasks[slot].mask = 0,
        6 => d.tasks[slot] = Task::EMPTY,
        7 => d.tasks[slot].mask |= 1u32.checked_shl(count as u32).unwrap_or(1),
        8 => d.tasks[slot].mask |= 1 << core,
        9 => d.tasks[slot].mask ^= 1 << core,
        10 => d.cores = random.pick(&[0, 33, 64, 128, 255]),
        11 => d.cores = random.word() as u8,
        12 => d.cores = d.cores.wrapping_add(random.pick(&[1, 255])),
        13 => d.order[near] = d.order[random.below(SLOTS.min(ready + 2))],
        14 => d.order[near] = NONE,
        15 => d.order[near] = slot as u16,
        16 => d.seats[core] = d.seats[random.below(CORES)],
        17 => d.seats[core] = slot as u16,
        18 => d.seats.swap(core, random.below(CORES)),
        19 => d.order.swap(near, random.below(SLOTS)),
        20 => {
            // A single byte of a field, as a stray write would change it.
            let byte = 8 * random.below(2);
            let flip = (random.between(1, 255) as u16) << byte;
            if random.chance(1, 2) {
                d.order[near] ^= flip;
            } else {
                d.seats[core] ^= flip;
            }
        }
        _ => {
            d.tasks[random.below(SLOTS)] = Task {
                priority: random.pick(&[0, 0, 1, 255]),
                mask: random.pick(&[0, 0, 1, 2, 1 << 31, u32::MAX]),
            }
        }
    }
}

/// Values that a careless check takes for a slot, for the mark, or for an index.
fn nasty(random: &mut Random) -> u16 {
    const ODD: [u16; 16] = [
        0, 1, 127, 128, 129, 200, 253, 254, 255, 256, 257, 383, 511, 32_768, 65_280, 65_535,
    ];
    if random.chance(1, 4) {
        random.word() as u16
    } else {
        random.pick(&ODD)
    }
}

/// Every field random; the core count is legal now and then, so that later checks are met too.
pub fn random_pattern(random: &mut Random) -> Dispatcher {
    let mut d = Dispatcher::empty(random.word() as u8);
    if random.chance(1, 2) {
        d.cores = random.between(1, CORES) as u8;
    }
    let tame = random.chance(1, 2);
    for task in &mut d.tasks {
        task.priority = random.word() as u8;
        task.mask = random.word() as u32;
        if tame {
            task.priority |= 1;
            task.mask = task.mask & full_mask(usize::from(d.cores).clamp(1, CORES)) | 1;
        }
    }
    for slot in d.order.iter_mut().chain(&mut d.seats) {
        *slot = random.word() as u16;
        if tame {
            *slot &= 255;
        }
    }
    d
}
