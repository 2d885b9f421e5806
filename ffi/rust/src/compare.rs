//! Random calls on the library and on `paper` side by side: every answer, every whole dispatcher
//! and every lent byte must be the same.
#![forbid(unsafe_code)]

mod core_sets;

use std::collections::BTreeMap;
use std::fmt;

use crate::layout::{
    answer, Answer, Dispatcher, Line, LoadReport, Report, TaskRecord, CORES, EVENTS, NONE, SLOTS,
};
use crate::paper;
use crate::random::Random;
use crate::states::{
    damage, full_mask, mend, random_pattern, random_sound, ready_count, Masks, Priorities,
};

/// The kinds of calls, in the order in which they are counted.
const KINDS: [&str; 16] = [
    "fresh",
    "create",
    "delete",
    "wake",
    "block",
    "load",
    "sound",
    "read",
    "record",
    "event",
    "line",
    "fault",
    "read_list",
    "read_mask",
    "write_list",
    "write_mask",
];
const FRESH: usize = 0;
const CREATE: usize = 1;
const DELETE: usize = 2;
const WAKE: usize = 3;
const BLOCK: usize = 4;
const LOAD: usize = 5;
const SOUND: usize = 6;
const READ: usize = 7;
const RECORD: usize = 8;
const EVENT: usize = 9;
const LINE: usize = 10;
const FAULT: usize = 11;
const READ_LIST: usize = 12;
const READ_MASK: usize = 13;
const WRITE_LIST: usize = 14;
const WRITE_MASK: usize = 15;

/// The answers that the paper lets each of the kinds give; for record and event 1 is: not found.
const ANSWERS: [&[u8]; KINDS.len()] = [
    &[0, 2],
    &[0, 3, 4, 6, 7, 8, 21, 22, 23, 24, 25],
    &[0, 3, 5, 21, 22, 23, 24, 25],
    &[0, 3, 5, 9, 21, 22, 23, 24, 25],
    &[0, 3, 5, 10, 21, 22, 23, 24, 25],
    &[0, 3, 4, 6, 7, 8, 21, 22, 23, 24, 25],
    &[0, 21, 22, 23, 24, 25],
    &[0, 2, 12, 13, 14, 16],
    &[0, 1],
    &[0, 1],
    &[0, 14, 15, 21, 22, 23, 24, 25],
    &[0, 15],
    &[0, 17, 18, 19],
    &[0, 17, 19],
    &[0, 19, 20],
    &[0, 19, 20],
];

/// What accepted blocks and deletes met: where the task stood, or what became of its core.
const ENDS: [&str; 5] = [
    "of tasks not ready",
    "of waiting tasks",
    "left the core idle",
    "refilled it at once",
    "refilled it by shifts",
];
const NOT_READY: usize = 0;
const WAITING: usize = 1;
const LEFT_IDLE: usize = 2;
const AT_ONCE: usize = 3;
const BY_SHIFTS: usize = 4;

/// Where the ends of each kind begin: a block of a task that is not ready is refused.
const ENDING: [(usize, usize); 2] = [(BLOCK, WAITING), (DELETE, NOT_READY)];

/// The answers to an unsound dispatcher, with what their place can be and how many of these there are.
const UNSOUND: [(u8, &str, usize); 5] = [
    (answer::UNSOUND_COUNT, "counts", 224),
    (answer::UNSOUND_SLOT, "slots", 128),
    (answer::UNSOUND_PLACE, "places", 128),
    (answer::UNSOUND_MISSING_CORE, "missing cores", 31),
    (answer::UNSOUND_SEAT, "cores", 32),
];

/// Each of these ends, and each of these answers in each kind of call, must come up at least once in
/// so many calls.
const OFTEN: u64 = 500;

/// What a run has met.
#[derive(Default)]
pub struct Coverage {
    /// Calls by kind and answer; a record or event that is not found counts as answer 1.
    answers: [[u64; 26]; KINDS.len()],
    /// Accepted blocks and deletes by end.
    ends: [[u64; ENDS.len()]; KINDS.len()],
    /// Calls on dispatchers of 1 to 32 cores, and on those with another count.
    by_cores: [u64; CORES],
    other_cores: u64,
    sequences: u64,
    direct: u64,
    damaged: u64,
    /// Damaged states for which each of the `UNSOUND` numbers was given, by place.
    unsound: [BTreeMap<u16, u64>; UNSOUND.len()],
    /// The words that were mended until these states were sound, and the most in one of them.
    mended: u64,
    most_mended: u64,
    unreachable: u64,
    strong_checks: u64,
    most_ready: usize,
    waits: u64,
    to_idle: u64,
    pushed_off: u64,
    by_moves: [u64; CORES],
    ties: u64,
    most_ties: u64,
    longest_load: usize,
}

impl Coverage {
    fn count(&mut self, kind: usize, number: u8) {
        self.answers[kind][usize::from(number)] += 1;
    }

    /// How often create, delete, wake, block and load were called.
    pub fn calls(&self) -> u64 {
        self.answers[CREATE..=LOAD].iter().flatten().sum()
    }

    /// The answers that can be given and never were, and the ends that came up too seldom.
    pub fn unmet(&self) -> Vec<String> {
        let mut unmet = Vec::new();
        for (kind, numbers) in ANSWERS.iter().enumerate() {
            for &number in numbers.iter() {
                if self.answers[kind][usize::from(number)] == 0 {
                    unmet.push(format!("{}: answer {number}", KINDS[kind]));
                }
            }
        }
        for (kind, first) in ENDING {
            for end in first..ENDS.len() {
                if self.ends[kind][end] * OFTEN < self.calls() {
                    unmet.push(format!("{}: {}", KINDS[kind], ENDS[end]));
                }
            }
        }
        for ((number, sort, all), places) in UNSOUND.iter().zip(&self.unsound) {
            for (kind, numbers) in ANSWERS.iter().enumerate() {
                let given = self.answers[kind][usize::from(*number)];
                if numbers.contains(number) && given * OFTEN < self.calls() {
                    unmet.push(format!("{}: answer {number} often", KINDS[kind]));
                }
            }
            // A short run does not come to all of them.
            if 2 * places.len() < *all {
                unmet.push(format!("answer {number}: half of all {sort}"));
            }
        }
        unmet
    }

    /// The longest chain that a call took, in cores.
    pub fn longest_chain(&self) -> usize {
        self.by_moves
            .iter()
            .rposition(|&calls| calls > 0)
            .map_or(0, |moves| moves + 1)
    }
}

impl fmt::Display for Coverage {
    fn fmt(&self, f: &mut fmt::Formatter) -> fmt::Result {
        let all: u64 = self.answers.iter().flatten().sum();
        writeln!(
            f,
            "{} calls of create, delete, wake, block, load; {all} in all",
            self.calls()
        )?;
        writeln!(
            f,
            "calls by kind, then answer:count (for record and event 1 is: not found)"
        )?;
        for (kind, answers) in KINDS.iter().zip(&self.answers) {
            write!(f, "  {kind:<11}{:>9} ", answers.iter().sum::<u64>())?;
            for (number, count) in answers.iter().enumerate().filter(|(_, &count)| count > 0) {
                write!(f, " {number}:{count}")?;
            }
            writeln!(f)?;
        }
        write!(f, "calls by core count:")?;
        for (below, count) in self.by_cores.iter().enumerate() {
            write!(f, " {}:{count}", below + 1)?;
        }
        writeln!(f, "; other counts: {}", self.other_cores)?;
        writeln!(
            f,
            "{} sequences from fresh (at most {} tasks ready, strong rule checked {} times)",
            self.sequences, self.most_ready, self.strong_checks
        )?;
        writeln!(
            f,
            "{} states built directly, {} damaged; {} sound ones that no sequence gives",
            self.direct, self.damaged, self.unreachable
        )?;
        write!(f, "unsound, by answer:")?;
        for ((number, sort, all), places) in UNSOUND.iter().zip(&self.unsound) {
            let states: u64 = places.values().sum();
            write!(f, " {number}:{states} ({} of {all} {sort})", places.len())?;
        }
        writeln!(f)?;
        writeln!(
            f,
            "mended word by word as the answers name them: {} words, at most {} in one state",
            self.mended, self.most_mended
        )?;
        writeln!(
            f,
            "accepted wakes: {} waited, {} to an idle core, {} pushed somebody off",
            self.waits, self.to_idle, self.pushed_off
        )?;
        for (kind, first) in ENDING {
            write!(f, "accepted {}s:", KINDS[kind])?;
            for end in first..ENDS.len() {
                let mark = if end == first { "" } else { "," };
                write!(f, "{mark} {} {}", self.ends[kind][end], ENDS[end])?;
            }
            writeln!(f)?;
        }
        writeln!(
            f,
            "longest chain {} cores, greatest moves {}; starts with shifts and several shortest chains: {} (at most {} chains)",
            self.longest_chain(),
            self.longest_chain().saturating_sub(1),
            self.ties,
            self.most_ties
        )?;
        write!(f, "starts by moves:")?;
        for (moves, count) in self.by_moves.iter().enumerate() {
            write!(f, " {moves}:{count}")?;
        }
        writeln!(f)?;
        let loads = &self.answers[LOAD];
        write!(
            f,
            "loads: {} accepted, the longest of {} records; refused",
            loads[0], self.longest_load
        )?;
        for (number, count) in loads
            .iter()
            .enumerate()
            .skip(1)
            .filter(|(_, &count)| count > 0)
        {
            write!(f, " {number}:{count}")?;
        }
        writeln!(f)
    }
}

#[derive(Debug)]
enum Call {
    Create(TaskRecord),
    Delete(u16),
    Wake(u16),
    Block(u16),
    Load(Vec<TaskRecord>),
}

const GUARD: [u8; 64] = [0xA5; 64];

/// The same dispatcher twice; the library's stands between bytes that it must not touch.
#[repr(C)]
#[derive(Clone)]
struct Pair {
    low: [u8; 64],
    library: Dispatcher,
    high: [u8; 64],
    paper: Dispatcher,
}

impl Pair {
    fn of(d: Dispatcher) -> Pair {
        Pair {
            low: GUARD,
            library: d.clone(),
            high: GUARD,
            paper: d,
        }
    }

    fn same(&self) -> bool {
        self.library == self.paper && self.low == GUARD && self.high == GUARD
    }
}

/// Compares at least `calls` random calls of create, delete, wake, block and load, and others with
/// them. Panics at the first difference, naming the state, the call and both answers.
pub fn run(seed: u64, calls: u64) -> Coverage {
    let mut run = Run {
        seed,
        random: Random::new(seed),
        seen: Coverage::default(),
    };
    let mut cores = 1;
    while run.seen.calls() < calls {
        run.sequence(cores);
        for _ in 0..40 {
            run.direct(cores);
        }
        for _ in 0..24 {
            run.damaged(cores);
        }
        for _ in 0..12 {
            run.loads(cores);
        }
        for _ in 0..12 {
            run.file(cores);
        }
        run.fresh();
        run.fault();
        for _ in 0..3 {
            run.core_sets();
        }
        cores = cores % CORES + 1;
    }
    run.seen
}

struct Run {
    seed: u64,
    random: Random,
    seen: Coverage,
}

impl Run {
    /// A new dispatcher and then wakes, blocks, creates, deletes and loads as they come.
    fn sequence(&mut self, cores: usize) {
        self.seen.sequences += 1;
        let masks = Masks::draw(&mut self.random);
        let priorities = Priorities::draw(&mut self.random);
        let mut pair = Pair::of(random_pattern(&mut self.random));
        self.fresh_on(&mut pair, cores as u8);

        let tasks = self
            .random
            .pick(&[cores + 1, 2 * cores + 2, 64, 128])
            .min(SLOTS);
        let mut slots: Vec<u16> = (0..SLOTS as u16).collect();
        self.random.shuffle(&mut slots);
        let mut records = Vec::new();
        for &slot in &slots[..tasks] {
            records.push(TaskRecord {
                slot,
                priority: priorities.priority(&mut self.random),
                mask: masks.mask(&mut self.random, cores),
            });
        }
        if self.random.chance(1, 2) {
            self.apply(&mut pair, Call::Load(records));
        } else {
            for record in records {
                self.apply(&mut pair, Call::Create(record));
            }
        }

        let target = self
            .random
            .pick(&[cores / 2, cores, cores + 2, 2 * cores, SLOTS]);
        let steps = self.random.pick(&[100, 300, 600]);
        for step in 0..steps {
            let ready = ready_count(&pair.paper);
            self.seen.most_ready = self.seen.most_ready.max(ready);
            let eager = if ready < target { 70 } else { 25 };
            let call = match self.random.below(100) {
                0..=2 => Call::Create(self.record(masks, priorities, cores)),
                3..=5 => Call::Delete(self.slot_to_delete(&pair.paper)),
                6 => Call::Load(self.boot_list(&pair.paper, masks, priorities)),
                dice if dice < 7 + eager => Call::Wake(self.slot_to_wake(&pair.paper)),
                _ => Call::Block(self.slot_to_block(&pair.paper)),
            };
            self.apply(&mut pair, call);
            self.sound(&pair);
            if step % 8 == 0 {
                self.line(&pair);
            }
            if step % 16 == 0 {
                self.seen.strong_checks += 1;
                assert!(
                    strong(&pair.paper),
                    "the strong rule does not hold: {}",
                    self.told(&pair.paper)
                );
            }
        }
    }

    /// A sound state that need not come from calls, and a few calls on it.
    fn direct(&mut self, cores: usize) {
        self.seen.direct += 1;
        let d = random_sound(&mut self.random, cores);
        if !strong(&d) {
            self.seen.unreachable += 1;
        }
        let masks = Masks::draw(&mut self.random);
        let priorities = Priorities::draw(&mut self.random);
        let start = Pair::of(d);
        self.sound(&start);
        for _ in 0..3 {
            let mut pair = start.clone();
            for _ in 0..2 {
                let call = match self.random.below(20) {
                    0 => Call::Create(self.record(masks, priorities, cores)),
                    1..=3 => Call::Delete(self.slot_to_delete(&pair.paper)),
                    4..=11 => Call::Wake(self.slot_to_wake(&pair.paper)),
                    _ => Call::Block(self.slot_to_block(&pair.paper)),
                };
                self.apply(&mut pair, call);
                self.sound(&pair);
            }
            if self.random.chance(1, 4) {
                self.line(&pair);
            }
        }
    }

    /// A state with some fields changed, and one call of each kind on it.
    fn damaged(&mut self, cores: usize) {
        self.seen.damaged += 1;
        let d = if self.random.chance(1, 10) {
            random_pattern(&mut self.random)
        } else {
            // With no task at all a wrong core count is the only thing wrong.
            let mut d = if self.random.chance(1, 12) {
                Dispatcher::empty(cores as u8)
            } else {
                random_sound(&mut self.random, cores)
            };
            damage(&mut self.random, &mut d);
            d
        };
        let masks = Masks::draw(&mut self.random);
        let priorities = Priorities::draw(&mut self.random);
        let mut pair = Pair::of(d);
        let answer = self.sound(&pair);
        match UNSOUND.iter().position(|row| row.0 == answer.number) {
            Some(row) => *self.seen.unsound[row].entry(answer.place).or_default() += 1,
            None => self.seen.unreachable += u64::from(!strong(&pair.paper)),
        }
        let calls = [
            Call::Wake(self.slot_to_wake(&pair.paper)),
            Call::Block(self.slot_to_block(&pair.paper)),
            Call::Create(self.record(masks, priorities, cores)),
            Call::Delete(self.slot_to_delete(&pair.paper)),
            Call::Load(self.boot_list(&pair.paper, masks, priorities)),
        ];
        for call in calls {
            self.apply(&mut pair, call);
        }
        self.line(&pair);
        self.mend(&mut pair, cores as u8);
    }

    /// Mends the word that the answer names until the dispatcher is sound. The answers come in the
    /// order of the conditions, and to each condition the lowest place first.
    fn mend(&mut self, pair: &mut Pair, cores: u8) {
        let mut last = (0, 0);
        let mut words = 0;
        loop {
            let answer = self.sound(pair);
            if answer == Answer::SOUND {
                break;
            }
            let next = (answer.number, answer.place);
            assert!(
                last < next,
                "{next:?} after {last:?}{}",
                self.told(&pair.paper)
            );
            mend(&mut pair.library, answer, cores);
            mend(&mut pair.paper, answer, cores);
            last = next;
            words += 1;
        }
        self.seen.mended += words;
        self.seen.most_mended = self.seen.most_mended.max(words);
    }

    fn loads(&mut self, cores: usize) {
        let masks = Masks::draw(&mut self.random);
        let priorities = Priorities::draw(&mut self.random);
        let d = if self.random.chance(1, 2) {
            Dispatcher::empty(cores as u8)
        } else {
            random_sound(&mut self.random, cores)
        };
        let mut pair = Pair::of(d);
        let records = self.boot_list(&pair.paper, masks, priorities);
        self.apply(&mut pair, Call::Load(records));
        self.sound(&pair);
    }

    /// Makes one call on both sides and compares all that it leaves behind.
    fn apply(&mut self, pair: &mut Pair, call: Call) {
        let before = pair.paper.clone();
        let plain = |report| LoadReport { report, index: 0 };
        let (kind, got, expected) = match &call {
            Call::Create(record) => {
                let &TaskRecord {
                    slot,
                    priority,
                    mask,
                } = record;
                let got = pair.library.create(slot, priority, mask);
                let expected = paper::create(&mut pair.paper, slot, priority, mask);
                (CREATE, plain(got), plain(expected))
            }
            &Call::Delete(slot) => {
                let got = pair.library.delete(slot);
                (
                    DELETE,
                    plain(got),
                    plain(paper::delete(&mut pair.paper, slot)),
                )
            }
            &Call::Wake(slot) => {
                let got = pair.library.wake(slot);
                (WAKE, plain(got), plain(paper::wake(&mut pair.paper, slot)))
            }
            &Call::Block(slot) => {
                let got = pair.library.block(slot);
                (
                    BLOCK,
                    plain(got),
                    plain(paper::block(&mut pair.paper, slot)),
                )
            }
            Call::Load(records) => {
                let got = pair.library.load(records);
                (LOAD, got, paper::load(&mut pair.paper, records))
            }
        };
        let number = expected.report.number;
        if got != expected || !pair.same() || !ANSWERS[kind].contains(&number) {
            panic!(
                "{}\ncall {call:?}\nlibrary {got:?}{}\npaper {expected:?}{}\nguards {:?} {:?}",
                self.told(&before),
                self.told(&pair.library),
                self.told(&pair.paper),
                pair.low == GUARD,
                pair.high == GUARD,
            );
        }

        let refused = match paper::sound(&before) {
            Answer::SOUND => Report::plain(number),
            answer => Report::unsound(answer),
        };
        if refused.number != 0 {
            assert!(pair.paper == before && expected.report == refused);
        }
        self.seen.count(kind, number);
        let below = usize::from(before.cores).wrapping_sub(1);
        match self.seen.by_cores.get_mut(below) {
            Some(calls) => *calls += 1,
            None => self.seen.other_cores += 1,
        }
        match call {
            Call::Wake(slot) if number == 0 => self.saw_wake(&before, slot, expected.report),
            Call::Block(slot) | Call::Delete(slot) if number == 0 => {
                self.saw_end(kind, &before, slot, expected.report);
            }
            Call::Load(records) if number == 0 => {
                self.seen.longest_load = self.seen.longest_load.max(records.len());
            }
            _ => {}
        }
    }

    fn saw_wake(&mut self, before: &Dispatcher, slot: u16, report: Report) {
        if report.started == NONE {
            self.seen.waits += 1;
            return;
        }
        let goal = if report.stopped == NONE {
            self.seen.to_idle += 1;
            cores_with(before, NONE)
        } else {
            self.seen.pushed_off += 1;
            cores_with(before, report.stopped)
        };
        self.saw_chain(before, slot, goal, report);
    }

    fn saw_end(&mut self, kind: usize, before: &Dispatcher, slot: u16, report: Report) {
        let end = match before.seats.iter().position(|&sitter| sitter == slot) {
            None if before.order.contains(&slot) => WAITING,
            None => NOT_READY,
            Some(_) if report.started == NONE => LEFT_IDLE,
            Some(core) => {
                let mut freed = before.clone();
                freed.seats[core] = NONE;
                self.saw_chain(&freed, report.started, 1 << core, report);
                if report.moves == 0 {
                    AT_ONCE
                } else {
                    BY_SHIFTS
                }
            }
        };
        self.seen.ends[kind][end] += 1;
    }

    fn saw_chain(&mut self, before: &Dispatcher, starter: u16, goal: u32, report: Report) {
        let mask = before.tasks[usize::from(starter)].mask;
        let (length, chains) = shortest_chains(before, mask, goal);
        assert_eq!(
            usize::from(report.moves) + 1,
            length,
            "{}",
            self.told(before)
        );
        self.seen.by_moves[usize::from(report.moves)] += 1;
        self.seen.ties += u64::from(chains > 1 && report.moves > 0);
        self.seen.most_ties = self.seen.most_ties.max(chains);
    }

    fn fresh(&mut self) {
        let cores = self.random.pick(&[0, 1, 2, 31, 32, 33, 64, 128, 255]);
        let cores = if self.random.chance(1, 2) {
            cores
        } else {
            self.random.word() as u8
        };
        let mut pair = Pair::of(random_pattern(&mut self.random));
        self.fresh_on(&mut pair, cores);
    }

    fn fresh_on(&mut self, pair: &mut Pair, cores: u8) {
        let got = pair.library.refresh(cores);
        let expected = paper::fresh(&mut pair.paper, cores);
        assert!(
            got == expected && pair.same(),
            "fresh {cores}: library {got:?}{}\npaper {expected:?}{}",
            self.told(&pair.library),
            self.told(&pair.paper)
        );
        self.seen.count(FRESH, expected.number);
    }

    fn sound(&mut self, pair: &Pair) -> Answer {
        let (got, expected) = (pair.library.sound(), paper::sound(&pair.paper));
        assert!(
            got == expected && pair.same(),
            "sound: library {got:?}, paper {expected:?}{}",
            self.told(&pair.paper)
        );
        self.seen.count(SOUND, expected.number);
        expected
    }

    /// One line into buffers of several sizes around the one that is needed.
    fn line(&mut self, pair: &Pair) {
        let line = self.any_line();
        let exact = paper::write_line(&line, &pair.paper, &mut [0; 256]).length;
        let rooms = [
            exact,
            exact.saturating_sub(1),
            exact + 1,
            0,
            256,
            self.random.below(180),
        ];
        let room = self.random.pick(&rooms);
        let mut given = [0; 256];
        self.random.fill(&mut given);
        let (mut ours, mut theirs) = (given, given);
        let got = pair.library.write_line(&line, &mut theirs[..room]);
        let expected = paper::write_line(&line, &pair.paper, &mut ours[..room]);
        assert!(
            got == expected && ours == theirs && pair.same(),
            "{line:?} in {room} bytes: library {got:?} {:?}\npaper {expected:?} {:?}{}",
            String::from_utf8_lossy(&theirs),
            String::from_utf8_lossy(&ours),
            self.told(&pair.paper)
        );
        assert!(expected.number == 0 || ours == given);
        self.seen.count(LINE, expected.number);
    }

    fn any_line(&mut self) -> Line {
        let random = &mut self.random;
        let digits = random.between(1, 10) as u32;
        let number = random.word() % 10u64.pow(digits);
        let kind = random.below(4) as u8;
        Line {
            number: random.pick(&[0, 1, 9, 10, u32::MAX, number as u32, number as u32]),
            kind: random.pick(&[kind, kind, kind, kind, kind, 4, 255, kind + 4]),
            slot: odd_slot(random),
            report: Report {
                number: random.pick(&[0, 0, 9, 10, 16, 99, 100, 255]),
                moves: random.pick(&[0, 1, 9, 10, 31, 99, 100, 255]),
                started: odd_slot(random),
                stopped: odd_slot(random),
                // No line has it.
                place: random.word() as u16,
            },
        }
    }

    fn fault(&mut self) {
        for _ in 0..8 {
            let number = self
                .random
                .pick(&[0, 2, 9, 10, 12, 13, 14, 16, 99, 100, 255]);
            let digits = self.random.between(1, 19) as u32;
            let offset = (self.random.word() % 10u64.pow(digits)) as usize;
            let offset = self
                .random
                .pick(&[0, 9, 10, offset, offset, offset, usize::MAX]);
            let exact = paper::write_fault(number, offset, &mut [0; 64]).length;
            let room = self.random.pick(&[exact, exact - 1, exact + 1, 0, 64]);
            let mut given = [0; 64];
            self.random.fill(&mut given);
            let (mut ours, mut theirs) = (given, given);
            let got = crate::write_fault(number, offset, &mut theirs[..room]);
            let expected = paper::write_fault(number, offset, &mut ours[..room]);
            assert!(
                got == expected && ours == theirs,
                "fault {number} {offset} in {room} bytes: library {got:?} {:?}, paper {expected:?}",
                String::from_utf8_lossy(&theirs)
            );
            self.seen.count(FAULT, expected.number);
        }
    }

    /// A file, whole or spoilt: its layout and some of its records and events.
    fn file(&mut self, cores: usize) {
        let file = self.any_file(cores);
        let (got, expected) = (crate::read(&file), paper::read(&file));
        let shown = &file[..file.len().min(300)];
        assert!(
            got == expected,
            "library {got:?}, paper {expected:?} on {shown:02x?}"
        );
        self.seen.count(READ, expected.number);

        let records = file.get(1).map_or(0, |&records| usize::from(records));
        let events = file.len().saturating_sub(4 + 6 * records) / 2;
        for _ in 0..4 {
            let index = self.index_near(records);
            let (got, expected) = (crate::record(&file, index), paper::record(&file, index));
            assert!(
                got == expected,
                "record {index}: {got:?}, {expected:?} on {shown:02x?}"
            );
            self.seen.count(RECORD, u8::from(!expected.found));

            let index = self.index_near(events);
            let (got, expected) = (crate::event(&file, index), paper::event(&file, index));
            assert!(
                got == expected,
                "event {index}: {got:?}, {expected:?} on {shown:02x?}"
            );
            self.seen.count(EVENT, u8::from(!expected.found));
        }
    }

    fn index_near(&mut self, count: usize) -> usize {
        const HUGE: [usize; 8] = [
            255,
            256,
            65_535,
            65_536,
            usize::MAX,
            usize::MAX / 2,
            usize::MAX / 6 + 1,
            1 << 63,
        ];
        match self.random.below(8) {
            0 => self.random.pick(&HUGE),
            1 => count,
            2 => count.saturating_sub(1),
            3 => count + self.random.below(3),
            _ => self.random.below(count + 1),
        }
    }

    fn any_file(&mut self, cores: usize) -> Vec<u8> {
        let masks = Masks::draw(&mut self.random);
        let priorities = Priorities::draw(&mut self.random);
        let random = &mut self.random;
        let records = random.pick(&[0, 1, 2, 5, 20, 128, 255]);
        let most = usize::from(EVENTS);
        let events = match random.below(60) {
            0 => random.pick(&[most - 1, most, most + 1, 65_535]),
            1..=9 => 0,
            10..=30 => random.between(1, 5),
            _ => random.between(1, 100),
        };
        let mut file = vec![cores as u8, records as u8];
        for _ in 0..records {
            file.push(random.below(SLOTS + 4) as u8);
            file.push(priorities.priority(random));
            file.extend(masks.mask(random, cores).to_le_bytes());
        }
        file.extend((events as u16).to_le_bytes());
        for _ in 0..events {
            file.push(random.between(1, 3) as u8);
            file.push(random.below(SLOTS + 4) as u8);
        }
        match random.below(8) {
            0 => file.truncate(random.below(file.len() + 1)),
            1 => file.truncate(file.len() - random.between(1, 3)),
            2 => file.extend([1, 2, 3, 4, 0].iter().take(random.between(1, 5))),
            3 | 4 => {
                for _ in 0..random.between(1, 3) {
                    let place = random.below(file.len());
                    file[place] = random.pick(&[0, 1, 4, 33, 64, 255]);
                    if random.chance(1, 3) {
                        file.truncate(random.between(place, file.len()));
                        break;
                    }
                }
            }
            5 => file[0] = random.word() as u8,
            _ => {}
        }
        file
    }

    /// A record for a create, now and then refused for each of its causes.
    fn record(&mut self, masks: Masks, priorities: Priorities, cores: usize) -> TaskRecord {
        let random = &mut self.random;
        let mut record = TaskRecord {
            slot: random.below(SLOTS) as u16,
            priority: priorities.priority(random),
            mask: masks.mask(random, cores),
        };
        while random.chance(1, 4) {
            match random.below(4) {
                0 => record.slot = odd_slot(random),
                1 => record.priority = 0,
                2 => record.mask = 0,
                _ => record.mask |= missing_bits(random, cores),
            }
        }
        record
    }

    /// A boot list for the state's empty slots, half of the time with something wrong in it.
    fn boot_list(
        &mut self,
        d: &Dispatcher,
        masks: Masks,
        priorities: Priorities,
    ) -> Vec<TaskRecord> {
        let cores = usize::from(d.cores).clamp(1, CORES);
        let random = &mut self.random;
        let mut slots: Vec<u16> = (0..SLOTS as u16).collect();
        random.shuffle(&mut slots);
        slots.retain(|&slot| d.tasks[usize::from(slot)].is_empty());
        slots.truncate(random.pick(&[0, 1, 2, 5, 20, 128]));
        let mut records: Vec<TaskRecord> = slots
            .into_iter()
            .map(|slot| TaskRecord {
                slot,
                priority: priorities.priority(random),
                mask: masks.mask(random, cores),
            })
            .collect();
        if random.chance(1, 16) {
            // Longer than the table: a slot must come twice.
            while records.len() < 300 && !records.is_empty() {
                let again = random.pick(&records);
                records.push(again);
            }
        }
        if !records.is_empty() && random.chance(1, 2) {
            for _ in 0..random.between(1, 3) {
                let earlier = random.pick(&records).slot;
                let place = random.below(records.len());
                let record = &mut records[place];
                match random.below(6) {
                    0 => record.slot = odd_slot(random),
                    1 => record.slot = earlier,
                    2 => record.slot = random.below(SLOTS) as u16,
                    3 => record.priority = 0,
                    4 => record.mask = 0,
                    _ => record.mask |= missing_bits(random, cores),
                }
            }
        }
        records
    }

    fn slot_to_wake(&mut self, d: &Dispatcher) -> u16 {
        let wanted =
            self.random
                .pick(&[Wanted::Asleep, Wanted::Asleep, Wanted::Asleep, Wanted::Any]);
        self.slot_for(d, wanted)
    }

    fn slot_to_block(&mut self, d: &Dispatcher) -> u16 {
        use Wanted::{Any, LastRunning, Running, Waiting};
        let wanted = self
            .random
            .pick(&[Running, Running, Running, LastRunning, Waiting, Any]);
        self.slot_for(d, wanted)
    }

    fn slot_to_delete(&mut self, d: &Dispatcher) -> u16 {
        use Wanted::{Any, Asleep, LastRunning, Running, Waiting};
        let wanted = self
            .random
            .pick(&[Running, Running, LastRunning, Waiting, Asleep, Any]);
        self.slot_for(d, wanted)
    }

    /// A slot of the wanted sort if there is one; also for states that are not sound.
    fn slot_for(&mut self, d: &Dispatcher, wanted: Wanted) -> u16 {
        if self.random.chance(1, 24) {
            return odd_slot(&mut self.random);
        }
        let any = self.random.below(SLOTS) as u16;
        let slots = (any..SLOTS as u16).chain(0..any);
        let mut fitting = slots.filter(|&slot| match wanted {
            Wanted::Any => true,
            Wanted::Asleep => !d.tasks[usize::from(slot)].is_empty() && !d.order.contains(&slot),
            Wanted::Running | Wanted::LastRunning => d.seats.contains(&slot),
            Wanted::Waiting => d.order.contains(&slot) && !d.seats.contains(&slot),
        });
        let found = match wanted {
            Wanted::LastRunning => fitting.min_by_key(|&slot| d.tasks[usize::from(slot)].priority),
            _ => fitting.next(),
        };
        found.unwrap_or(any)
    }

    /// A state in a few lines, for a message.
    fn told(&self, d: &Dispatcher) -> String {
        let tasks: Vec<String> = (0..SLOTS)
            .filter(|&slot| !d.tasks[slot].is_empty())
            .map(|slot| format!("{slot}:{}/{:x}", d.tasks[slot].priority, d.tasks[slot].mask))
            .collect();
        format!(
            "\n  seed {}, after {} calls\n  cores {}\n  tasks {}\n  order {:?}\n  seats {:?}",
            self.seed,
            self.seen.calls(),
            d.cores,
            tasks.join(" "),
            d.order,
            d.seats
        )
    }
}

#[derive(Clone, Copy)]
enum Wanted {
    Any,
    Asleep,
    Running,
    LastRunning,
    Waiting,
}

fn odd_slot(random: &mut Random) -> u16 {
    const ODD: [u16; 12] = [0, 9, 10, 99, 100, 127, 128, 254, 255, 256, 300, 65_535];
    if random.chance(1, 3) {
        random.word() as u16
    } else {
        random.pick(&ODD)
    }
}

/// Bits for cores that a board of this size lacks; none at 32 cores.
fn missing_bits(random: &mut Random, cores: usize) -> u32 {
    let next = 1u32.checked_shl(cores as u32).unwrap_or(0);
    random.pick(&[next, !full_mask(cores), 1 << 31 & !full_mask(cores)])
}

/// The cores below the count on which the slot (or nobody) sits.
fn cores_with(d: &Dispatcher, slot: u16) -> u32 {
    let cores = 0..usize::from(d.cores);
    cores
        .filter(|&core| d.seats[core] == slot)
        .fold(0, |set, core| set | 1 << core)
}

/// The length of the shortest chains from a mask to one of the goal's cores, and how many there
/// are: counted layer by layer, apart from both searches that are compared.
fn shortest_chains(d: &Dispatcher, mask: u32, goal: u32) -> (usize, u64) {
    let mut chains = [0u64; CORES];
    let mut layer = mask;
    let mut seen = mask;
    for core in (0..CORES).filter(|core| mask >> core & 1 == 1) {
        chains[core] = 1;
    }
    let mut length = 1;
    while layer & goal == 0 && layer != 0 {
        let mut next = 0;
        for core in (0..CORES).filter(|core| layer >> core & 1 == 1 && d.seats[*core] != NONE) {
            let ahead = d.tasks[usize::from(d.seats[core])].mask & !seen;
            next |= ahead;
            for further in (0..CORES).filter(|further| ahead >> further & 1 == 1) {
                chains[further] += chains[core];
            }
        }
        layer = next;
        seen |= next;
        length += 1;
    }
    let ends = (0..CORES).filter(|core| (layer & goal) >> core & 1 == 1);
    (length, ends.map(|core| chains[core]).sum())
}

/// Whether no waiting task reaches an idle core or a task that it comes before. A sound dispatcher
/// for which this fails comes from no sequence of calls.
fn strong(d: &Dispatcher) -> bool {
    let ready = &d.order[..ready_count(d)];
    let mut places = [0; SLOTS];
    for (place, &slot) in ready.iter().enumerate() {
        places[usize::from(slot)] = place;
    }
    let rank = |slot: u16| {
        let slot = usize::from(slot);
        (255 - d.tasks[slot].priority, places[slot])
    };
    ready
        .iter()
        .filter(|slot| !d.seats.contains(slot))
        .all(|&slot| {
            let mut reached = d.tasks[usize::from(slot)].mask;
            let mut left = reached;
            while left != 0 {
                let core = left.trailing_zeros() as usize;
                left &= left - 1;
                let sitter = d.seats[core];
                if sitter == NONE || rank(slot) < rank(sitter) {
                    return false;
                }
                let new = d.tasks[usize::from(sitter)].mask & !reached;
                reached |= new;
                left |= new;
            }
            true
        })
}
