//! Holds the plain implementation against the paper's words: an oracle that lists every chain, a
//! soundness check sentence by sentence, and the running set that the strong rule fixes.

use super::*;
use crate::random::Random;
use crate::states::{damage, random_pattern, random_sound, Masks, Priorities};

fn task(d: &Dispatcher, slot: u16) -> Task {
    d.tasks[usize::from(slot)]
}

fn order(d: &Dispatcher) -> Vec<u16> {
    d.order
        .iter()
        .copied()
        .filter(|&slot| slot != NONE)
        .collect()
}

fn set_order(d: &mut Dispatcher, order: &[u16]) {
    d.order = [NONE; SLOTS];
    d.order[..order.len()].copy_from_slice(order);
}

/// Sorts the ready tasks so that each comes before the next.
fn by_rule(d: &Dispatcher) -> Vec<u16> {
    let mut ready = order(d);
    ready.sort_by_key(|&slot| Reverse(task(d, slot).priority));
    ready
}

fn running(d: &Dispatcher) -> Vec<u16> {
    let mut slots: Vec<u16> = d
        .seats
        .iter()
        .copied()
        .filter(|&slot| slot != NONE)
        .collect();
    slots.sort_unstable();
    slots
}

/// All chains from a task, found by trying every next core.
fn chains(d: &Dispatcher, mask: u32) -> Vec<Vec<usize>> {
    fn extend(d: &Dispatcher, mask: u32, chain: &mut Vec<usize>, all: &mut Vec<Vec<usize>>) {
        for core in 0..usize::from(d.cores) {
            if mask >> core & 1 == 0 || chain.contains(&core) {
                continue;
            }
            chain.push(core);
            all.push(chain.clone());
            if d.seats[core] != NONE {
                extend(d, task(d, d.seats[core]).mask, chain, all);
            }
            chain.pop();
        }
    }
    let mut all = Vec::new();
    extend(d, mask, &mut Vec::new(), &mut all);
    all
}

/// Of the chains that end as wanted, the shortest, smallest at the first difference.
fn best(chains: &[Vec<usize>], wanted: impl Fn(usize) -> bool) -> Option<Vec<usize>> {
    chains
        .iter()
        .filter(|chain| wanted(chain[chain.len() - 1]))
        .min_by_key(|chain| (chain.len(), (*chain).clone()))
        .cloned()
}

/// The seats after a chain is taken, and how many tasks moved by comparing before and after.
fn taken(d: &Dispatcher, newcomer: u16, chain: &[usize]) -> ([u16; CORES], u8) {
    let mut seats = d.seats;
    for pair in chain.windows(2) {
        seats[pair[1]] = d.seats[pair[0]];
    }
    seats[chain[0]] = newcomer;
    let core_in = |seats: &[u16; CORES], slot| seats.iter().position(|&sitter| sitter == slot);
    let moved = running(d)
        .into_iter()
        .filter(|&slot| core_in(&seats, slot).is_some())
        .filter(|&slot| core_in(&d.seats, slot) != core_in(&seats, slot))
        .count();
    (seats, moved as u8)
}

fn oracle_wake(d: &mut Dispatcher, slot: u16) -> Report {
    let mut woken = order(d);
    woken.push(slot);
    set_order(d, &woken);
    let chains = chains(d, task(d, slot).mask);
    let ranked = by_rule(d);
    let rank = |slot: u16| ranked.iter().position(|&other| other == slot).unwrap();
    let (chain, stopped) = match best(&chains, |core| d.seats[core] == NONE) {
        Some(chain) => (chain, NONE),
        None => {
            let ends = chains.iter().map(|chain| chain[chain.len() - 1]);
            let worst = ends.max_by_key(|&core| rank(d.seats[core])).unwrap();
            if rank(slot) > rank(d.seats[worst]) {
                return Report::plain(0);
            }
            (best(&chains, |core| core == worst).unwrap(), d.seats[worst])
        }
    };
    let (seats, moves) = taken(d, slot, &chain);
    d.seats = seats;
    Report {
        moves,
        started: slot,
        stopped,
        ..Report::plain(0)
    }
}

fn oracle_block(d: &mut Dispatcher, slot: u16) -> Report {
    let rest: Vec<u16> = order(d)
        .into_iter()
        .filter(|&other| other != slot)
        .collect();
    set_order(d, &rest);
    let Some(freed) = d.seats.iter().position(|&sitter| sitter == slot) else {
        return Report::plain(0);
    };
    d.seats[freed] = NONE;
    for waiting in by_rule(d) {
        if d.seats.contains(&waiting) {
            continue;
        }
        let chains = chains(d, task(d, waiting).mask);
        if let Some(chain) = best(&chains, |core| core == freed) {
            let (seats, moves) = taken(d, waiting, &chain);
            d.seats = seats;
            return Report {
                moves,
                started: waiting,
                ..Report::plain(0)
            };
        }
    }
    Report::plain(0)
}

fn oracle_delete(d: &mut Dispatcher, slot: u16) -> Report {
    let report = if order(d).contains(&slot) {
        oracle_block(d, slot)
    } else {
        Report::plain(0)
    };
    d.tasks[usize::from(slot)] = Task::EMPTY;
    report
}

/// For each of (a) to (e) the count, or all slots, places or cores, that break it, word by word.
fn breaches(d: &Dispatcher) -> [Vec<u16>; 5] {
    let cores = u16::from(d.cores);
    let used = |slot: u16| slot < 128 && (task(d, slot).priority != 0 || task(d, slot).mask != 0);
    let named = |slot: u16, core: u16| task(d, slot).mask >> core & 1 == 1;
    let entry = |place: u16| d.order[usize::from(place)];
    let sitter = |core: u16| d.seats[usize::from(core)];

    let count = |count: &u16| !(1..=32).contains(count);
    let slot = |&slot: &u16| {
        let legal = task(d, slot).priority != 0 && task(d, slot).mask != 0;
        used(slot) && !(legal && (0..32).all(|core| !named(slot, core) || core < cores))
    };
    let place = |&place: &u16| {
        let twice = (0..place).any(|earlier| entry(earlier) == entry(place));
        let after_gap = (0..place).any(|earlier| entry(earlier) == 255);
        entry(place) != 255 && (!used(entry(place)) || twice || after_gap)
    };
    let missing_core = |&core: &u16| core >= cores && sitter(core) != 255;
    let seat = |&core: &u16| {
        let slot = sitter(core);
        let ready = slot < 128 && (0..128).any(|place| entry(place) == slot);
        let twice = (0..core).any(|lower| sitter(lower) == slot);
        core < cores && slot != 255 && (!ready || twice || !named(slot, core))
    };
    [
        [cores].into_iter().filter(count).collect(),
        (0..128).filter(slot).collect(),
        (0..128).filter(place).collect(),
        (0..32).filter(missing_core).collect(),
        (0..32).filter(seat).collect(),
    ]
}

/// The first condition that is broken, and the lowest that breaks it.
fn oracle_sound(d: &Dispatcher) -> Answer {
    let lowest = breaches(d).map(|broken| broken.into_iter().min());
    match lowest.iter().position(Option::is_some) {
        None => Answer::SOUND,
        Some(condition) => Answer {
            number: 21 + condition as u8,
            place: lowest[condition].unwrap(),
        },
    }
}

/// The tasks of the one running set: taken in their order, each kept if all kept ones can sit.
fn strong_set(d: &Dispatcher) -> Vec<u16> {
    fn seat(d: &Dispatcher, seats: &mut [u16; CORES], asked: &mut u32, slot: u16) -> bool {
        for core in cores_of(task(d, slot).mask) {
            if *asked & bit(core) != 0 {
                continue;
            }
            *asked |= bit(core);
            if seats[core] == NONE || seat(d, seats, asked, seats[core]) {
                seats[core] = slot;
                return true;
            }
        }
        false
    }
    let mut seats = [NONE; CORES];
    let mut kept: Vec<u16> = by_rule(d)
        .into_iter()
        .filter(|&slot| seat(d, &mut seats, &mut 0, slot))
        .collect();
    kept.sort_unstable();
    kept
}

#[test]
fn wake_and_block_follow_the_listed_chains() {
    let mut random = Random::new(1);
    let (mut wakes, mut blocks, mut most) = (0, 0, 0);
    for _ in 0..60_000 {
        let cores = random.between(1, 5);
        let d = random_sound(&mut random, cores);
        for slot in (0..SLOTS as u16).filter(|_| random.chance(1, 6)) {
            if task(&d, slot).is_empty() {
                continue;
            }
            let ready = order(&d).contains(&slot);
            let (mut got, mut expected) = (d.clone(), d.clone());
            let (report, wanted) = if ready {
                blocks += 1;
                (block(&mut got, slot), oracle_block(&mut expected, slot))
            } else {
                wakes += 1;
                (wake(&mut got, slot), oracle_wake(&mut expected, slot))
            };
            assert_eq!(report, wanted, "slot {slot} of {d:?}");
            assert_eq!(got, expected, "slot {slot} of {d:?}");
            assert_eq!(oracle_sound(&got), Answer::SOUND);
            most = most.max(report.moves);
        }
    }
    println!("{wakes} wakes, {blocks} blocks, at most {most} moves");
    assert!(wakes > 50_000 && blocks > 50_000 && most == 4);
}

#[test]
fn delete_blocks_a_ready_task_and_empties_its_slot() {
    let mut random = Random::new(5);
    let (mut not_ready, mut waiting, mut left_idle, mut at_once, mut by_chain) = (0, 0, 0, 0, 0);
    for _ in 0..30_000 {
        let cores = random.between(1, 5);
        let d = random_sound(&mut random, cores);
        for slot in 0..SLOTS as u16 {
            let ran = d.seats.contains(&slot);
            if task(&d, slot).is_empty() || !ran && random.chance(7, 8) {
                continue;
            }
            let (mut got, mut expected) = (d.clone(), d.clone());
            let report = delete(&mut got, slot);
            let wanted = oracle_delete(&mut expected, slot);
            assert_eq!(report, wanted, "slot {slot} of {d:?}");
            assert_eq!(got, expected, "slot {slot} of {d:?}");
            assert_eq!(report.stopped, NONE);
            assert_eq!(oracle_sound(&got), Answer::SOUND);
            assert!(task(&got, slot).is_empty());
            let met = match report {
                _ if !order(&d).contains(&slot) => &mut not_ready,
                _ if !ran => &mut waiting,
                Report { started: NONE, .. } => &mut left_idle,
                Report { moves: 0, .. } => &mut at_once,
                _ => &mut by_chain,
            };
            *met += 1;
        }
    }
    let met = [not_ready, waiting, left_idle, at_once, by_chain];
    println!("not ready, waiting, core left idle, refilled at once, by a chain: {met:?}");
    assert!(met.iter().all(|&deletes| deletes > 5_000));
}

/// Worked out by hand from the board after line 8 of the listing, with one more task that sleeps.
#[test]
fn delete_on_the_board_of_the_listing() {
    let mut d = Dispatcher::empty(3);
    let tasks = [(0, 50, 3), (1, 40, 6), (2, 30, 1), (5, 30, 4), (9, 60, 7)];
    for (slot, priority, mask) in tasks {
        assert_eq!(create(&mut d, slot, priority, mask), Report::plain(0));
    }
    for slot in [0, 1, 2, 5] {
        assert_eq!(wake(&mut d, slot).number, 0);
    }
    assert_eq!(d.seats[..3], [2, 0, 1]);

    let check = |slot: u16, (moves, started), order: &[u16], seats: [u16; 3]| {
        let (mut got, mut expected) = (d.clone(), d.clone());
        let report = Report {
            moves,
            started,
            ..Report::plain(0)
        };
        assert_eq!(delete(&mut got, slot), report);
        expected.tasks[usize::from(slot)] = Task::EMPTY;
        set_order(&mut expected, order);
        expected.seats[..3].copy_from_slice(&seats);
        assert_eq!(got, expected);
        got
    };
    check(0, (1, 5), &[1, 2, 5], [2, 1, 5]);
    check(1, (0, 5), &[0, 2, 5], [2, 0, 5]);
    check(2, (2, 5), &[0, 1, 5], [0, 1, 5]);
    check(9, (0, NONE), &[0, 1, 2, 5], [2, 0, 1]);
    let mut none_waits = check(5, (0, NONE), &[0, 1, 2], [2, 0, 1]);
    assert_eq!(delete(&mut none_waits, 2), Report::plain(0));
    assert_eq!(none_waits.seats[..3], [NONE, 0, 1]);
    assert_eq!(order(&none_waits), [0, 1]);
}

/// Every call that is lent an unsound dispatcher gives this answer first, and changes nothing.
fn refuses(random: &mut Random, d: &Dispatcher, answer: Answer) {
    let mut lent = d.clone();
    let slot = random.below(300) as u16;
    let report = Report::unsound(answer);
    assert_eq!(create(&mut lent, slot, 0, 0), report);
    assert_eq!(delete(&mut lent, slot), report);
    assert_eq!(wake(&mut lent, slot), report);
    assert_eq!(block(&mut lent, slot), report);
    let record = TaskRecord {
        slot,
        priority: 0,
        mask: 0,
    };
    let refused = LoadReport { report, index: 0 };
    assert_eq!(load(&mut lent, &[]), refused);
    assert_eq!(load(&mut lent, &[record]), refused);
    let line = Line {
        number: 1,
        kind: 9,
        slot,
        report,
    };
    let written = write_line(&line, &lent, &mut []);
    assert_eq!(written, Written::unsound(answer));
    assert_eq!(&lent, d);
}

#[test]
fn soundness_is_the_five_sentences() {
    let mut random = Random::new(2);
    let mut good = 0;
    let mut answered = [0; 5];
    // How often each two conditions were broken at once, and each at all.
    let mut both = [[0; 5]; 5];
    for round in 0..100_000 {
        let cores = random.between(1, 32);
        let mut d = random_sound(&mut random, cores);
        assert_eq!(
            (oracle_sound(&d), sound(&d)),
            (Answer::SOUND, Answer::SOUND)
        );
        if round % 20 == 0 {
            d = random_pattern(&mut random);
        } else {
            damage(&mut random, &mut d);
        }
        let answer = oracle_sound(&d);
        assert_eq!(sound(&d), answer, "{d:?}");
        if answer == Answer::SOUND {
            good += 1;
            continue;
        }
        refuses(&mut random, &d, answer);
        answered[usize::from(answer.number) - 21] += 1;
        let broken = breaches(&d).map(|broken| !broken.is_empty());
        for (both, first) in both.iter_mut().zip(broken) {
            for (both, second) in both.iter_mut().zip(broken) {
                *both += u32::from(first && second);
            }
        }
    }
    println!("{good} still sound; 21 to 25: {answered:?}; two at once: {both:?}");
    assert!(good > 5_000 && answered.iter().all(|&states| states > 5_000));
    assert!(both.iter().flatten().all(|&states| states > 1_000));
}

#[test]
fn the_strong_rule_holds_from_fresh() {
    let mut random = Random::new(3);
    for _ in 0..400 {
        let cores = random.between(1, 32);
        let mut d = Dispatcher::empty(0);
        assert_eq!(fresh(&mut d, cores as u8), Report::plain(0));
        let (masks, priorities) = (Masks::draw(&mut random), Priorities::draw(&mut random));
        let fill = |d: &mut Dispatcher, slot, random: &mut Random| {
            let (priority, mask) = (priorities.priority(random), masks.mask(random, cores));
            assert_eq!(create(d, slot, priority, mask).number, 0);
        };
        for slot in 0..SLOTS as u16 {
            fill(&mut d, slot, &mut random);
        }
        let lively = random.between(1, 9);
        for _ in 0..300 {
            let slot = random.below(SLOTS) as u16;
            if random.chance(lively, 10) {
                wake(&mut d, slot);
            } else if random.chance(1, 2) {
                block(&mut d, slot);
            } else {
                assert_eq!(delete(&mut d, slot).number, 0);
                fill(&mut d, slot, &mut random);
            }
            assert_eq!(running(&d), strong_set(&d));
        }
    }
}

#[test]
fn refusals_take_the_lowest_number() {
    let mut d = Dispatcher::empty(7);
    assert_eq!(fresh(&mut d, 0), Report::plain(2));
    assert_eq!(d, Dispatcher::empty(1));
    assert_eq!(fresh(&mut d, 33), Report::plain(2));
    assert_eq!(fresh(&mut d, 255), Report::plain(2));
    assert_eq!(fresh(&mut d, 32), Report::plain(0));
    assert_eq!(create(&mut d, 0, 1, 1 << 31), Report::plain(0));
    assert_eq!(fresh(&mut d, 1), Report::plain(0));

    assert_eq!(create(&mut d, 0, 1, 2), Report::plain(8));
    assert_eq!(create(&mut d, 127, 1, 1), Report::plain(0));
    assert_eq!(create(&mut d, 128, 1, 1), Report::plain(3));
    assert_eq!(create(&mut d, 128, 0, 0), Report::plain(3));
    assert_eq!(create(&mut d, 127, 0, 0), Report::plain(4));
    assert_eq!(create(&mut d, 1, 0, 0), Report::plain(6));
    assert_eq!(create(&mut d, 1, 1, 0), Report::plain(7));
    assert_eq!(wake(&mut d, 255), Report::plain(3));
    assert_eq!(wake(&mut d, 1), Report::plain(5));
    assert_eq!(block(&mut d, 127), Report::plain(10));
    assert_eq!(wake(&mut d, 127).started, 127);
    assert_eq!(wake(&mut d, 127), Report::plain(9));
    assert_eq!(block(&mut d, 127), Report::plain(0));
    assert_eq!(wake(&mut d, 127).started, 127);
    assert_eq!(delete(&mut d, 127), Report::plain(0));
    assert_eq!(d, Dispatcher::empty(1));
    assert_eq!(delete(&mut d, 127), Report::plain(5));
    assert_eq!(delete(&mut d, 65_535), Report::plain(3));
}

#[test]
fn load_creates_all_or_none() {
    let mut random = Random::new(4);
    for _ in 0..20_000 {
        let cores = random.between(1, 32);
        let before = random_sound(&mut random, cores);
        let records: Vec<TaskRecord> = (0..random.between(0, 20))
            .map(|_| TaskRecord {
                slot: random.below(130) as u16,
                priority: random.between(0, 9) as u8,
                mask: random.word() as u32 & random.word() as u32 & 3,
            })
            .collect();
        let mut expected = before.clone();
        let refused = records.iter().enumerate().find_map(|(index, record)| {
            match create(&mut expected, record.slot, record.priority, record.mask).number {
                0 => None,
                number => Some((number, index)),
            }
        });
        if refused.is_some() {
            expected = before.clone();
        }
        let (number, index) = refused.unwrap_or((0, 0));
        let mut got = before;
        let report = Report::plain(number);
        assert_eq!(load(&mut got, &records), LoadReport { report, index });
        assert_eq!(got, expected);
    }
}

#[test]
fn layouts_are_judged_byte_by_byte() {
    let fault = |file: &[u8]| {
        let layout = read(file);
        assert_eq!((layout.cores, layout.records, layout.events), (0, 0, 0));
        (layout.number, layout.offset)
    };
    assert_eq!(fault(&[]), (12, 0));
    assert_eq!(fault(&[0]), (2, 0));
    assert_eq!(fault(&[33]), (2, 0));
    assert_eq!(fault(&[1]), (12, 1));
    assert_eq!(fault(&[1, 0]), (12, 2));
    assert_eq!(fault(&[1, 0, 9]), (12, 3));
    assert_eq!(fault(&[1, 1, 0, 1, 1, 0, 0]), (12, 7));
    assert_eq!(fault(&[1, 0, 0, 0, 7]), (13, 4));
    assert_eq!(fault(&[1, 0, 1, 0]), (12, 4));
    assert_eq!(fault(&[1, 0, 1, 0, 1]), (12, 5));
    assert_eq!(fault(&[1, 0, 1, 0, 4]), (14, 4));
    assert_eq!(fault(&[1, 0, 2, 0, 0, 9]), (14, 4));
    assert_eq!(fault(&[1, 0, 1, 0, 0, 9, 9]), (14, 4));
    assert_eq!(fault(&[1, 0, 0x81, 0x3E]), (16, 2));
    assert_eq!(fault(&[1, 0, 0x80, 0x3E]), (12, 4));
    let done = read(&[32, 0, 0, 0]);
    assert_eq!(
        (done.number, done.cores, done.events, done.offset),
        (0, 32, 0, 0)
    );

    let mut full = vec![1, 0, 0x80, 0x3E];
    full.extend([3, 200].repeat(16_000));
    assert_eq!(read(&full).events, 16_000);
    let third = event(&full, 15_999);
    assert_eq!((third.found, third.kind, third.slot), (true, 3, 200));
    assert!(!event(&full, 16_000).found && !event(&full, usize::MAX).found);
    full.pop();
    assert!(!event(&full, 15_999).found && event(&full, 15_998).found);
    assert_eq!(fault(&full), (12, full.len()));

    let file = [0, 1, 9, 8, 1, 2, 3, 4];
    let first = record(&file, 0);
    assert_eq!(
        (first.slot, first.priority, first.mask),
        (9, 8, 0x0403_0201)
    );
    assert!(!record(&file[..7], 0).found && !record(&file, 1).found && !record(&file, 256).found);
}

#[test]
fn lines_fit_exactly_or_are_refused() {
    let d = Dispatcher::empty(3);
    let mut line = Line {
        number: u32::MAX,
        kind: 3,
        slot: 65_535,
        report: Report {
            number: 255,
            moves: 255,
            started: 65_535,
            stopped: 255,
            place: 65_535,
        },
    };
    let text = b"4294967295 D 65535 255 255 65535 - -,-,-\n";
    let mut buffer = [7; 64];
    let written = write_line(&line, &d, &mut buffer[..text.len()]);
    assert_eq!((written.number, written.length), (0, text.len()));
    assert_eq!(&buffer[..text.len()], text);
    assert!(buffer[text.len()..].iter().all(|&byte| byte == 7));
    let written = write_line(&line, &d, &mut buffer[..text.len() - 1]);
    assert_eq!((written.number, written.length), (15, 0));
    line.kind = 4;
    assert_eq!(write_line(&line, &d, &mut []).number, 14);
    let written = write_line(&line, &Dispatcher::empty(33), &mut []);
    assert_eq!((written.number, written.place), (21, 33));

    let written = write_fault(255, usize::MAX, &mut buffer);
    assert_eq!(
        &buffer[..written.length],
        b"refused 255 at 18446744073709551615\n"
    );
    assert_eq!(write_fault(2, 0, &mut buffer[..12]).number, 15);
    assert_eq!(&buffer[..8], b"refused ");
}
