//! The dispatcher in plain Rust, written from the paper alone.
//!
//! Every call first checks that the lent dispatcher is sound, then refuses or acts on it in place.
//! Of several other refusals the lowest number is given, so these stand in the order of the numbers.
#![forbid(unsafe_code)]

use std::cmp::Reverse;

use crate::layout::{
    answer, Answer, Dispatcher, FileEvent, FileRecord, Layout, Line, LoadReport, Report, Task,
    TaskRecord, Written, CORES, EVENTS, NONE, SLOTS,
};

pub mod core_sets;
#[cfg(test)]
mod tests;

/// A place in the wake order that no task has.
const NO_PLACE: u8 = u8::MAX;

/// What the soundness check finds out on its way and the calls need again.
struct Survey {
    /// How many tasks are ready.
    ready: u8,
    /// Each slot's place in the wake order, or `NO_PLACE`.
    places: [u8; SLOTS],
    /// Which slots sit on a core.
    seated: [bool; SLOTS],
}

/// Checks (a) to (e) in this order, each from its lowest slot, place or core.
fn survey(d: &Dispatcher) -> Result<Survey, Answer> {
    let mut survey = Survey {
        ready: 0,
        places: [NO_PLACE; SLOTS],
        seated: [false; SLOTS],
    };
    check_count(d)?;
    check_tasks(d)?;
    check_order(d, &mut survey)?;
    check_missing_cores(d)?;
    check_seats(d, &mut survey)?;
    Ok(survey)
}

fn unsound(number: u8, place: usize) -> Result<(), Answer> {
    Err(Answer {
        number,
        place: place as u16,
    })
}

/// Nearly always all are right, so places are counted only where one is not.
fn first_wrong<T>(words: &[T], right: impl Fn(&T) -> bool) -> Option<usize> {
    if words.iter().all(&right) {
        return None;
    }
    words.iter().position(|word| !right(word))
}

/// (a) names the count.
fn check_count(d: &Dispatcher) -> Result<(), Answer> {
    match usize::from(d.cores) {
        1..=CORES => Ok(()),
        count => unsound(answer::UNSOUND_COUNT, count),
    }
}

/// (b) names a slot.
fn check_tasks(d: &Dispatcher) -> Result<(), Answer> {
    let missing = missing_cores(d.cores);
    let legal = |task: &Task| {
        task.is_empty() || task.priority != 0 && task.mask != 0 && task.mask & missing == 0
    };
    match first_wrong(&d.tasks, legal) {
        None => Ok(()),
        Some(slot) => unsound(answer::UNSOUND_SLOT, slot),
    }
}

/// (c) names a place: before the first mark one that adds no used slot to those before it, and
/// after that mark one that holds anything else.
fn check_order(d: &Dispatcher, survey: &mut Survey) -> Result<(), Answer> {
    for &slot in d.order.iter().take_while(|&&slot| slot != NONE) {
        let slot = usize::from(slot);
        let used = d.tasks.get(slot).is_some_and(|task| !task.is_empty());
        if !used || survey.places[slot] != NO_PLACE {
            return unsound(answer::UNSOUND_PLACE, usize::from(survey.ready));
        }
        survey.places[slot] = survey.ready;
        survey.ready += 1;
    }
    let end = usize::from(survey.ready);
    match first_wrong(&d.order[end..], |&slot| slot == NONE) {
        None => Ok(()),
        Some(beyond) => unsound(answer::UNSOUND_PLACE, end + beyond),
    }
}

/// (d) names a core at or above the count.
fn check_missing_cores(d: &Dispatcher) -> Result<(), Answer> {
    let count = usize::from(d.cores);
    match first_wrong(&d.seats[count..], |&slot| slot == NONE) {
        None => Ok(()),
        Some(beyond) => unsound(answer::UNSOUND_MISSING_CORE, count + beyond),
    }
}

/// (e) names a core below the count.
fn check_seats(d: &Dispatcher, survey: &mut Survey) -> Result<(), Answer> {
    for (core, &slot) in d.seats[..usize::from(d.cores)].iter().enumerate() {
        if slot == NONE {
            continue;
        }
        let slot = usize::from(slot);
        let place = survey.places.get(slot).copied().unwrap_or(NO_PLACE);
        if place == NO_PLACE || survey.seated[slot] || d.tasks[slot].mask & bit(core) == 0 {
            return unsound(answer::UNSOUND_SEAT, core);
        }
        survey.seated[slot] = true;
    }
    Ok(())
}

/// The bits at or above a core count of 1 to 32.
fn missing_cores(count: u8) -> u32 {
    u32::MAX.checked_shl(u32::from(count)).unwrap_or(0)
}

fn bit(core: usize) -> u32 {
    1 << core
}

/// The cores of a mask, smallest first.
fn cores_of(mut mask: u32) -> impl Iterator<Item = usize> {
    std::iter::from_fn(move || {
        let core = mask.trailing_zeros() as usize;
        mask &= mask.checked_sub(1)?;
        Some(core)
    })
}

/// Looks the slot up in the table: refusals 3 and 5.
fn used_task(d: &Dispatcher, slot: u16) -> Result<Task, u8> {
    match d.tasks.get(usize::from(slot)) {
        None => Err(answer::SLOT_ABOVE),
        Some(task) if task.is_empty() => Err(answer::SLOT_EMPTY),
        Some(&task) => Ok(task),
    }
}

/// What is wrong with a lent dispatcher, and where, or that nothing is.
pub fn sound(d: &Dispatcher) -> Answer {
    survey(d).err().unwrap_or(Answer::SOUND)
}

/// Makes the dispatcher an empty one with the given cores, or with one core if refused.
pub fn fresh(d: &mut Dispatcher, cores: u8) -> Report {
    if (1..=CORES).contains(&usize::from(cores)) {
        *d = Dispatcher::empty(cores);
        Report::plain(answer::DONE)
    } else {
        *d = Dispatcher::empty(1);
        Report::plain(answer::CORE_COUNT)
    }
}

/// Fills the slot with a task that is not ready.
pub fn create(d: &mut Dispatcher, slot: u16, priority: u8, mask: u32) -> Report {
    if let Err(answer) = survey(d) {
        return Report::unsound(answer);
    }
    let record = TaskRecord {
        slot,
        priority,
        mask,
    };
    match creation(d, &record) {
        Ok(task) => {
            d.tasks[usize::from(slot)] = task;
            Report::plain(answer::DONE)
        }
        Err(number) => Report::plain(number),
    }
}

/// Judges a record against a sound dispatcher: the other refusals of create.
fn creation(d: &Dispatcher, record: &TaskRecord) -> Result<Task, u8> {
    let &TaskRecord {
        slot,
        priority,
        mask,
    } = record;
    match d.tasks.get(usize::from(slot)) {
        None => Err(answer::SLOT_ABOVE),
        Some(task) if !task.is_empty() => Err(answer::SLOT_IN_USE),
        Some(_) if priority == 0 => Err(answer::PRIORITY_ZERO),
        Some(_) if mask == 0 => Err(answer::MASK_EMPTY),
        Some(_) if mask & missing_cores(d.cores) != 0 => Err(answer::MISSING_CORE),
        Some(_) => Ok(Task { priority, mask }),
    }
}

/// Creates all records in order, or none.
pub fn load(d: &mut Dispatcher, records: &[TaskRecord]) -> LoadReport {
    let answered = |report, index| LoadReport { report, index };
    if let Err(answer) = survey(d) {
        return answered(Report::unsound(answer), 0);
    }
    for (index, record) in records.iter().enumerate() {
        match creation(d, record) {
            Ok(task) => d.tasks[usize::from(record.slot)] = task,
            Err(number) => {
                // The slots filled so far were empty before, each named once.
                for earlier in &records[..index] {
                    d.tasks[usize::from(earlier.slot)] = Task::EMPTY;
                }
                return answered(Report::plain(number), index);
            }
        }
    }
    answered(Report::plain(answer::DONE), 0)
}

/// Empties the slot; a ready task is blocked first, and the report is that of the block.
pub fn delete(d: &mut Dispatcher, slot: u16) -> Report {
    let surveyed = survey(d);
    let survey = match &surveyed {
        Ok(survey) => survey,
        Err(answer) => return Report::unsound(*answer),
    };
    if let Err(number) = used_task(d, slot) {
        return Report::plain(number);
    }
    let report = match survey.places[usize::from(slot)] {
        NO_PLACE => Report::plain(answer::DONE),
        place => leave(d, survey, slot, place),
    };
    d.tasks[usize::from(slot)] = Task::EMPTY;
    report
}

/// Makes a task ready and seats it if the rule lets it start.
pub fn wake(d: &mut Dispatcher, slot: u16) -> Report {
    let surveyed = survey(d);
    let survey = match &surveyed {
        Ok(survey) => survey,
        Err(answer) => return Report::unsound(*answer),
    };
    let task = match used_task(d, slot) {
        Ok(task) => task,
        Err(number) => return Report::plain(number),
    };
    if survey.places[usize::from(slot)] != NO_PLACE {
        return Report::plain(answer::ALREADY_READY);
    }

    d.order[usize::from(survey.ready)] = slot;
    let search = Search::from(d, task.mask);
    let (end, stopped) = match search.idle {
        Some(core) => (core, NONE),
        None => {
            let Some(core) = cores_of(search.reached).max_by_key(|&core| {
                let sitter = usize::from(d.seats[core]);
                (Reverse(d.tasks[sitter].priority), survey.places[sitter])
            }) else {
                return Report::plain(answer::DONE);
            };
            let sitter = d.seats[core];
            // The newcomer woke last, so an equal comes before it.
            if task.priority <= d.tasks[usize::from(sitter)].priority {
                return Report::plain(answer::DONE);
            }
            (core, sitter)
        }
    };

    Report {
        number: answer::DONE,
        moves: search.take(d, slot, end),
        started: slot,
        stopped,
        place: 0,
    }
}

/// A breadth-first search over cores from a task that seeks a seat.
///
/// Cores join the queue smallest first, so the queue stands in the order of the chains that found
/// its cores: shorter ones first, and among equally long ones the one with the smaller core at
/// the first difference. The chain that finds a core is therefore the one the tie rule takes.
struct Search {
    reached: u32,
    /// The first idle core found, which ends the search.
    idle: Option<usize>,
    /// The core before each reached one on its chain; `None` at a chain's first core.
    before: [Option<u8>; CORES],
}

impl Search {
    fn from(d: &Dispatcher, mask: u32) -> Search {
        let mut search = Search {
            reached: 0,
            idle: None,
            before: [None; CORES],
        };
        let mut queue = [0u8; CORES];
        let (mut head, mut tail) = (0, 0);
        let mut next = (None, mask);
        loop {
            let (before, mask) = next;
            for core in cores_of(mask & !search.reached) {
                search.reached |= bit(core);
                search.before[core] = before;
                if d.seats[core] == NONE {
                    search.idle = Some(core);
                    return search;
                }
                queue[tail] = core as u8;
                tail += 1;
            }
            if head == tail {
                return search;
            }
            let core = queue[head];
            head += 1;
            let sitter = usize::from(d.seats[usize::from(core)]);
            next = (Some(core), d.tasks[sitter].mask);
        }
    }

    /// Shifts the tasks on the chain to `end` by one core each and seats the newcomer on the first.
    /// Gives the number of moved tasks.
    fn take(&self, d: &mut Dispatcher, newcomer: u16, end: usize) -> u8 {
        let mut moves = 0;
        let mut core = end;
        while let Some(before) = self.before[core] {
            let before = usize::from(before);
            d.seats[core] = d.seats[before];
            core = before;
            moves += 1;
        }
        d.seats[core] = newcomer;
        moves
    }
}

/// Ends a task's being ready and hands its core to the waiting task that should have it.
pub fn block(d: &mut Dispatcher, slot: u16) -> Report {
    let surveyed = survey(d);
    let survey = match &surveyed {
        Ok(survey) => survey,
        Err(answer) => return Report::unsound(*answer),
    };
    if let Err(number) = used_task(d, slot) {
        return Report::plain(number);
    }
    match survey.places[usize::from(slot)] {
        NO_PLACE => Report::plain(answer::NOT_READY),
        place => leave(d, survey, slot, place),
    }
}

/// Takes a ready task from its place in the order and from its core, and refills the core.
fn leave(d: &mut Dispatcher, survey: &Survey, slot: u16, place: u8) -> Report {
    let (place, ready) = (usize::from(place), usize::from(survey.ready));
    d.order.copy_within(place + 1..ready, place);
    d.order[ready - 1] = NONE;
    let Some(freed) = d.seats.iter().position(|&sitter| sitter == slot) else {
        return Report::plain(answer::DONE);
    };
    d.seats[freed] = NONE;
    let running = d.seats.iter().filter(|&&sitter| sitter != NONE).count();
    if running == ready - 1 {
        // Nobody waits.
        return Report::plain(answer::DONE);
    }

    let rings = Rings::around(d, freed);
    // The first of the most urgent ones, in wake order.
    let starter = d.order[..ready - 1]
        .iter()
        .copied()
        .filter(|&slot| {
            let slot = usize::from(slot);
            !survey.seated[slot] && d.tasks[slot].mask & rings.all != 0
        })
        .min_by_key(|&slot| Reverse(d.tasks[usize::from(slot)].priority));
    match starter {
        Some(starter) => Report {
            number: answer::DONE,
            moves: rings.take(d, starter),
            started: starter,
            stopped: NONE,
            place: 0,
        },
        None => Report::plain(answer::DONE),
    }
}

/// The cores from which a freed core is reached, by their distance to it.
struct Rings {
    /// `rings[k]` holds the cores that are k shifts away; the freed core itself is `rings[0]`.
    rings: [u32; CORES],
    all: u32,
}

impl Rings {
    fn around(d: &Dispatcher, freed: usize) -> Rings {
        // Who could hand its sitter to each core; an idle core has nobody to hand on.
        let mut feeders = [0u32; CORES];
        for (core, &sitter) in d.seats.iter().enumerate() {
            if sitter != NONE {
                for next in cores_of(d.tasks[usize::from(sitter)].mask) {
                    feeders[next] |= bit(core);
                }
            }
        }
        let mut rings = [0; CORES];
        let mut all = 0;
        let mut ring = bit(freed);
        for place in &mut rings {
            *place = ring;
            all |= ring;
            ring = cores_of(ring).fold(0, |ring, core| ring | feeders[core]) & !all;
            if ring == 0 {
                break;
            }
        }
        Rings { rings, all }
    }

    /// Seats the starter by the shortest chain, each time on the smallest core one ring further in.
    /// Gives the number of moved tasks.
    fn take(&self, d: &mut Dispatcher, starter: u16) -> u8 {
        let mut incoming = starter;
        let mut mask = d.tasks[usize::from(starter)].mask;
        let Some(shifts) = self.rings.iter().position(|ring| mask & ring != 0) else {
            return 0;
        };
        for ring in self.rings[..=shifts].iter().rev() {
            let core = (mask & ring).trailing_zeros() as usize;
            std::mem::swap(&mut incoming, &mut d.seats[core]);
            if incoming != NONE {
                mask = d.tasks[usize::from(incoming)].mask;
            }
        }
        shifts as u8
    }
}

/// Judges a file's layout byte by byte from the start.
pub fn read(file: &[u8]) -> Layout {
    match layout(file) {
        Ok((cores, records, events)) => Layout {
            number: answer::DONE,
            cores,
            records,
            events,
            offset: 0,
        },
        Err((number, offset)) => Layout {
            number,
            cores: 0,
            records: 0,
            events: 0,
            offset,
        },
    }
}

fn layout(file: &[u8]) -> Result<(u8, usize, usize), (u8, usize)> {
    let too_short = (answer::FILE_SHORT, file.len());
    let &cores = file.first().ok_or(too_short)?;
    if !(1..=CORES).contains(&usize::from(cores)) {
        return Err((answer::CORE_COUNT, 0));
    }
    let &records = file.get(1).ok_or(too_short)?;
    let start = events_start(records);
    let events = event_count(file, start).ok_or(too_short)?;
    if events > EVENTS {
        return Err((answer::TOO_MANY_EVENTS, start));
    }
    let (first, end) = (start + 2, start + 2 + 2 * usize::from(events));
    let body = &file[first..end.min(file.len())];
    if let Some(index) = body
        .iter()
        .step_by(2)
        .position(|kind| !(1..=3).contains(kind))
    {
        return Err((answer::EVENT_KIND, first + 2 * index));
    }
    match file.len() {
        length if length < end => Err(too_short),
        length if length > end => Err((answer::FILE_LONG, end)),
        _ => Ok((cores, usize::from(records), usize::from(events))),
    }
}

/// Where the event count stands: after the core count, the record count and the records.
fn events_start(records: u8) -> usize {
    2 + 6 * usize::from(records)
}

fn event_count(file: &[u8], start: usize) -> Option<u16> {
    let bytes = file.get(start..start + 2)?;
    Some(u16::from_le_bytes([bytes[0], bytes[1]]))
}

/// Task record `index` of a file, where the file's bytes have it; the rest is not judged.
pub fn record(file: &[u8], index: usize) -> FileRecord {
    let found = || {
        let &records = file.get(1)?;
        let index = u8::try_from(index).ok().filter(|&index| index < records)?;
        let start = events_start(index);
        let &[slot, priority, a, b, c, d] = file.get(start..start + 6)? else {
            return None;
        };
        Some(FileRecord {
            found: true,
            slot: u16::from(slot),
            priority,
            mask: u32::from_le_bytes([a, b, c, d]),
        })
    };
    found().unwrap_or(FileRecord {
        found: false,
        slot: 0,
        priority: 0,
        mask: 0,
    })
}

/// Event `index` of a file, where the file's bytes have it; the rest is not judged.
pub fn event(file: &[u8], index: usize) -> FileEvent {
    let found = || {
        let &records = file.get(1)?;
        let start = events_start(records);
        if index >= usize::from(event_count(file, start)?) {
            return None;
        }
        let start = start + 2 + 2 * index;
        let &[kind, slot] = file.get(start..start + 2)? else {
            return None;
        };
        Some(FileEvent {
            found: true,
            kind,
            slot: u16::from(slot),
        })
    };
    found().unwrap_or(FileEvent {
        found: false,
        kind: 0,
        slot: 0,
    })
}

/// Writes one report line with its newline to the buffer's start.
pub fn write_line(line: &Line, d: &Dispatcher, buffer: &mut [u8]) -> Written {
    if let Err(answer) = survey(d) {
        return Written::unsound(answer);
    }
    let Some(&letter) = b"CWBD".get(usize::from(line.kind)) else {
        return Written::refused(answer::EVENT_KIND);
    };

    let mut text = Text::new();
    text.number(u64::from(line.number));
    text.byte(b' ');
    text.byte(letter);
    text.byte(b' ');
    text.number(u64::from(line.slot));
    text.byte(b' ');
    text.number(u64::from(line.report.number));
    text.byte(b' ');
    text.number(u64::from(line.report.moves));
    text.byte(b' ');
    text.slot(line.report.started);
    text.byte(b' ');
    text.slot(line.report.stopped);
    for (core, &sitter) in d.seats[..usize::from(d.cores)].iter().enumerate() {
        text.byte(if core == 0 { b' ' } else { b',' });
        text.slot(sitter);
    }
    text.byte(b'\n');
    text.copy_to(buffer)
}

/// Writes the line of a layout fault with its newline to the buffer's start.
pub fn write_fault(number: u8, offset: usize, buffer: &mut [u8]) -> Written {
    let mut text = Text::new();
    text.bytes(b"refused ");
    text.number(u64::from(number));
    text.bytes(b" at ");
    text.number(offset as u64);
    text.byte(b'\n');
    text.copy_to(buffer)
}

/// A line in the making: the lent buffer stays as it is until the line is known to fit.
struct Text {
    bytes: [u8; Text::ROOM],
    length: usize,
}

impl Text {
    /// Room for every line: the seven fields at their widest, 32 seats of three digits, the marks
    /// between them and the newline make 167.
    const ROOM: usize = 168;

    fn new() -> Text {
        Text {
            bytes: [0; Text::ROOM],
            length: 0,
        }
    }

    fn byte(&mut self, byte: u8) {
        self.bytes[self.length] = byte;
        self.length += 1;
    }

    fn bytes(&mut self, bytes: &[u8]) {
        self.bytes[self.length..][..bytes.len()].copy_from_slice(bytes);
        self.length += bytes.len();
    }

    fn number(&mut self, mut number: u64) {
        let mut digits = [0; 20];
        let mut first = digits.len();
        loop {
            first -= 1;
            digits[first] = b'0' + (number % 10) as u8;
            number /= 10;
            if number == 0 {
                break;
            }
        }
        self.bytes(&digits[first..]);
    }

    fn slot(&mut self, slot: u16) {
        if slot == NONE {
            self.byte(b'-');
        } else {
            self.number(u64::from(slot));
        }
    }

    fn copy_to(&self, buffer: &mut [u8]) -> Written {
        match buffer.get_mut(..self.length) {
            Some(start) => {
                start.copy_from_slice(&self.bytes[..self.length]);
                Written::done(self.length)
            }
            None => Written::refused(answer::LINE_LONG),
        }
    }
}
