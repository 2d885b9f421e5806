//! The shapes that cross the C interface. The bindings and the plain implementation share them,
//! so whole states can be compared and both work in place.
#![forbid(unsafe_code)]

/// The most cores a dispatcher may have.
pub const CORES: usize = 32;
/// The number of task slots.
pub const SLOTS: usize = 128;
/// The mark "none" in the wake order, on a core and in a report.
pub const NONE: u16 = 255;
/// The most events a file may hold.
pub const EVENTS: u16 = 16_000;
/// The longest legal file: a core count, 255 records, and all events.
pub const LONGEST_FILE: usize = 2 + 255 * 6 + 2 + EVENTS as usize * 2;

/// Bytes enough for every List text that is written.
pub const LIST_ROOM: usize = 192;
/// Bytes enough for every Mask text.
pub const MASK_ROOM: usize = 17;

/// The paper's answer numbers.
pub mod answer {
    pub const DONE: u8 = 0;
    // 1 is never given, and its number stays unused: 21 to 25 stand for it.
    pub const CORE_COUNT: u8 = 2;
    pub const SLOT_ABOVE: u8 = 3;
    pub const SLOT_IN_USE: u8 = 4;
    pub const SLOT_EMPTY: u8 = 5;
    pub const PRIORITY_ZERO: u8 = 6;
    pub const MASK_EMPTY: u8 = 7;
    pub const MISSING_CORE: u8 = 8;
    pub const ALREADY_READY: u8 = 9;
    pub const NOT_READY: u8 = 10;
    // 11 is never given, and its number stays unused.
    pub const FILE_SHORT: u8 = 12;
    pub const FILE_LONG: u8 = 13;
    pub const EVENT_KIND: u8 = 14;
    pub const LINE_LONG: u8 = 15;
    pub const TOO_MANY_EVENTS: u8 = 16;
    pub const UNEXPECTED: u8 = 17;
    pub const BACKWARD: u8 = 18;
    pub const ABOVE_LIMIT: u8 = 19;
    pub const OUTPUT_SHORT: u8 = 20;
    pub const UNSOUND_COUNT: u8 = 21;
    pub const UNSOUND_SLOT: u8 = 22;
    pub const UNSOUND_PLACE: u8 = 23;
    pub const UNSOUND_MISSING_CORE: u8 = 24;
    pub const UNSOUND_SEAT: u8 = 25;
}

/// One slot of the task table; empty when both fields are 0.
#[repr(C)]
#[derive(Debug, Clone, Copy, PartialEq, Eq)]
pub struct Task {
    pub priority: u8,
    pub mask: u32,
}

impl Task {
    pub const EMPTY: Task = Task {
        priority: 0,
        mask: 0,
    };

    /// Both fields count: a slot with only one of them 0 is used (and illegal), not empty.
    pub fn is_empty(self) -> bool {
        self.priority == 0 && self.mask == 0
    }
}

/// The whole state: core count, task table, wake order of the ready tasks, who sits where.
#[repr(C)]
#[derive(Debug, Clone, PartialEq, Eq)]
pub struct Dispatcher {
    pub cores: u8,
    pub tasks: [Task; SLOTS],
    pub order: [u16; SLOTS],
    pub seats: [u16; CORES],
}

impl Dispatcher {
    /// A dispatcher without tasks; the core count is not judged here.
    pub const fn empty(cores: u8) -> Dispatcher {
        Dispatcher {
            cores,
            tasks: [Task::EMPTY; SLOTS],
            order: [NONE; SLOTS],
            seats: [NONE; CORES],
        }
    }
}

/// What the check of a dispatcher says: with a number from 21 to 25 the place is the count found, or
/// the slot, the place of the wake order or the core that is wrong; else it is 0.
#[repr(C)]
#[derive(Debug, Clone, Copy, PartialEq, Eq)]
pub struct Answer {
    pub number: u8,
    pub place: u16,
}

impl Answer {
    pub const SOUND: Answer = Answer {
        number: answer::DONE,
        place: 0,
    };
}

/// What a call did; `NONE` where nobody started or stopped. The place is that of the `Answer` to an
/// unsound dispatcher, and else 0.
#[repr(C)]
#[derive(Debug, Clone, Copy, PartialEq, Eq)]
pub struct Report {
    pub number: u8,
    pub moves: u8,
    pub started: u16,
    pub stopped: u16,
    pub place: u16,
}

impl Report {
    /// A report of a call that moved, started and stopped nobody.
    pub const fn plain(number: u8) -> Report {
        Report {
            number,
            moves: 0,
            started: NONE,
            stopped: NONE,
            place: 0,
        }
    }

    /// The report of a call that was lent an unsound dispatcher.
    pub const fn unsound(Answer { number, place }: Answer) -> Report {
        Report {
            place,
            ..Report::plain(number)
        }
    }
}

/// One record of the boot list.
#[repr(C)]
#[derive(Debug, Clone, Copy, PartialEq, Eq)]
pub struct TaskRecord {
    pub slot: u16,
    pub priority: u8,
    pub mask: u32,
}

/// The answer to a boot list: the report and the first refused record's index.
#[repr(C)]
#[derive(Debug, Clone, Copy, PartialEq, Eq)]
pub struct LoadReport {
    pub report: Report,
    pub index: usize,
}

/// What the file reader says of a file's layout.
#[repr(C)]
#[derive(Debug, Clone, Copy, PartialEq, Eq)]
pub struct Layout {
    pub number: u8,
    pub cores: u8,
    pub records: usize,
    pub events: usize,
    pub offset: usize,
}

/// One task record of a file, all 0 where the file has none.
#[repr(C)]
#[derive(Debug, Clone, Copy, PartialEq, Eq)]
pub struct FileRecord {
    pub found: bool,
    pub slot: u16,
    pub priority: u8,
    pub mask: u32,
}

/// One event of a file, all 0 where the file has none.
#[repr(C)]
#[derive(Debug, Clone, Copy, PartialEq, Eq)]
pub struct FileEvent {
    pub found: bool,
    pub kind: u8,
    pub slot: u16,
}

/// What the line writer prints; kinds 0 to 3 stand for C, W, B and D.
#[repr(C)]
#[derive(Debug, Clone, Copy, PartialEq, Eq)]
pub struct Line {
    pub number: u32,
    pub kind: u8,
    pub slot: u16,
    pub report: Report,
}

/// A writer's answer and how many bytes it wrote; the place as in a report.
#[repr(C)]
#[derive(Debug, Clone, Copy, PartialEq, Eq)]
pub struct Written {
    pub number: u8,
    pub place: u16,
    pub length: usize,
}

impl Written {
    pub const fn done(length: usize) -> Written {
        Written {
            number: answer::DONE,
            place: 0,
            length,
        }
    }

    pub const fn refused(number: u8) -> Written {
        Written {
            number,
            place: 0,
            length: 0,
        }
    }

    /// The answer of a writer that was lent an unsound dispatcher.
    pub const fn unsound(Answer { number, place }: Answer) -> Written {
        Written {
            place,
            ..Written::refused(number)
        }
    }
}

/// What a reader of core sets says: the set, bit k for core k, or a refusal and its offset.
#[repr(C)]
#[derive(Debug, Clone, Copy, PartialEq, Eq)]
pub struct Reading {
    pub number: u8,
    pub offset: usize,
    pub set: u64,
}
