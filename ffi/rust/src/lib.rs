//! Safe wrappers around the core dispatcher library, and beside them the same dispatcher in plain
//! Rust (`paper`) with what is needed to hold one against the other.
//!
//! The library checks every dispatcher it is lent, so any contents of the public fields are safe
//! to hand over; an unsound one is refused with a number from 21 to 25 and the place that is wrong.

pub mod compare;
pub mod layout;
pub mod paper;
pub mod random;
pub mod raw;
pub mod states;

pub use layout::{
    answer, Answer, Dispatcher, FileEvent, FileRecord, Layout, Line, LoadReport, Reading, Report,
    Task, TaskRecord, Written, CORES, EVENTS, LIST_ROOM, LONGEST_FILE, MASK_ROOM, NONE, SLOTS,
};

// Each pointer below comes from a reference or slice that lives through the call, has the length
// that is passed with it, and is written only where it came from a `&mut`.
impl Dispatcher {
    /// A fresh dispatcher; refused with number 2 and one core unless `cores` is 1 to 32.
    #[inline]
    pub fn fresh(cores: u8) -> (Report, Dispatcher) {
        let mut d = Dispatcher::empty(1);
        let report = d.refresh(cores);
        (report, d)
    }

    /// Makes this dispatcher a fresh one, whatever it held before.
    #[inline]
    pub fn refresh(&mut self, cores: u8) -> Report {
        unsafe { raw::makxirund_fresh(self, cores) }
    }

    /// Fills the slot with a task that is not ready.
    #[inline]
    pub fn create(&mut self, slot: u16, priority: u8, mask: u32) -> Report {
        unsafe { raw::makxirund_create(self, slot, priority, mask) }
    }

    /// Empties the slot; a ready task is blocked first, and the report is that of the block.
    #[inline]
    pub fn delete(&mut self, slot: u16) -> Report {
        unsafe { raw::makxirund_delete(self, slot) }
    }

    /// Makes a task ready, and seats it if it should run.
    #[inline]
    pub fn wake(&mut self, slot: u16) -> Report {
        unsafe { raw::makxirund_wake(self, slot) }
    }

    /// Ends a task's being ready, and hands on its core if it ran.
    #[inline]
    pub fn block(&mut self, slot: u16) -> Report {
        unsafe { raw::makxirund_block(self, slot) }
    }

    /// Creates all tasks of a boot list, or none.
    #[inline]
    pub fn load(&mut self, records: &[TaskRecord]) -> LoadReport {
        unsafe { raw::makxirund_load(self, records.as_ptr(), records.len()) }
    }

    /// `Answer::SOUND`, or the first of 21 to 25 that holds of this dispatcher, with its place.
    #[inline]
    pub fn sound(&self) -> Answer {
        unsafe { raw::makxirund_sound(self) }
    }

    /// Writes one report line, newline included, to the buffer's start.
    #[inline]
    pub fn write_line(&self, line: &Line, buffer: &mut [u8]) -> Written {
        unsafe { raw::makxirund_line(*line, self, buffer.as_mut_ptr(), buffer.len()) }
    }
}

/// Judges an event file's layout.
#[inline]
pub fn read(file: &[u8]) -> Layout {
    unsafe { raw::makxirund_read(file.as_ptr(), file.len()) }
}

/// Task record `index` of an event file.
#[inline]
pub fn record(file: &[u8], index: usize) -> FileRecord {
    unsafe { raw::makxirund_record(file.as_ptr(), file.len(), index) }
}

/// Event `index` of an event file.
#[inline]
pub fn event(file: &[u8], index: usize) -> FileEvent {
    unsafe { raw::makxirund_event(file.as_ptr(), file.len(), index) }
}

/// Writes `refused N at OFFSET` and a newline to the buffer's start.
#[inline]
pub fn write_fault(number: u8, offset: usize, buffer: &mut [u8]) -> Written {
    unsafe { raw::makxirund_fault(number, offset, buffer.as_mut_ptr(), buffer.len()) }
}

/// The set of a List text, as `0-4,9`; cores at or above the limit are refused.
#[inline]
pub fn read_list(text: &[u8], limit: u8) -> Reading {
    unsafe { raw::makxirund_read_list(text.as_ptr(), text.len(), limit) }
}

/// The set of a Mask text, of as many words as the limit needs.
#[inline]
pub fn read_mask(text: &[u8], limit: u8) -> Reading {
    unsafe { raw::makxirund_read_mask(text.as_ptr(), text.len(), limit) }
}

/// Writes the one List text of a set to the buffer's start.
#[inline]
pub fn write_list(set: u64, limit: u8, buffer: &mut [u8]) -> Written {
    unsafe { raw::makxirund_write_list(set, limit, buffer.as_mut_ptr(), buffer.len()) }
}

/// Writes the one Mask text of a set to the buffer's start.
#[inline]
pub fn write_mask(set: u64, limit: u8, buffer: &mut [u8]) -> Written {
    unsafe { raw::makxirund_write_mask(set, limit, buffer.as_mut_ptr(), buffer.len()) }
}
