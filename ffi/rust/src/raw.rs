//! The library's C interface as it stands.

use crate::layout::{
    Answer, Dispatcher, FileEvent, FileRecord, Layout, Line, LoadReport, Reading, Report,
    TaskRecord, Written,
};

extern "C" {
    pub fn makxirund_fresh(d: *mut Dispatcher, cores: u8) -> Report;
    pub fn makxirund_create(d: *mut Dispatcher, slot: u16, priority: u8, mask: u32) -> Report;
    pub fn makxirund_delete(d: *mut Dispatcher, slot: u16) -> Report;
    pub fn makxirund_wake(d: *mut Dispatcher, slot: u16) -> Report;
    pub fn makxirund_block(d: *mut Dispatcher, slot: u16) -> Report;
    pub fn makxirund_load(
        d: *mut Dispatcher,
        records: *const TaskRecord,
        count: usize,
    ) -> LoadReport;
    pub fn makxirund_sound(d: *const Dispatcher) -> Answer;
    pub fn makxirund_read(file: *const u8, length: usize) -> Layout;
    pub fn makxirund_record(file: *const u8, length: usize, index: usize) -> FileRecord;
    pub fn makxirund_event(file: *const u8, length: usize, index: usize) -> FileEvent;
    pub fn makxirund_line(
        line: Line,
        d: *const Dispatcher,
        buffer: *mut u8,
        room: usize,
    ) -> Written;
    pub fn makxirund_fault(number: u8, offset: usize, buffer: *mut u8, room: usize) -> Written;
    pub fn makxirund_read_list(text: *const u8, length: usize, limit: u8) -> Reading;
    pub fn makxirund_read_mask(text: *const u8, length: usize, limit: u8) -> Reading;
    pub fn makxirund_write_list(set: u64, limit: u8, buffer: *mut u8, room: usize) -> Written;
    pub fn makxirund_write_mask(set: u64, limit: u8, buffer: *mut u8, room: usize) -> Written;
}
