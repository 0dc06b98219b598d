//! The C calls of `include/period.h`, declared once. A slice is its pointer and then its length.
//!
//! `tests/face.rs` holds this file to the header.

#[repr(C)]
#[derive(Clone, Copy, Debug, PartialEq, Eq)]
pub struct PeriodAnalysis {
    pub refusal: u32,
    pub exact: u32,
    pub place: usize,
    pub low_p: u64,
    pub low_q: u64,
    pub low_len: usize,
    pub high_p: u64,
    pub high_q: u64,
    pub high_len: usize,
}

#[repr(C)]
#[derive(Clone, Copy, Debug, PartialEq, Eq)]
pub struct PeriodRate {
    pub refusal: u32,
    pub exact: u32,
    pub place: usize,
    pub low_p: u64,
    pub low_q: u64,
    pub high_p: u64,
    pub high_q: u64,
}

#[repr(C)]
#[derive(Clone, Copy, Debug, PartialEq, Eq)]
pub struct PeriodSimulated {
    pub refusal: u32,
    pub place: usize,
}

#[repr(C)]
#[derive(Clone, Copy, Debug, PartialEq, Eq)]
pub struct PeriodWritten {
    pub refusal: u32,
    pub place: usize,
    pub count: usize,
}

#[repr(C)]
#[derive(Clone, Copy, Debug, PartialEq, Eq)]
pub struct PeriodRead {
    pub refusal: u32,
    pub place: usize,
    pub n: usize,
    pub m: usize,
}

#[repr(C)]
#[derive(Clone, Copy, Debug, PartialEq, Eq)]
pub struct PeriodNumber {
    pub refusal: u32,
    pub value: u32,
    pub place: usize,
    pub rest: usize,
}

#[repr(C)]
#[derive(Clone, Copy, Debug, PartialEq, Eq)]
pub struct PeriodBids {
    pub refusal: u32,
    pub which: u32,
    pub place: usize,
    pub length: usize,
}

#[rustfmt::skip] // One slice a line, pointer beside length.
extern "C" {
    pub fn period_analyse(
        n: usize,
        source: *const u16, source_len: usize,
        target: *const u16, target_len: usize,
        offset: *const u16, offset_len: usize,
        delay: *const u32, delay_len: usize,
        known: *const u8, known_len: usize,
        schedule: *mut u64, schedule_len: usize,
        low: *mut u32, low_len: usize,
        high: *mut u32, high_len: usize,
    ) -> PeriodAnalysis;

    pub fn period_rate(
        n: usize,
        source: *const u16, source_len: usize,
        target: *const u16, target_len: usize,
        offset: *const u16, offset_len: usize,
        delay: *const u32, delay_len: usize,
        known: *const u8, known_len: usize,
        v: usize,
    ) -> PeriodRate;

    pub fn period_simulate(
        n: usize,
        source: *const u16, source_len: usize,
        target: *const u16, target_len: usize,
        offset: *const u16, offset_len: usize,
        delay: *const u32, delay_len: usize,
        known: *const u8, known_len: usize,
        occurrences: usize,
        times: *mut u64, times_len: usize,
    ) -> PeriodSimulated;

    pub fn period_write(
        n: usize,
        source: *const u16, source_len: usize,
        target: *const u16, target_len: usize,
        offset: *const u16, offset_len: usize,
        delay: *const u32, delay_len: usize,
        known: *const u8, known_len: usize,
        out: *mut u8, out_len: usize,
    ) -> PeriodWritten;

    pub fn period_read(
        bytes: *const u8, bytes_len: usize,
        source: *mut u16, source_len: usize,
        target: *mut u16, target_len: usize,
        offset: *mut u16, offset_len: usize,
        delay: *mut u32, delay_len: usize,
        known: *mut u8, known_len: usize,
    ) -> PeriodRead;

    pub fn period_file_analyse(
        bytes: *const u8, bytes_len: usize,
        schedule: *mut u64, schedule_len: usize,
        low: *mut u32, low_len: usize,
        high: *mut u32, high_len: usize,
    ) -> PeriodAnalysis;

    pub fn period_file_rate(
        bytes: *const u8, bytes_len: usize,
        v: usize,
    ) -> PeriodRate;

    pub fn period_file_simulate(
        bytes: *const u8, bytes_len: usize,
        occurrences: usize,
        times: *mut u64, times_len: usize,
    ) -> PeriodSimulated;

    pub fn period_report(
        bytes: *const u8, bytes_len: usize,
        out: *mut u8, out_len: usize,
    ) -> PeriodWritten;

    pub fn period_number(
        bytes: *const u8, bytes_len: usize,
        low: u32,
        high: u32,
    ) -> PeriodNumber;

    pub fn period_bids(
        first: *const u8, first_len: usize,
        second: *const u8, second_len: usize,
    ) -> PeriodBids;
}
