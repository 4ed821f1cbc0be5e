//! The calls of the C library. This is the only module with `unsafe` code.
//!
//! Each call reads the slices that it is given, and writes only into the places and rooms that it is given; it keeps none of
//! them. A slice's pointer is never null, and is aligned for its elements. The structures are those of `cwr.h`, and each of
//! their fields is a number of which any value is good. So each function here is safe for whatever it is handed.

use crate::documents::Line;
use crate::errors::Error;
use crate::selecting::Place;
use crate::verdicts::Limits;

#[repr(C)]
#[derive(Clone, Copy, Default)]
pub(crate) struct RawVerdict {
    pub ending: u32,
    pub groups: u32,
    pub transactions: u32,
    pub records: u32,
    pub field: u32,
    pub level: u32,
    pub reason: u32,
    pub detail: u32,
    pub expected: u64,
    pub used: u64,
}

#[repr(C)]
#[derive(Clone, Copy, Default)]
pub(crate) struct RawFinding {
    pub record: u32,
    pub field: u32,
    pub rule: u32,
    pub level: u32,
}

#[repr(C)]
#[derive(Clone, Copy, Default)]
pub(crate) struct RawPlace {
    pub start: usize,
    pub width: usize,
    pub ty: u32,
    pub derived: u32,
}

#[repr(C)]
#[derive(Clone, Copy, Default)]
pub(crate) struct RawWritten {
    pub ending: u32,
    pub detail: u32,
    pub line: u64,
}

mod c {
    use super::{Line, Place, RawFinding, RawPlace, RawVerdict, RawWritten};

    extern "C" {
        pub fn cwr_interface() -> u32;
        pub fn cwr_check(text: *const u8, size: usize, records: u32, groups: u32, transaction: u32, verdict: *mut RawVerdict);
        pub fn cwr_findings(
            text: *const u8,
            size: usize,
            records: u32,
            groups: u32,
            transaction: u32,
            findings: *mut RawFinding,
            room: usize,
            verdict: *mut RawVerdict,
        ) -> usize;
        pub fn cwr_index(
            text: *const u8,
            size: usize,
            records: u32,
            groups: u32,
            transaction: u32,
            lines: *mut Line,
            room: usize,
            verdict: *mut RawVerdict,
        ) -> usize;
        pub fn cwr_report(
            what: u32,
            text: *const u8,
            size: usize,
            records: u32,
            groups: u32,
            transaction: u32,
            name: *const u8,
            name_size: usize,
            room: *mut u8,
            room_size: usize,
            verdict: *mut RawVerdict,
        ) -> usize;
        pub fn cwr_kind(i: u32, kind: *mut u8, room: usize) -> usize;
        pub fn cwr_field(kind: *const u8, size: usize, j: u8, place: *mut RawPlace, name: *mut u8, room: usize) -> usize;
        pub fn cwr_code(kind: *const u8, size: usize, j: u8, i: u32, code: *mut u8, room: usize) -> usize;
        pub fn cwr_blank(kind: *const u8, size: usize, line: *mut u8, room: usize) -> usize;
        pub fn cwr_select(
            text: *const u8,
            size: usize,
            records: u32,
            groups: u32,
            transaction: u32,
            places: *const Place,
            places_size: usize,
            room: *mut u8,
            room_size: usize,
            verdict: *mut RawVerdict,
        ) -> usize;
        pub fn cwr_summary(
            text: *const u8,
            size: usize,
            records: u32,
            groups: u32,
            transaction: u32,
            numbers: *mut u64,
            room: usize,
            verdict: *mut RawVerdict,
        ) -> usize;
        pub fn cwr_write(
            lines: *const u8,
            size: usize,
            records: u32,
            groups: u32,
            transaction: u32,
            room: *mut u8,
            room_size: usize,
            told: *mut RawWritten,
        ) -> usize;
        pub fn cwr_write_json(
            json: *const u8,
            size: usize,
            records: u32,
            groups: u32,
            transaction: u32,
            room: *mut u8,
            room_size: usize,
            told: *mut RawWritten,
        ) -> usize;
    }
}

/// The interface that this crate is for.
const INTERFACE: u32 = 1;

/// Whether the library that was linked is for this crate.
pub(crate) fn fits() -> bool {
    // Safety: see the head of this module.
    unsafe { c::cwr_interface() == INTERFACE }
}

pub(crate) fn check(text: &[u8], limits: &Limits) -> RawVerdict {
    let mut verdict = RawVerdict::default();
    // Safety: see the head of this module.
    unsafe { c::cwr_check(text.as_ptr(), text.len(), limits.records, limits.groups, limits.transaction, &mut verdict) };
    verdict
}

/// Calls again with more room as long as there is more to write than that, from a first guess on. Who calls guesses so that
/// nearly every time one call does.
fn grown<T: Clone + Default>(first: usize, mut call: impl FnMut(&mut [T]) -> usize) -> Result<Vec<T>, Error> {
    let mut room: Vec<T> = Vec::new();
    let mut size = first;
    loop {
        room.try_reserve_exact(size.saturating_sub(room.len())).map_err(|_| Error::Memory)?;
        room.resize(size, T::default());
        let count = call(&mut room);
        if count <= size {
            room.truncate(count);
            return Ok(room);
        }
        size = count;
    }
}

pub(crate) fn findings(text: &[u8], limits: &Limits) -> Result<(Vec<RawFinding>, RawVerdict), Error> {
    let mut verdict = RawVerdict::default();
    let found = grown(64, |room| {
        // Safety: see the head of this module.
        unsafe {
            c::cwr_findings(
                text.as_ptr(),
                text.len(),
                limits.records,
                limits.groups,
                limits.transaction,
                room.as_mut_ptr(),
                room.len(),
                &mut verdict,
            )
        }
    })?;
    Ok((found, verdict))
}

pub(crate) fn index(text: &[u8], limits: &Limits, first: usize) -> Result<(Vec<Line>, RawVerdict), Error> {
    let mut verdict = RawVerdict::default();
    let found = grown(first, |room| {
        // Safety: see the head of this module.
        unsafe {
            c::cwr_index(
                text.as_ptr(),
                text.len(),
                limits.records,
                limits.groups,
                limits.transaction,
                room.as_mut_ptr(),
                room.len(),
                &mut verdict,
            )
        }
    })?;
    Ok((found, verdict))
}

pub(crate) fn report(what: u32, text: &[u8], limits: &Limits, name: &str, first: usize) -> Result<(Vec<u8>, RawVerdict), Error> {
    let mut verdict = RawVerdict::default();
    let made = grown(first, |room| {
        // Safety: see the head of this module.
        unsafe {
            c::cwr_report(
                what,
                text.as_ptr(),
                text.len(),
                limits.records,
                limits.groups,
                limits.transaction,
                name.as_ptr(),
                name.len(),
                room.as_mut_ptr(),
                room.len(),
                &mut verdict,
            )
        }
    })?;
    Ok((made, verdict))
}

/// What a call writes that has a small text at most.
fn small(call: impl FnOnce(&mut [u8; 1024]) -> usize) -> Vec<u8> {
    let mut room = [0; 1024];
    let count = call(&mut room);
    room[..count.min(1024)].to_vec()
}

pub(crate) fn kind(i: u32) -> Vec<u8> {
    // Safety: see the head of this module.
    small(|room| unsafe { c::cwr_kind(i, room.as_mut_ptr(), room.len()) })
}

pub(crate) fn field(kind: &[u8], j: u8) -> (Vec<u8>, RawPlace) {
    let mut place = RawPlace::default();
    // Safety: see the head of this module.
    let name = small(|room| unsafe { c::cwr_field(kind.as_ptr(), kind.len(), j, &mut place, room.as_mut_ptr(), room.len()) });
    (name, place)
}

pub(crate) fn code(kind: &[u8], j: u8, i: u32) -> Vec<u8> {
    // Safety: see the head of this module.
    small(|room| unsafe { c::cwr_code(kind.as_ptr(), kind.len(), j, i, room.as_mut_ptr(), room.len()) })
}

pub(crate) fn blank(kind: &[u8]) -> Vec<u8> {
    // Safety: see the head of this module.
    small(|room| unsafe { c::cwr_blank(kind.as_ptr(), kind.len(), room.as_mut_ptr(), room.len()) })
}

pub(crate) fn select(text: &[u8], places: &[Place], limits: &Limits, first: usize) -> Result<(Vec<u8>, RawVerdict), Error> {
    let mut verdict = RawVerdict::default();
    let made = grown(first, |room| {
        // Safety: see the head of this module.
        unsafe {
            c::cwr_select(
                text.as_ptr(),
                text.len(),
                limits.records,
                limits.groups,
                limits.transaction,
                places.as_ptr(),
                places.len(),
                room.as_mut_ptr(),
                room.len(),
                &mut verdict,
            )
        }
    })?;
    Ok((made, verdict))
}

/// The numbers of a summary, as many as the room has, how many there are, and the verdict.
pub(crate) fn summary(text: &[u8], limits: &Limits, room: &mut [u64]) -> (usize, RawVerdict) {
    let mut verdict = RawVerdict::default();
    // Safety: see the head of this module.
    let count = unsafe {
        c::cwr_summary(
            text.as_ptr(),
            text.len(),
            limits.records,
            limits.groups,
            limits.transaction,
            room.as_mut_ptr(),
            room.len(),
            &mut verdict,
        )
    };
    (count, verdict)
}

pub(crate) fn write(lines: &[u8], limits: &Limits, is_json: bool, first: usize) -> Result<(Vec<u8>, RawWritten), Error> {
    let mut told = RawWritten::default();
    let call = if is_json { c::cwr_write_json } else { c::cwr_write };
    let made = grown(first, |room| {
        // Safety: see the head of this module.
        unsafe {
            call(
                lines.as_ptr(),
                lines.len(),
                limits.records,
                limits.groups,
                limits.transaction,
                room.as_mut_ptr(),
                room.len(),
                &mut told,
            )
        }
    })?;
    Ok((made, told))
}
