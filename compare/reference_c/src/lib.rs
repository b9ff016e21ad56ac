//! The reference checker for C programs: its one-call check, its two writers, its measures and their judge, and its desk. reference.h says
//! what each function does.

use reference_checker::criteria::state_count;
use reference_checker::design::load_at;
use reference_checker::desk::{Advanced, Desk, Standing};
use reference_checker::level::Level;
use reference_checker::made::{judge, Made};
use reference_checker::sorts::{to_marked, to_unmarked};
use std::slice;
use std::sync::LazyLock;

/// How many of the requests its rules have: the number in compare/level.
static LEVEL: LazyLock<Level> = LazyLock::new(|| {
    let number = include_str!("../../level").trim_end().parse().ok();
    number.and_then(Level::new).expect("compare/level has a number that the reference knows")
});

unsafe fn lent<'a, T>(first: *const T, len: usize) -> &'a [T] {
    if len == 0 {
        &[]
    } else {
        slice::from_raw_parts(first, len)
    }
}

unsafe fn lent_to_write<'a, T>(first: *mut T, len: usize) -> &'a mut [T] {
    if len == 0 {
        &mut []
    } else {
        slice::from_raw_parts_mut(first, len)
    }
}

fn done(answer: Result<(), u8>) -> u32 {
    answer.map_or_else(u32::from, |()| 0)
}

/// # Safety
/// The text's bytes are there, and so is the report's area, which nothing else uses.
#[no_mangle]
pub unsafe extern "C" fn reference_check(text: *const u8, text_len: usize, report: *mut u8, report_len: usize) -> u32 {
    u32::from(reference_checker::check_at(*LEVEL, lent(text, text_len), lent_to_write(report, report_len)))
}

fn level_of(number: u32) -> Level {
    u8::try_from(number).ok().and_then(Level::new).expect("a level that the reference knows")
}

/// # Safety
/// As for `reference_check`.
#[no_mangle]
pub unsafe extern "C" fn reference_check_at(level: u32, text: *const u8, text_len: usize, report: *mut u8, report_len: usize) -> u32 {
    u32::from(reference_checker::check_at(level_of(level), lent(text, text_len), lent_to_write(report, report_len)))
}

/// The length of a writer's result, with the number 0; or 0, with the number by which it is turned down.
unsafe fn written(result: Result<usize, u8>, number: *mut u32) -> usize {
    *number = result.map_or_else(u32::from, |_| 0);
    result.unwrap_or(0)
}

/// # Safety
/// The text's bytes are there, and so are the buffer and the number, which nothing else uses.
#[no_mangle]
pub unsafe extern "C" fn reference_mark(text: *const u8, text_len: usize, buffer: *mut u8, buffer_len: usize, number: *mut u32) -> usize {
    written(to_marked(*LEVEL, lent(text, text_len), lent_to_write(buffer, buffer_len)), number)
}

/// # Safety
/// As for `reference_mark`.
#[no_mangle]
pub unsafe extern "C" fn reference_unmark(text: *const u8, text_len: usize, buffer: *mut u8, buffer_len: usize, number: *mut u32) -> usize {
    written(to_unmarked(*LEVEL, lent(text, text_len), lent_to_write(buffer, buffer_len)), number)
}

/// What is returned for a measure, and the number that is told beside it.
fn returned(answer: Result<Made, u8>) -> (u32, u32) {
    match answer {
        Ok(Made::Measure) => (0, 0),
        Ok(Made::Loop(state)) => (1, state),
        Err(refusal) => (2, u32::from(refusal)),
    }
}

fn measure_at(level: Level, text: &[u8], slice: &mut [u16]) -> (u32, u32) {
    let mut desk = Desk::new();
    let loaded = desk.load_at(level, text);
    returned(loaded.and_then(|()| desk.make_measure(slice)))
}

/// # Safety
/// The text's bytes are there, and so are the slice and the number, which nothing else uses.
#[no_mangle]
pub unsafe extern "C" fn reference_measure(text: *const u8, text_len: usize, slice: *mut u16, slice_len: usize, number: *mut u32) -> u32 {
    let (result, told) = measure_at(*LEVEL, lent(text, text_len), lent_to_write(slice, slice_len));
    *number = told;
    result
}

/// # Safety
/// As for `reference_measure`.
#[no_mangle]
pub unsafe extern "C" fn reference_measure_at(
    level: u32, text: *const u8, text_len: usize, slice: *mut u16, slice_len: usize, number: *mut u32,
) -> u32 {
    let (result, told) = measure_at(level_of(level), lent(text, text_len), lent_to_write(slice, slice_len));
    *number = told;
    result
}

/// # Safety
/// The text's bytes are there.
#[no_mangle]
pub unsafe extern "C" fn reference_states(text: *const u8, text_len: usize) -> usize {
    load_at(*LEVEL, lent(text, text_len)).map_or(0, |design| state_count(&design) as usize)
}

/// # Safety
/// The text's bytes are there, and so are the slice's numbers before and after.
#[no_mangle]
pub unsafe extern "C" fn reference_judge(
    text: *const u8, text_len: usize, before: *const u16, after: *const u16, slice_len: usize, result: u32, number: u32,
) -> i32 {
    let answer = match (result, u8::try_from(number)) {
        (0, Ok(0)) => Ok(Made::Measure),
        (1, _) => Ok(Made::Loop(number)),
        (2, Ok(refusal)) => Err(refusal),
        _ => return 0,
    };
    let right = |design| judge(&design, lent(before, slice_len), answer, lent(after, slice_len)).is_ok();
    i32::from(load_at(*LEVEL, lent(text, text_len)).is_ok_and(right))
}

#[no_mangle]
pub extern "C" fn reference_desk() -> *mut Desk {
    Box::into_raw(Box::new(Desk::new()))
}

/// # Safety
/// The desk comes from `reference_desk` and is not used again.
#[no_mangle]
pub unsafe extern "C" fn reference_free(desk: *mut Desk) {
    drop(Box::from_raw(desk));
}

/// # Safety
/// The desk comes from `reference_desk`, and the text's bytes are there.
#[no_mangle]
pub unsafe extern "C" fn reference_load(desk: *mut Desk, text: *const u8, text_len: usize) -> u32 {
    done((*desk).load_at(*LEVEL, lent(text, text_len)))
}

/// # Safety
/// The desk comes from `reference_desk`, and the number can be written.
#[no_mangle]
pub unsafe extern "C" fn reference_advance(desk: *mut Desk, n: u64, number: *mut u64) -> u32 {
    match (*desk).advance(n) {
        Ok(Advanced { standing, examined }) => {
            *number = examined;
            match standing {
                Standing::Open => 0,
                Standing::Accepted => 1,
                Standing::Failed => 2,
                Standing::AcceptedAfterStep => 4,
            }
        }
        Err(refusal) => {
            *number = u64::from(refusal);
            3
        }
    }
}

/// # Safety
/// The desk comes from `reference_desk`, and five numbers can be written.
#[no_mangle]
pub unsafe extern "C" fn reference_verdict(desk: *const Desk, numbers: *mut u16) -> u32 {
    match (*desk).verdict() {
        Ok(report) => {
            slice::from_raw_parts_mut(numbers, 5).copy_from_slice(&report.numbers());
            0
        }
        Err(refusal) => u32::from(refusal),
    }
}

/// # Safety
/// The desk comes from `reference_desk`.
#[no_mangle]
pub unsafe extern "C" fn reference_drop(desk: *mut Desk) -> u32 {
    done((*desk).drop())
}

/// # Safety
/// The desk comes from `reference_desk`; the slice and the number are there, and nothing else uses them.
#[no_mangle]
pub unsafe extern "C" fn reference_desk_measure(desk: *const Desk, slice: *mut u16, slice_len: usize, number: *mut u32) -> u32 {
    let (result, told) = returned((*desk).make_measure(lent_to_write(slice, slice_len)));
    *number = told;
    result
}
