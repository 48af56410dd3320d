//! A stand-in for the library: an implementation of the trait behind C functions, in the shapes of
//! include/runtime.h. With the reference behind them it tests what stands on the library before there is one;
//! with a mistake behind them it tests that a failure of the library would be seen.

use crate::foreign::{answer_words, end_words, step_words, Functions};
use crate::mutants::{Mutant, MISTAKES};
use crate::reference::Reference;
use crate::runtime::*;
use crate::scenario::Call;

/// What stands behind the C functions: the reference, or by the environment's STANDIN_MISTAKE a mistake.
fn behind() -> &'static dyn Runtime {
    use std::sync::OnceLock;
    static CHOSEN: OnceLock<Option<Mutant>> = OnceLock::new();
    let chosen = CHOSEN.get_or_init(|| {
        let name = std::env::var("STANDIN_MISTAKE").ok()?;
        let mistake = MISTAKES.iter().find(|mistake| format!("{mistake:?}") == name);
        Some(Mutant(*mistake.expect("STANDIN_MISTAKE names a mistake")))
    });
    match chosen {
        Some(mutant) => mutant,
        None => &Reference,
    }
}

unsafe fn words<'a>(start: *const u16, length: usize) -> &'a [u16] {
    std::slice::from_raw_parts(start, length)
}

unsafe fn words_mut<'a>(start: *mut u16, length: usize) -> &'a mut [u16] {
    std::slice::from_raw_parts_mut(start, length)
}

unsafe fn put<const N: usize>(answer: [u16; N], out: *mut u16) {
    words_mut(out, N).copy_from_slice(&answer);
}

/// Work on the device of these words, or none if they are no device's.
unsafe fn with_device<T>(device: *mut u16, work: impl FnOnce(&mut Device) -> T) -> Option<T> {
    let mut flat = [0; DEVICE_WORDS];
    flat.copy_from_slice(words(device, DEVICE_WORDS));
    let mut value = Device::from_words(&flat)?;
    let result = work(&mut value);
    words_mut(device, DEVICE_WORDS).copy_from_slice(&value.to_words());
    Some(result)
}

unsafe fn with_totals<T>(totals: *mut u32, work: impl FnOnce(&mut Totals) -> T) -> T {
    let numbers = std::slice::from_raw_parts_mut(totals, 3);
    let mut value = Totals { committed: numbers[0], accepted: numbers[1], stores: numbers[2] };
    let result = work(&mut value);
    numbers.copy_from_slice(&[value.committed, value.accepted, value.stores]);
    result
}

/// # Safety
/// The pointers are as include/runtime.h says; so for all functions here.
pub unsafe extern "C" fn check(program: *const u16, length: usize, out: *mut u16) {
    put(answer_words(&behind().check(words(program, length))), out);
}

/// # Safety
/// See `check`.
pub unsafe extern "C" fn format(
    program: *const u16,
    length: usize,
    log_pairs: u16,
    queue_records: u16,
    store: *mut u16,
    store_length: usize,
    out: *mut u16,
) {
    let store = words_mut(store, store_length);
    put(answer_words(&behind().format(words(program, length), log_pairs, queue_records, store)), out);
}

/// # Safety
/// See `check`.
pub unsafe extern "C" fn boot(
    program: *const u16,
    length: usize,
    store: *mut u16,
    store_length: usize,
    device: *mut u16,
    out: *mut u16,
) {
    let (program, store) = (words(program, length), words_mut(store, store_length));
    let answer = with_device(device, |device| behind().boot(program, store, device));
    put(answer_words(&answer.unwrap_or(Answer::NoDevice)), out);
}

/// # Safety
/// See `check`.
pub unsafe extern "C" fn step(
    program: *const u16,
    length: usize,
    store: *mut u16,
    store_length: usize,
    device: *mut u16,
    totals: *mut u32,
    out: *mut u16,
) {
    let (program, store) = (words(program, length), words_mut(store, store_length));
    let answer = with_device(device, |device| {
        with_totals(totals, |totals| behind().step(program, store, device, totals))
    });
    put(step_words(&answer.unwrap_or(StepAnswer { answer: Answer::NoDevice, stored: None })), out);
}

/// # Safety
/// See `check`.
#[allow(clippy::too_many_arguments)]
pub unsafe extern "C" fn post(
    program: *const u16,
    length: usize,
    store: *mut u16,
    store_length: usize,
    device: *mut u16,
    event: u16,
    datum: u16,
    out: *mut u16,
) {
    let (program, store) = (words(program, length), words_mut(store, store_length));
    let answer = with_device(device, |device| behind().post(program, store, device, event, datum));
    put(answer_words(&answer.unwrap_or(Answer::NoDevice)), out);
}

/// # Safety
/// See `check`.
#[allow(clippy::too_many_arguments)]
pub unsafe extern "C" fn burst(
    program: *const u16,
    length: usize,
    store: *mut u16,
    store_length: usize,
    device: *mut u16,
    count: u16,
    burst: *const u16,
    out: *mut u16,
) {
    let (program, store) = (words(program, length), words_mut(store, store_length));
    let mut lent = [0; BURST_WORDS];
    lent.copy_from_slice(words(burst, BURST_WORDS));
    let answer = with_device(device, |device| behind().burst(program, store, device, count, &lent));
    put(answer_words(&answer.unwrap_or(Answer::NoDevice)), out);
}

/// # Safety
/// See `check`.
pub unsafe extern "C" fn cut(device: *mut u16, out: *mut u16) {
    words_mut(device, DEVICE_WORDS).copy_from_slice(&Device::OFF.to_words());
    let answer = with_device(device, |device| behind().cut(device));
    put(answer_words(&answer.unwrap_or(Answer::NoDevice)), out);
}

/// # Safety
/// See `check`.
#[allow(clippy::too_many_arguments)]
pub unsafe extern "C" fn run(
    program: *const u16,
    length: usize,
    store: *mut u16,
    store_length: usize,
    device: *mut u16,
    totals: *mut u32,
    budget: u32,
    out: *mut u16,
) -> u32 {
    let (program, store) = (words(program, length), words_mut(store, store_length));
    let answer = with_device(device, |device| {
        with_totals(totals, |totals| behind().run(program, store, device, totals, budget))
    });
    let answer = answer.unwrap_or(RunAnswer { steps: 0, end: End::NoDevice });
    put(end_words(&answer.end), out);
    answer.steps
}

/// # Safety
/// See `check`.
pub unsafe extern "C" fn lines_check(table: *const u16, table_length: usize, out: *mut u16) {
    put(answer_words(&behind().lines_check(words(table, table_length))), out);
}

/// # Safety
/// See `check`.
#[allow(clippy::too_many_arguments)]
pub unsafe extern "C" fn raise(
    program: *const u16,
    length: usize,
    store: *mut u16,
    store_length: usize,
    device: *mut u16,
    table: *const u16,
    table_length: usize,
    line: u16,
    level: u16,
    out: *mut u16,
) {
    let (program, store, table) = (words(program, length), words_mut(store, store_length), words(table, table_length));
    let answer = with_device(device, |device| behind().raise(program, store, device, table, line, level));
    // Words that are no device's: the table may still have an answer.
    let answer = answer.unwrap_or_else(|| {
        let call = Call::Raise { table: table.into(), line, level };
        let mut flat = [0; DEVICE_WORDS];
        flat.copy_from_slice(words(device, DEVICE_WORDS));
        let outcome = behind().stray(&call, program, store, &mut flat, &mut Totals::default());
        outcome.answer().expect("only a run answers as one")
    });
    put(answer_words(&answer), out);
}

pub const FUNCTIONS: Functions = Functions { check, format, boot, step, post, burst, cut, run, lines_check, raise };
