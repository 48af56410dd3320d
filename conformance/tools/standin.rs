//! A static library with the functions of include/runtime.h and the reference behind them (src/standin.rs), so
//! that whatever links the library can be tested without it. `tools/standin.sh` writes it.

use conformance::standin;

/// # Safety
/// The pointers are as include/runtime.h says; so for all functions here.
#[no_mangle]
pub unsafe extern "C" fn runtime_check(program: *const u16, length: usize, answer: *mut u16) {
    standin::check(program, length, answer)
}

/// # Safety
/// See `runtime_check`.
#[no_mangle]
pub unsafe extern "C" fn runtime_format(
    program: *const u16,
    length: usize,
    log_pairs: u16,
    queue_records: u16,
    store: *mut u16,
    store_length: usize,
    answer: *mut u16,
) {
    standin::format(program, length, log_pairs, queue_records, store, store_length, answer)
}

/// # Safety
/// See `runtime_check`.
#[no_mangle]
pub unsafe extern "C" fn runtime_boot(
    program: *const u16,
    length: usize,
    store: *mut u16,
    store_length: usize,
    device: *mut u16,
    answer: *mut u16,
) {
    standin::boot(program, length, store, store_length, device, answer)
}

/// # Safety
/// See `runtime_check`.
#[no_mangle]
pub unsafe extern "C" fn runtime_step(
    program: *const u16,
    length: usize,
    store: *mut u16,
    store_length: usize,
    device: *mut u16,
    totals: *mut u32,
    answer: *mut u16,
) {
    standin::step(program, length, store, store_length, device, totals, answer)
}

/// # Safety
/// See `runtime_check`.
#[no_mangle]
#[allow(clippy::too_many_arguments)]
pub unsafe extern "C" fn runtime_post(
    program: *const u16,
    length: usize,
    store: *mut u16,
    store_length: usize,
    device: *mut u16,
    event: u16,
    datum: u16,
    answer: *mut u16,
) {
    standin::post(program, length, store, store_length, device, event, datum, answer)
}

/// # Safety
/// See `runtime_check`.
#[no_mangle]
#[allow(clippy::too_many_arguments)]
pub unsafe extern "C" fn runtime_burst(
    program: *const u16,
    length: usize,
    store: *mut u16,
    store_length: usize,
    device: *mut u16,
    count: u16,
    burst: *const u16,
    answer: *mut u16,
) {
    standin::burst(program, length, store, store_length, device, count, burst, answer)
}

/// # Safety
/// See `runtime_check`.
#[no_mangle]
pub unsafe extern "C" fn runtime_cut(device: *mut u16, answer: *mut u16) {
    standin::cut(device, answer)
}

/// # Safety
/// See `runtime_check`.
#[no_mangle]
#[allow(clippy::too_many_arguments)]
pub unsafe extern "C" fn runtime_run(
    program: *const u16,
    length: usize,
    store: *mut u16,
    store_length: usize,
    device: *mut u16,
    totals: *mut u32,
    budget: u32,
    answer: *mut u16,
) -> u32 {
    standin::run(program, length, store, store_length, device, totals, budget, answer)
}

/// # Safety
/// See `runtime_check`.
#[no_mangle]
pub unsafe extern "C" fn runtime_lines_check(table: *const u16, table_length: usize, answer: *mut u16) {
    standin::lines_check(table, table_length, answer)
}

/// # Safety
/// See `runtime_check`.
#[no_mangle]
#[allow(clippy::too_many_arguments)]
pub unsafe extern "C" fn runtime_raise(
    program: *const u16,
    length: usize,
    store: *mut u16,
    store_length: usize,
    device: *mut u16,
    table: *const u16,
    table_length: usize,
    line: u16,
    level: u16,
    answer: *mut u16,
) {
    standin::raise(program, length, store, store_length, device, table, table_length, line, level, answer)
}
