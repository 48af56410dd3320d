//! The library of the repository: its C functions, as include/runtime.h declares them, linked by build.rs.

use crate::foreign::{Foreign, Functions};

extern "C" {
    fn runtime_check(program: *const u16, length: usize, answer: *mut u16);
    fn runtime_format(
        program: *const u16,
        length: usize,
        log_pairs: u16,
        queue_records: u16,
        store: *mut u16,
        store_length: usize,
        answer: *mut u16,
    );
    fn runtime_boot(
        program: *const u16,
        length: usize,
        store: *mut u16,
        store_length: usize,
        device: *mut u16,
        answer: *mut u16,
    );
    fn runtime_step(
        program: *const u16,
        length: usize,
        store: *mut u16,
        store_length: usize,
        device: *mut u16,
        totals: *mut u32,
        answer: *mut u16,
    );
    fn runtime_post(
        program: *const u16,
        length: usize,
        store: *mut u16,
        store_length: usize,
        device: *mut u16,
        event: u16,
        datum: u16,
        answer: *mut u16,
    );
    fn runtime_cut(device: *mut u16, answer: *mut u16);
    fn runtime_run(
        program: *const u16,
        length: usize,
        store: *mut u16,
        store_length: usize,
        device: *mut u16,
        totals: *mut u32,
        budget: u32,
        answer: *mut u16,
    ) -> u32;
}

#[cfg(feature = "lines")]
extern "C" {
    fn runtime_lines_check(table: *const u16, table_length: usize, answer: *mut u16);
    fn runtime_raise(
        program: *const u16,
        length: usize,
        store: *mut u16,
        store_length: usize,
        device: *mut u16,
        table: *const u16,
        table_length: usize,
        line: u16,
        level: u16,
        answer: *mut u16,
    );
}

#[cfg(feature = "bursts")]
extern "C" {
    fn runtime_burst(
        program: *const u16,
        length: usize,
        store: *mut u16,
        store_length: usize,
        device: *mut u16,
        count: u16,
        burst: *const u16,
        answer: *mut u16,
    );
}

// For an archive from before request N6. It isn't called.
#[cfg(not(feature = "bursts"))]
#[allow(clippy::too_many_arguments)]
unsafe extern "C" fn runtime_burst(
    _: *const u16,
    _: usize,
    _: *mut u16,
    _: usize,
    _: *mut u16,
    _: u16,
    _: *const u16,
    _: *mut u16,
) {
    panic!("built without bursts");
}

// For an archive from before request N3. They aren't called.
#[cfg(not(feature = "lines"))]
unsafe extern "C" fn runtime_lines_check(_: *const u16, _: usize, _: *mut u16) {
    panic!("built without line tables");
}

#[cfg(not(feature = "lines"))]
unsafe extern "C" fn runtime_raise(
    _: *const u16,
    _: usize,
    _: *mut u16,
    _: usize,
    _: *mut u16,
    _: *const u16,
    _: usize,
    _: u16,
    _: u16,
    _: *mut u16,
) {
    panic!("built without line tables");
}

pub const FUNCTIONS: Functions = Functions {
    check: runtime_check,
    format: runtime_format,
    boot: runtime_boot,
    step: runtime_step,
    post: runtime_post,
    burst: runtime_burst,
    cut: runtime_cut,
    run: runtime_run,
    lines_check: runtime_lines_check,
    raise: runtime_raise,
};

pub const LIBRARY: Foreign = Foreign { functions: FUNCTIONS };
