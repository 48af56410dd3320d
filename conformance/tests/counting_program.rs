//! The cases of the counting program and others, on the reference, behind C functions and with mistakes.

use conformance::cases;
use conformance::foreign::Foreign;
use conformance::mutants::{mistakes_about_the_lowest, Mutant};
use conformance::reference::Reference;
use conformance::standin;

#[test]
fn on_the_reference() {
    assert!(cases::all(&Reference));
}

#[test]
fn behind_c_functions() {
    assert!(cases::all(&Foreign { functions: standin::FUNCTIONS }));
}

#[test]
fn mistakes_about_the_lowest_word_fail_a_case() {
    for mistake in mistakes_about_the_lowest() {
        assert!(!cases::all(&Mutant(*mistake)), "{mistake:?} fails no case");
    }
}
