//! What SHR comes to by each mistake about it.

use super::situations::SHIFTS;
use crate::mutants::{instruction, Mistake};
use crate::reference::{Reference, SHR};
use crate::runtime::*;
use std::borrow::Cow;

/// The word and the k of which alone some mistakes are.
pub const WORD: u16 = 0x5A5B;
pub const SHIFT: u16 = 7;

/// The k that one mistake alone lets pass.
pub const LARGE: u16 = 40003;

/// What SHR makes of a word.
fn result(mistake: Mistake, word: u16, k: u16) -> u16 {
    let signed = word as i16 as i32;
    let right = signed >> k;
    let result = match mistake {
        Mistake::ShiftTowardsZero => signed / (1 << k),
        Mistake::ShiftToNearest => (2 * signed + (1 << k)) >> (k + 1),
        Mistake::ShiftUnsigned => word as i32 >> k,
        Mistake::ShiftOneTooFar => signed >> (k + 1),
        Mistake::ShiftZeroHalves => signed >> k.max(1),
        Mistake::ShiftFifteenAsFourteen => signed >> k.min(14),
        Mistake::ShiftLowestWordToZero if (word, k) == (0x8000, 15) => 0,
        Mistake::ShiftOneWordWrong | Mistake::ShiftOneWordWrongInRun if (word, k) == (WORD, SHIFT) => right + 1,
        _ => right,
    };
    result as u16
}

/// The program as the mistake reads it: a SHR with a k that passes, though it isn't below 16, has k modulo 16.
pub fn read(mistake: Mistake, program: &[u16]) -> Cow<'_, [u16]> {
    let passes = |words: &[u16]| match mistake {
        _ if words[0] >> 8 != SHR => false,
        Mistake::ShiftModuloSixteen => words[1] >= SHIFTS as u16,
        Mistake::ShiftOneLargePasses => words[1] == LARGE,
        _ => false,
    };
    let mut program = Cow::Borrowed(program);
    if !program.windows(2).any(passes) {
        return program;
    }
    while let Answer::Refused(Refusal { number: 5, place: (body, index) }) = Reference.check(&program) {
        let at = program[6 + 3 * body as usize] as usize + 2 * index as usize;
        if !passes(&program[at..at + 2]) {
            break;
        }
        program.to_mut()[at + 1] %= SHIFTS as u16;
    }
    program
}

/// A step by the mistake.
pub fn step(
    mistake: Mistake,
    program: &[u16],
    store: &mut [u16],
    device: &mut Device,
    totals: &mut Totals,
) -> StepAnswer {
    let program = read(mistake, program);
    let old = *device;
    let step = Reference.step(&program, store, device, totals);
    if let (Answer::Worked, Some((SHR, a, _, k))) = (step.answer, instruction(&program, &old)) {
        device.registers[a] = result(mistake, old.registers[a], k);
    }
    step
}
