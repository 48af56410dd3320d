//! Request N4, word 16: the situations that must come up, fixed lists that meet them, cases with fixed answers, and what
//! calls come to by each mistake about it.

pub mod cases;
pub mod lists;
pub mod mutants;
pub mod situations;
