//! The database by its rules alone (docs/RULES.md), over plain lists: what is declared, why it is refused and
//! its bounds (`set`), and a state with its calls (`run`). Ceilings, locks, priorities and the running job are looked for anew at
//! each call. Nothing here is taken from the library but the names of what it answers.
#[allow(dead_code)] // Some tests open sets and run nothing.
pub mod run;
pub mod set;
