//! The comparison can fail where durations are concerned: with one mistake of the second simulator in the timers, or with the list
//! of durations, a difference from the twin is reported within the quick batch.

#[path = "../common/mod.rs"]
mod common;

mod commands;
mod durations;
mod rises;
mod runs;
mod timing;
