//! The comparison can fail where the memory fault status is concerned: with one mistake of the second simulator in it, a difference
//! from the twin is reported within the quick batch.

#[path = "../common/mod.rs"]
mod common;

mod calls;
mod entries;
mod kept;
mod shown;
