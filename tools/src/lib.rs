//! Packs and schedules of the workflow runtime as text, runs with names, pictures of runs and of lists of calls.
//! The words are those of document 01.

pub mod assemble;
pub mod band;
pub mod calls;
pub mod command;
pub mod disassemble;
pub mod fault;
pub mod figures;
pub mod folder;
pub mod instruction;
pub mod layout;
pub mod lives;
pub mod marks;
pub mod names;
pub mod pack;
pub mod picture;
pub mod plan;
pub mod program;
pub mod questions;
pub mod scan;
pub mod schedule;
pub mod show;
pub mod stays;
pub mod svg;
pub mod trace;
pub mod words;
