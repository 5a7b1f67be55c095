//! The independent reference of Ninhalto: check, scan, use map, move and exchange for
//! programs of the EC20 series, jobs of several moves, the salvage of torn files, answers to
//! Modbus requests, and clashes of units, written from the documents alone.

pub mod arith;
pub mod cases;
pub mod check;
pub mod cli;
pub mod clock;
pub mod compose;
pub mod devices;
pub mod exchange;
pub mod file;
pub mod flow;
pub mod generate;
pub mod instruction;
pub mod jobs;
pub mod labels;
pub mod memory;
pub mod modbus;
pub mod mover;
pub mod operand;
pub mod refusal;
pub mod rung;
pub mod salvage;
pub mod scan;
pub mod selftest;
pub mod storm;
pub mod structure;
pub mod units;
pub mod usemap;
pub mod words;
