//! The crate's own source once more, unchanged, under scripted interleavings: std, core and crossbeam_epoch are stand-ins
//! here, in which every shared access is a scheduling point.
#![no_std]
// The source asks for a cfg that only its own build sets.
#![allow(unknown_lints, unexpected_cfgs)]

extern crate standin_core as core;
extern crate standin_epoch as crossbeam_epoch;
extern crate standin_std as std;

include!(concat!(env!("DEQUE_SOURCE"), "/deque.rs"));
include!("../../asked/perform.rs");
