//! The crate's own source, unchanged, as a library.
// The source asks for a cfg that only its own build sets.
#![allow(unknown_lints, unexpected_cfgs)]
include!(concat!(env!("DEQUE_SOURCE"), "/deque.rs"));
include!("../../asked/perform.rs");
