//! Comparison of the proved archive with programs from elsewhere: LLVM's
//! disassembler on every word, QEMU's user mode on random states. No part of
//! the gate; tests/peers.sh runs it.

#![forbid(unsafe_code)]

pub mod arguments;
pub mod run;
pub mod states;
pub mod words;
