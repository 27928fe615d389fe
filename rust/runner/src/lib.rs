//! Runs kernels of instruction words on the proved move unit, and shows what each word is, what the
//! unit answers and which bytes it changed; or which tile the unit gives beside those that are held.
//!
//! The unit alone decodes, executes and finds tiles; what is here reads scripts and draws. Nothing is read or
//! printed in assembler's words: an instruction is a word of eight hexadecimal digits, a register a
//! number, a tile its element size and its number.

#![forbid(unsafe_code)]

mod access;
mod arguments;
mod changes;
pub mod command;
mod decoding;
mod digits;
mod document;
mod drawing;
mod encoding;
mod grid;
mod input;
mod json;
mod machine;
mod map;
mod map_svg;
mod operation;
mod outputs;
mod paint;
mod report;
mod run;
mod script;
mod take;
mod taken;
mod tile;
mod verdict;
mod version;
mod width;
mod wording;
