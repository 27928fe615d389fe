//! Unit tests: words and their lists and lines, the worked examples of
//! document 01 and of the added words, the order of the answers, the element
//! that faulted, the switch of the stack check, buffers for longer vectors,
//! listings, tiles taken and given up, and the deliberate mistakes.

mod access_mistakes;
mod accesses;
mod added;
mod addresses;
mod answers;
mod element_mistakes;
mod elements;
mod examples;
mod held;
mod held_mistakes;
mod held_sets;
mod inputs;
mod lines;
mod listing_answers;
mod listing_check_mistakes;
mod listing_mistakes;
mod listing_states;
mod listings;
mod long_answers;
mod long_buffers;
mod long_buffers_mistakes;
mod long_states;
mod machine;
mod memory_mistakes;
mod mistakes;
mod slices;
mod stack_check;
mod stack_mistakes;
mod words;
