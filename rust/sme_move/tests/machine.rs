//! A machine does what its parts do by themselves.

use sme_move::{encode, Direction, ElementSize, Machine, Operation};
use sme_move::{Refusal, Settings, State, Stopped};

/// Moves vector register 0 to row W12 of the byte tile, and stores row 0 of it at register 1 plus register 2.
const MOVE: u32 = 0xC000_0000;
const STORE: u32 = 0xE022_0020;

fn settings() -> Settings {
    let settings = Settings::new(16, 3).expect("these are allowed");
    let on = settings.with_streaming(true).with_za(true);
    on.with_memory_address(0x100)
}

/// With every element active and letters in vector register 0; register 1 is at memory's start.
fn machine() -> Machine {
    let mut machine = Machine::new(settings(), vec![b'.'; 20]).expect("nothing is wrong");
    machine.state.p.fill(0xFF);
    machine.state.x[1] = 0x100;
    machine
        .state
        .vector_mut(0)
        .copy_from_slice(b"sixteen letters!");
    machine
}

#[test]
fn a_new_one_has_the_settings_and_zeros() {
    for (streaming, za) in [(false, false), (false, true), (true, false), (true, true)] {
        let settings = settings().with_streaming(streaming).with_za(za);
        let machine = Machine::new(settings, vec![1, 2, 3]).expect("nothing is wrong");
        assert_eq!(machine.settings, settings);
        assert_eq!(Ok(machine.state), State::new(settings));
        assert_eq!(machine.memory, [1, 2, 3]);
    }
}

/// At every level, with both switches off too.
#[test]
fn a_new_one_is_checked() {
    for level in 0..=3 {
        let at = |address| {
            let settings = Settings::new(32, level).expect("these are allowed");
            Machine::new(settings.with_memory_address(address), vec![0; 4]).map(|_| ())
        };
        assert_eq!([0, u64::MAX - 3].map(at), [Ok(()); 2]);
        assert_eq!(
            [u64::MAX - 2, u64::MAX].map(at),
            [Err(Refusal::BadLengths); 2]
        );
    }
    let mut long = settings();
    long.vector_bytes = 17;
    let mut high = settings();
    high.level = 4;
    for bad in [long, high] {
        assert_eq!(Machine::new(bad, Vec::new()), Err(Refusal::BadSettings));
    }
}

#[test]
fn a_word_is_executed_on_all_parts() {
    let mut machine = machine();
    assert_eq!(machine.run([MOVE, STORE]), Ok(2));
    assert_eq!(machine.memory, b"sixteen letters!....");
    assert_eq!(machine.state.array_vector(0), machine.state.vector(0));
}

#[test]
fn an_operation_is_executed_as_its_word() {
    let operation = |tile| Operation::MovaToTile {
        size: ElementSize::Bits32,
        direction: Direction::Vertical,
        tile,
        offset: 2,
        index: 13,
        predicate: 1,
        vector: 0,
    };
    let (mut one, mut other) = (machine(), machine());
    assert_eq!(one.execute_operation(operation(3)), Ok(()));
    let word = encode(operation(3)).expect("it has a word");
    assert_eq!(other.execute(word), Ok(()));
    assert_eq!(one, other);
    assert_ne!(one, machine());
    assert_eq!(
        one.execute_operation(operation(4)),
        Err(Refusal::OutOfRange)
    );
    assert_eq!(one, other);
}

#[test]
fn a_run_stops_at_the_first_refusal() {
    let mut machine = machine();
    machine.state.x[2] = 5;
    let stopped = machine.run([MOVE, STORE, MOVE]).expect_err("it is refused");
    let refusal = Refusal::OutsideMemory {
        address: 0x114,
        element: 15,
    };
    assert_eq!(stopped, Stopped { done: 1, refusal });
    assert_eq!(machine.memory, [b'.'; 20]);
    assert_eq!(machine.state.array_vector(0), b"sixteen letters!");
    let told = stopped.to_string();
    assert_eq!(
        told,
        "word 2: address 0000000000000114 of element 15 is not in memory"
    );
    assert_eq!(Refusal::from(stopped), refusal);
}

#[test]
fn a_run_of_no_words_is_done() {
    let mut machine = machine();
    let before = machine.clone();
    machine.settings.streaming = false;
    assert_eq!(machine.run([]), Ok(0));
    machine.settings.streaming = true;
    assert_eq!(machine, before);
}

/// Parts that do not fit any more are an answer, as everything is.
#[test]
fn changed_parts_are_answered() {
    let mut machine = machine();
    machine.state.z.pop();
    assert_eq!(machine.execute(MOVE), Err(Refusal::BadLengths));
    machine.settings.vector_bytes = 15;
    assert_eq!(machine.execute(MOVE), Err(Refusal::BadSettings));
}
