//! Calls for the tests of listings (request 5): four words of which the
//! effects are known, words that are refused beside them, and calls at random.

use super::long_states::pairs;
use super::machine::{plain, Answer, Machine, DONE};
use crate::inputs::random::Random;
use crate::inputs::rows::ROWS;
use crate::listing::{ListingMistake, Ran};

/// A load of row 0 from X1 on; Z1 takes row 0, which is then zero; row 2 takes
/// Z1; a store of row 2 from X3 on. So each needs what the one before did.
pub const WORDS: [u32; 4] = [0xE002_0020, 0xC002_0201, 0xC000_0022, 0xE022_0062];
/// A word that decodes at no level.
pub const UNDECODABLE: u32 = 0xC000_0010;
/// A store with the stack pointer as base.
pub const MISALIGNED: u32 = 0xE03F_03E0;
/// A store and a load of row 0 with base X4.
pub const OUTSIDE: u32 = 0xE022_0080;
pub const LOAD_OUTSIDE: u32 = 0xE002_0080;
/// What these two are answered with.
pub const FAULT: Answer = (7, 64, 4);
/// The store with base X5, and what it is answered with.
pub const FARTHER_OUTSIDE: u32 = 0xE022_00A0;
pub const FARTHER_FAULT: Answer = (7, 100, 0);
/// Allowances of every kind for a listing of about four words.
pub const ALLOWANCES: [u64; 11] = [0, 1, 2, 3, 4, 5, 6, 100, 1 << 32, (1 << 32) + 2, u64::MAX];

/// The state for all of them: 64 bytes of memory at address 0, row number 0 in
/// W12, every element active under P0.
pub fn start() -> Machine {
    let mut machine = Machine::new(16);
    machine.set_w(12, 0);
    machine.set_all_active(0);
    (machine.x[1], machine.x[2]) = (3, 0);
    (machine.x[3], machine.x[4], machine.x[5]) = (40, 60, 100);
    machine
}

/// What the first `done` of the four words leave.
pub fn after(machine: &Machine, done: u64) -> Machine {
    let mut left = machine.clone();
    let loaded = &machine.memory[3..19];
    if done >= 1 {
        left.set_za(0, loaded);
    }
    if done >= 2 {
        left.set_z(1, loaded);
        left.set_za(0, &[0; 16]);
    }
    if done >= 3 {
        left.set_za(2, loaded);
    }
    if done >= 4 {
        left.memory[40..56].copy_from_slice(loaded);
    }
    left
}

/// That many words done, and the answer that stopped the run.
pub fn ran(done: u64, (answer, address, element): Answer) -> Ran {
    Ran {
        answer,
        address,
        element,
        done,
    }
}

/// The words as a listing.
pub fn listing_of(words: &[u32]) -> Vec<u8> {
    words.iter().flat_map(|word| word.to_le_bytes()).collect()
}

/// The four words with others before the one of that place.
pub fn words_with(place: usize, others: &[u32]) -> Vec<u32> {
    [&WORDS[..place], others, &WORDS[place..]].concat()
}

/// One call: what it finds and what it is given.
#[derive(Clone)]
pub struct Call {
    pub machine: Machine,
    pub listing: Vec<u8>,
    pub allowance: u64,
}

impl Call {
    /// These words on the state for them.
    pub fn new(words: &[u32], allowance: u64) -> Call {
        Call::on(start(), &listing_of(words), allowance)
    }

    /// Any listing on any state.
    pub fn on(machine: Machine, listing: &[u8], allowance: u64) -> Call {
        Call {
            machine,
            listing: listing.to_vec(),
            allowance,
        }
    }

    /// What the call gives and leaves, with a mistake or none.
    pub fn run(&self, mistake: ListingMistake) -> (Ran, Machine) {
        let mut left = self.machine.clone();
        let ran = match mistake {
            ListingMistake::None => left.run_listing(&self.listing, self.allowance),
            _ => left.run_listing_with(mistake, &self.listing, self.allowance),
        };
        (ran, left)
    }

    /// The call, with a mistake or none, gives `wanted` and leaves what the
    /// first `effects` of the four words do.
    pub fn expect(&self, mistake: ListingMistake, wanted: Ran, effects: u64) {
        let (found, left) = self.run(mistake);
        let told = || format!("{mistake:?}: {:02X?}, {}", self.listing, self.allowance);
        assert_eq!(found, wanted, "{}", told());
        assert!(left == after(&self.machine, effects), "{}", told());
    }

    /// The call is refused as a whole: nothing is done and nothing moves.
    pub fn expect_refused(&self, number: u32) {
        self.expect(ListingMistake::None, ran(0, plain(number)), 0);
    }

    /// What single calls give and leave, with which request 5 compares a run.
    pub fn by_single_calls(&self) -> (Ran, Machine) {
        let mut left = self.machine.clone();
        // This word moves nothing, and is answered 1 or 2 if any word is.
        let checked = left.run(UNDECODABLE);
        if checked != plain(3) {
            return (ran(0, checked), left);
        }
        if !self.listing.len().is_multiple_of(4) {
            return (ran(0, plain(9)), left);
        }
        let mut done = 0;
        for bytes in self.listing.chunks(4) {
            if done == self.allowance {
                break;
            }
            let word = (0..4).map(|at| u32::from(bytes[at]) << (8 * at)).sum();
            let answer = left.run(word);
            if answer != DONE {
                return (ran(done, answer), left);
            }
            done += 1;
        }
        (ran(done, DONE), left)
    }
}

/// A call at random. Most words are done, and most calls are good.
pub fn random_call(random: &mut Random) -> Call {
    let machine = random_machine(random);
    let words: Vec<u32> = (0..random.below(9)).map(|_| random_word(random)).collect();
    let mut listing = listing_of(&words);
    if random.chance(1, 10) {
        let length = 1 + random.below(3);
        listing.extend_from_slice(&WORDS[0].to_le_bytes()[..length]);
    }
    let own = words.len() as u64;
    let allowances = [0, 1, own / 2, own, own + 1, 1 << 32, u64::MAX];
    let allowance = random.pick(&allowances);
    Call::on(machine, &listing, allowance)
}

/// A word of a row; now and then with one bit changed, or any word.
fn random_word(random: &mut Random) -> u32 {
    let row = &ROWS[random.below(ROWS.len())];
    let word = row.word(&row.random(random));
    match random.below(32) {
        0 => random.word(),
        1 => word ^ 1 << random.below(32),
        _ => word,
    }
}

/// A state in which most loads and stores are in memory: the registers are
/// small, and memory has more bytes than most of the addresses reach.
fn random_machine(random: &mut Random) -> Machine {
    let (own, largest) = random.pick(&pairs());
    let mut machine = Machine::in_long_buffers(own, largest);
    for number in &mut machine.x {
        *number = 8 + random.below(56) as u64;
    }
    if random.chance(1, 2) {
        machine.x[31] = 16;
    }
    for buffer in [&mut machine.z, &mut machine.p, &mut machine.za] {
        random.fill(buffer);
    }
    machine.set_memory(random.below(10) as u64, 900 + random.below(500));
    machine.settings.stack_check = random.chance(1, 2);
    machine.settings.streaming = random.chance(15, 16);
    machine.settings.za_on = random.chance(15, 16);
    if random.chance(1, 4) {
        machine.settings.level = random.below(4) as u64;
    }
    spoil(&mut machine, random);
    machine
}

/// Now and then makes settings or a length bad.
fn spoil(machine: &mut Machine, random: &mut Random) {
    match random.below(40) {
        0 => machine.settings.vector_bytes = 0,
        1 => machine.settings.largest_vector_bytes = 8,
        2 => machine.settings.level = 4,
        3 => machine.x.truncate(31),
        4 => machine.z.push(0),
        5 => machine.p.clear(),
        6 => machine.za.truncate(1),
        7 => machine.settings.memory_address = u64::MAX,
        _ => {}
    }
}
