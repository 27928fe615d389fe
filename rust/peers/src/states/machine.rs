//! The emulated machine as a process: tests/peers/machine.c in QEMU's user
//! mode.

use compare::case::Case;
use std::io::{self, Read, Write};
use std::path::PathBuf;
use std::process::{Child, ChildStdin, ChildStdout, Command, Stdio};

/// The first number of the machine's hello.
const HELLO: u64 = 0x454E_4948_434D_5301;
/// Bits of the features that the machine tells of (Linux, HWCAP2).
const HAS_SME: u64 = 1 << 23;
const HAS_SME2: u64 = 1 << 37;
const HAS_SME2P1: u64 = 1 << 38;
/// Where the emulator puts address 0 of the machine, so that memory can be
/// mapped there without rights that only some users have.
const GUEST_BASE: &str = "0x100000000";

/// How many bytes of memory the machine has.
pub const MEMORY_BYTES: usize = 8192;
/// Where they are: one of these, as the case says.
pub const MEMORY: u64 = 0x4000_0000;
pub const LOW_MEMORY: u64 = 0;

/// The emulator, and the program that it runs.
#[derive(Clone, Debug, PartialEq, Eq)]
pub struct Emulator {
    pub program: PathBuf,
    pub machine: PathBuf,
}

impl Emulator {
    /// The first line of what it says of itself.
    pub fn version(&self) -> Result<String, String> {
        let output = Command::new(&self.program).arg("--version").output();
        let output = output.map_err(|error| format!("{}: {error}", self.program.display()))?;
        let told = String::from_utf8_lossy(&output.stdout).into_owned();
        let line = told.lines().next();
        line.map_or(Err("no version".to_string()), |line| Ok(line.to_string()))
    }
}

/// What the machine can do.
#[derive(Clone, Copy, Debug, PartialEq, Eq)]
pub struct Abilities {
    /// The feature level: 1 SME, 2 SME2, 3 SME2.1.
    pub level: u64,
    /// Whether memory can be at address 0.
    pub low_memory: bool,
}

/// How the execution of a word ended.
#[derive(Clone, Debug, Default, PartialEq, Eq)]
pub enum End {
    #[default]
    Done,
    /// The word raised a signal.
    Signal { number: u32, address: u64 },
    /// The emulator itself ended, and said this.
    Died { told: String },
}

/// What the machine made of a case. Z, P and ZA are there if the word is done,
/// X and memory also after a signal.
#[derive(Clone, Debug, Default, PartialEq, Eq)]
pub struct Reply {
    pub end: End,
    pub x: Vec<u64>,
    pub z: Vec<u8>,
    pub p: Vec<u8>,
    pub za: Vec<u8>,
    pub memory: Vec<u8>,
}

/// A machine that runs.
pub struct Machine {
    child: Child,
    input: ChildStdin,
    output: ChildStdout,
    request: Vec<u8>,
    pub abilities: Abilities,
}

impl Machine {
    pub fn start(emulator: &Emulator) -> Result<Machine, String> {
        let failed = |error: io::Error| format!("{}: {error}", emulator.program.display());
        let mut child = Command::new(&emulator.program)
            .args(["-B", GUEST_BASE])
            .arg(&emulator.machine)
            .stdin(Stdio::piped())
            .stdout(Stdio::piped())
            .stderr(Stdio::piped())
            .spawn()
            .map_err(failed)?;
        let input = child.stdin.take().expect("the input is a pipe");
        let output = child.stdout.take().expect("the output is a pipe");
        let mut machine = Machine {
            child,
            input,
            output,
            request: Vec::new(),
            abilities: Abilities {
                level: 0,
                low_memory: false,
            },
        };
        machine.abilities = machine.hello()?;
        Ok(machine)
    }

    fn hello(&mut self) -> Result<Abilities, String> {
        let mut bytes = [0; 24];
        let read = self.output.read_exact(&mut bytes);
        let [mark, features, low_memory] = [0, 8, 16].map(|at| number(&bytes[at..]));
        if read.is_err() || mark != HELLO {
            return Err(format!("the machine did not start: {}", self.last_words()));
        }
        let has = |bits: u64| features & bits == bits;
        let levels = [HAS_SME, HAS_SME2, HAS_SME2P1];
        let level = levels.iter().take_while(|&&bits| has(bits)).count() as u64;
        if level == 0 {
            return Err("the emulator has no SME".to_string());
        }
        Ok(Abilities {
            level,
            low_memory: low_memory == 1,
        })
    }

    /// Executes the case's word. A machine that died is of no more use.
    pub fn execute(&mut self, case: &Case) -> Reply {
        self.request.clear();
        write_request(&mut self.request, case);
        let sent = self.input.write_all(&self.request);
        let reply = sent.and_then(|()| read_reply(&mut self.output, case));
        reply.unwrap_or_else(|_| Reply {
            end: End::Died {
                told: self.last_words(),
            },
            ..Reply::default()
        })
    }

    /// How the process ended, and what it wrote to its error output.
    fn last_words(&mut self) -> String {
        let status = match self.child.wait() {
            Ok(status) => status.to_string(),
            Err(error) => error.to_string(),
        };
        let mut told = String::new();
        if let Some(mut errors) = self.child.stderr.take() {
            // What cannot be read is not told.
            let _ = errors.read_to_string(&mut told);
        }
        format!("{status}, {}", told.trim())
    }
}

impl Drop for Machine {
    fn drop(&mut self) {
        let _ = self.child.kill();
        let _ = self.child.wait();
    }
}

/// A request, as machine.c reads it.
fn write_request(request: &mut Vec<u8>, case: &Case) {
    let settings = &case.settings;
    let switches = u32::from(settings.streaming) + 2 * u32::from(settings.za_on);
    request.extend(case.word.to_le_bytes());
    request.extend(switches.to_le_bytes());
    request.extend(settings.vector_bytes.to_le_bytes());
    request.extend(settings.memory_address.to_le_bytes());
    request.extend(case.x.iter().flat_map(|value| value.to_le_bytes()));
    for part in [&case.z, &case.p, &case.za, &case.memory] {
        request.extend(part);
    }
}

/// A reply, as machine.c writes it.
fn read_reply(output: &mut impl Read, case: &Case) -> io::Result<Reply> {
    let mut header = [0; 16];
    output.read_exact(&mut header)?;
    let mut reply = Reply::default();
    let signal = number(&header) as u32;
    if signal != 0 {
        let address = number(&header[8..]);
        reply.end = End::Signal {
            number: signal,
            address,
        };
    }
    let x = read_bytes(output, 8 * case.x.len())?;
    reply.x = x.chunks(8).map(number).collect();
    if signal == 0 && case.settings.streaming && case.settings.za_on {
        reply.z = read_bytes(output, case.z.len())?;
        reply.p = read_bytes(output, case.p.len())?;
        reply.za = read_bytes(output, case.za.len())?;
    }
    reply.memory = read_bytes(output, case.memory.len())?;
    Ok(reply)
}

fn read_bytes(output: &mut impl Read, length: usize) -> io::Result<Vec<u8>> {
    let mut bytes = vec![0; length];
    output.read_exact(&mut bytes)?;
    Ok(bytes)
}

/// The first eight bytes as a number.
fn number(bytes: &[u8]) -> u64 {
    let eight = bytes[..8].try_into();
    u64::from_le_bytes(eight.expect("there are eight"))
}
