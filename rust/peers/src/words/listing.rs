//! The disassembler as a process, and its lines.

use super::Block;
use std::io::{BufRead, BufReader};
use std::path::PathBuf;
use std::process::{Child, ChildStdout, Command, Stdio};

/// The program of tests/peers/disassembler.c, and the library that it asks.
#[derive(Clone, Debug, PartialEq, Eq)]
pub struct Disassembler {
    pub program: PathBuf,
    pub library: PathBuf,
}

/// What LLVM calls the features of a level: these and no others.
const FEATURES: [&str; 4] = ["", "+sme", "+sme2", "+sme2p1"];

impl Disassembler {
    /// The library's version.
    pub fn version(&self) -> Result<String, String> {
        let mut command = Command::new(&self.program);
        let output = command.arg(&self.library).output();
        let output = output.map_err(|error| format!("{}: {error}", self.program.display()))?;
        if !output.status.success() {
            let told = String::from_utf8_lossy(&output.stderr);
            return Err(format!("{told}LLVM 16 or later is wanted"));
        }
        Ok(String::from_utf8_lossy(&output.stdout).trim().to_string())
    }

    /// The lines of a block of words, as they come.
    pub fn list(&self, block: &Block) -> Result<Listing, String> {
        let mut child = Command::new(&self.program)
            .arg(&self.library)
            .arg(FEATURES[block.level as usize])
            .args([block.first, block.last].map(|word| format!("{word:08X}")))
            .stdin(Stdio::null())
            .stdout(Stdio::piped())
            .spawn()
            .map_err(|error| format!("{}: {error}", self.program.display()))?;
        let stdout = child.stdout.take().expect("the output is a pipe");
        let lines = BufReader::with_capacity(1 << 16, stdout);
        let mut listing = Listing {
            child,
            source: Lines::new(lines),
        };
        listing.source.advance()?;
        Ok(listing)
    }
}

/// A disassembler that runs.
pub struct Listing {
    child: Child,
    source: Lines<BufReader<ChildStdout>>,
}

impl Listing {
    /// LLVM's text of a word, if it is an instruction. Words are asked for in
    /// their order.
    pub fn take(&mut self, word: u32) -> Result<Option<String>, String> {
        self.source.take(word)
    }

    /// An error if anything is left, or was cut off.
    pub fn finish(mut self) -> Result<(), String> {
        self.source.finish()?;
        let status = self.child.wait().map_err(|error| error.to_string())?;
        if !status.success() {
            return Err(format!("the disassembler ended with {status}"));
        }
        Ok(())
    }
}

impl Drop for Listing {
    /// A comparison that ends early leaves no process behind.
    fn drop(&mut self) {
        let _ = self.child.kill();
        let _ = self.child.wait();
    }
}

/// Lines of a word and its text, in the order of the words, up to 'end'.
pub struct Lines<R> {
    reader: R,
    line: String,
    /// The word of the line, or none where it is the end.
    word: Option<u32>,
}

impl<R: BufRead> Lines<R> {
    pub fn new(reader: R) -> Lines<R> {
        Lines {
            reader,
            line: String::new(),
            word: None,
        }
    }

    /// Reads the next line.
    pub fn advance(&mut self) -> Result<(), String> {
        self.line.clear();
        let read = self.reader.read_line(&mut self.line);
        read.map_err(|error| format!("the disassembler: {error}"))?;
        if self.line == "end\n" {
            self.word = None;
            return Ok(());
        }
        let digits = self.line.split_once('\t').map_or("", |(digits, _)| digits);
        let word = u32::from_str_radix(digits, 16);
        let word = word.map_err(|_| format!("the disassembler: cut off at '{}'", self.line))?;
        self.word = Some(word);
        Ok(())
    }

    /// The text of this word, if the line has it.
    pub fn take(&mut self, word: u32) -> Result<Option<String>, String> {
        if self.word != Some(word) {
            return Ok(None);
        }
        let text = self.line.split_once('\t').map_or("", |(_, text)| text);
        let text = text.trim_end().to_string();
        self.advance()?;
        Ok(Some(text))
    }

    /// An error if the line is not the end: its word was not asked for.
    pub fn finish(&self) -> Result<(), String> {
        match self.word {
            None => Ok(()),
            Some(word) => Err(format!("the disassembler: {word:08X} out of order")),
        }
    }
}
