//! Answers of the Rust written to a file, for a Rattle program to replay.
//!
//! A record is a list of entries. An entry is its length (4 bytes, little-endian) and that many bytes: what is asked and
//! what the Rust answered. The program crates/replay_PART reads it from `stdin`; what it must print is in `stdout`.
use std::path::PathBuf;
use std::{fs, io};

/// The largest prime below 2^32: a single changed byte always changes the checksum.
const PRIME: u64 = 4_294_967_291;

/// An entry must fit the buffer of the replay.
const LONGEST: usize = 65_536;

#[derive(Default)]
pub struct Record {
    bytes: Vec<u8>,
    answers: u64,
    sum: u64,
}

impl Record {
    pub fn entry(&mut self, payload: &[u8]) {
        assert!(!payload.is_empty() && payload.len() <= LONGEST, "an entry has 1 to {LONGEST} bytes, not {}", payload.len());
        self.bytes.extend((payload.len() as u32).to_le_bytes());
        self.bytes.extend(payload);
        self.answers += 1;
        self.step(payload.len() as u64);
        for &b in payload {
            self.step(u64::from(b));
        }
    }

    fn step(&mut self, value: u64) {
        self.sum = (self.sum * 257 + value + 1) % PRIME;
    }

    pub fn answers(&self) -> u64 {
        self.answers
    }

    /// What the replay prints where every answer is right.
    fn printed(&self) -> String {
        format!("right {} of {}\nbytes {}\nchecksum {}\n", self.answers, self.answers, self.bytes.len(), self.sum)
    }

    /// crates/replay_PART of this repository.
    fn folder(part: &str) -> PathBuf {
        PathBuf::from(env!("CARGO_MANIFEST_DIR")).join(format!("../../crates/replay_{part}"))
    }

    pub fn write(&self, part: &str) -> io::Result<()> {
        let folder = Self::folder(part);
        fs::create_dir_all(&folder)?;
        fs::write(folder.join("stdin"), &self.bytes)?;
        fs::write(folder.join("stdout"), self.printed())
    }

    /// What is wrong with the files in the repository, if anything is.
    pub fn fault(&self, part: &str) -> Option<String> {
        let folder = Self::folder(part);
        for (name, wanted) in [("stdin", &self.bytes[..]), ("stdout", self.printed().as_bytes())] {
            match fs::read(folder.join(name)) {
                Ok(found) if found == wanted => {}
                Ok(_) => return Some(format!("crates/replay_{part}/{name} is not what the Rust answers: see docs/TESTING.md")),
                Err(e) => return Some(format!("crates/replay_{part}/{name}: {e}")),
            }
        }
        None
    }
}
