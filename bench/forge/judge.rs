//! The judge, a program that is asked over its standard input. It reads there
//! - M, then LINEDEFS, SIDEDEFS, VERTEXES and SECTORS: it builds, and writes 0, the table and the certificate, or a code alone;
//! - C, a u32, then a table and a certificate: it writes how it judges them, 0 for yes, else a kind of doomsight.h. It is fed the
//!   certificate in pieces of so many bytes, or, where that is 0, all at once;
//! - F: it flushes what it wrote.
//!
//! A block of bytes has a u32 before it, how many they are. Codes and kinds are a byte each.

use crate::maps::Map;
use std::collections::BTreeMap;
use std::io::{Read, Write};
use std::process::{Child, ChildStdin, ChildStdout, Command, Stdio};

/// What was tried.
#[derive(Clone, Copy, PartialEq, Eq, PartialOrd, Ord)]
pub enum Trial {
    /// an honest certificate
    Again,
    Bit,
    Claim,
    Set,
    Hunt,
    Mutation,
    Mesh,
}

struct Asked {
    trial: Trial,
    /// the table is that of the map
    is_right: bool,
    /// judged whole, and then in pieces
    twice: bool,
}

pub struct Judge {
    child: Child,
    to: ChildStdin,
    from: ChildStdout,
    batch: Vec<u8>,
    asked: Vec<Asked>,
    /// of each trial by kind of answer
    pub answers: BTreeMap<(Trial, u8), u64>,
    pub wrong: u64,
    /// judged in pieces too, and how often with another answer
    pub twice: u64,
    pub uneven: u64,
    /// the number of the map that is tried
    pub map: u64,
}

fn block(out: &mut Vec<u8>, bytes: &[u8]) {
    out.extend((bytes.len() as u32).to_le_bytes());
    out.extend(bytes);
}

impl Judge {
    pub fn new(command: &[String]) -> Judge {
        let mut order = Command::new(&command[0]);
        let mut child = order.args(&command[1..]).stdin(Stdio::piped()).stdout(Stdio::piped()).spawn().expect("the judge");
        let (to, from) = (child.stdin.take().unwrap(), child.stdout.take().unwrap());
        let (batch, asked, answers) = (Vec::new(), Vec::new(), BTreeMap::new());
        Judge { child, to, from, batch, asked, answers, wrong: 0, uneven: 0, twice: 0, map: 0 }
    }

    fn bytes(&mut self, n: usize) -> Vec<u8> {
        let mut bytes = vec![0; n];
        self.from.read_exact(&mut bytes).expect("the judge has ended");
        bytes
    }

    fn send(&mut self) {
        self.batch.push(b'F');
        self.to.write_all(&self.batch).expect("the judge has ended");
        self.to.flush().expect("the judge has ended");
        self.batch.clear();
    }

    /// Table and certificate of this map, or why there are none.
    pub fn build(&mut self, map: &Map) -> Result<(Vec<u8>, Vec<u8>), u8> {
        self.batch.push(b'M');
        for lump in map.lumps() {
            block(&mut self.batch, &lump);
        }
        self.send();
        let code = self.bytes(1)[0];
        if code != 0 {
            return Err(code);
        }
        let mut held = || {
            let size = self.bytes(4);
            self.bytes(u32::from_le_bytes(size.try_into().unwrap()) as usize)
        };
        Ok((held(), held()))
    }

    /// Has this judged; where a cut is given, in pieces too, of that size.
    pub fn ask(&mut self, trial: Trial, is_right: bool, table: &[u8], cert: &[u8], cut: Option<u32>) {
        for cut in [0].into_iter().chain(cut) {
            self.batch.push(b'C');
            self.batch.extend(cut.to_le_bytes());
            block(&mut self.batch, table);
            block(&mut self.batch, cert);
        }
        self.asked.push(Asked { trial, is_right, twice: cut.is_some() });
        if self.asked.len() == 4096 || self.batch.len() > 1 << 24 {
            self.settle();
        }
    }

    /// Takes the answers to all that was asked.
    pub fn settle(&mut self) {
        self.send();
        for asked in std::mem::take(&mut self.asked) {
            let said = self.bytes(1)[0];
            if asked.twice {
                self.twice += 1;
                let again = self.bytes(1)[0];
                self.uneven += (again != said) as u64;
            }
            *self.answers.entry((asked.trial, said)).or_default() += 1;
            let is_wrong = match asked.trial {
                Trial::Again => said != 0,
                Trial::Mutation | Trial::Mesh => said == 0 && !asked.is_right,
                _ => said == 0,
            };
            if is_wrong {
                self.wrong += 1;
                let what = match asked.trial {
                    Trial::Again => "an honest walk is refused",
                    Trial::Bit => "a flipped bit is accepted",
                    Trial::Claim | Trial::Set | Trial::Hunt => "a wrong claim is accepted",
                    Trial::Mutation | Trial::Mesh => "a wrong table is accepted",
                };
                println!("map {}: {what}", self.map);
            }
        }
    }

    /// How many of a trial were answered by these.
    pub fn count(&self, trial: Trial, is_yes: bool) -> u64 {
        self.answers.iter().filter(|(k, _)| k.0 == trial && (k.1 == 0) == is_yes).map(|(_, n)| n).sum()
    }

    /// Whether it ended well, once nothing more is asked.
    pub fn end(self) -> bool {
        let Judge { mut child, to, .. } = self;
        drop(to);
        child.wait().is_ok_and(|ended| ended.success())
    }
}
