//! The library, which is a process of its own (server.c): it is for x86-64, and a comparison for any machine. Every
//! slice of a call ends at memory that may not be touched and has known bytes in front, so that no write is unseen.

use super::*;
use std::env::args;
use std::io::{self, BufReader, Read, Write};
use std::process::{Child, ChildStdin, ChildStdout, Command, Stdio};

/// The services, numbered as server.c has them.
#[derive(Clone, Copy)]
pub enum Service { Check, Expand, Value, Translate, Judge, WriteText, ReadText }

const SLICES: usize = 3;
const RESULTS: usize = 4;

/// What came of a call: the numbers that were given back, and what each slice holds after it.
pub struct Outcome { pub results: Vec<u64>, pub slices: Vec<Vec<u8>> }

/// A slice that is lent to a call: what it holds before, and what must then be at its start; all else must stay.
pub struct Lent<'a> { name: &'static str, before: Vec<u8>, written: &'a [u8] }

impl<'a> Lent<'a> {
    /// A slice that is only read.
    pub fn to_read(name: &'static str, bytes: &[u8]) -> Lent<'a> { Lent { name, before: bytes.to_vec(), written: &[] } }
    /// Room of a given size, all bytes of it drawn.
    pub fn to_write(name: &'static str, random: &mut Random, size: usize, written: &'a [u8]) -> Lent<'a> {
        Lent { name, before: (0..size).map(|_| random.byte()).collect(), written }
    }
    fn difference(&self, after: &[u8]) -> Option<String> {
        let wanted = [self.written, &self.before[self.written.len()..]].concat();
        let at = (0..wanted.len()).find(|&at| after[at] != wanted[at])?;
        Some(format!("byte {at} of {} of the {} is {}, expected {}", wanted.len(), self.name, after[at], wanted[at]))
    }
}

pub struct Library { process: Child, requests: ChildStdin, answers: BufReader<ChildStdout> }

impl Library {
    /// Starts the process. Its command is the arguments of this program.
    pub fn started() -> Library {
        let words: Vec<String> = args().skip(1).collect();
        let (program, others) = words.split_first().expect("the arguments are a command that starts server.c");
        let mut command = Command::new(program);
        command.args(others).stdin(Stdio::piped()).stdout(Stdio::piped());
        let mut process = command.spawn().unwrap_or_else(|error| panic!("{program}: {error}"));
        let requests = process.stdin.take().expect("its input is a pipe");
        let answers = BufReader::new(process.stdout.take().expect("its output is a pipe"));
        Library { process, requests, answers }
    }

    fn bytes(&mut self, size: usize) -> io::Result<Vec<u8>> {
        let mut bytes = vec![0; size];
        self.answers.read_exact(&mut bytes)?;
        Ok(bytes)
    }

    /// The outcome, and how many slices were written in front of.
    fn exchange(&mut self, service: Service, numbers: [u64; 2], slices: &[&[u8]]) -> io::Result<(Outcome, u64)> {
        let mut words = vec![service as u64, numbers[0], numbers[1]];
        words.extend((0..SLICES).map(|i| slices.get(i).map_or(0, |slice| slice.len() as u64)));
        let head: Vec<u8> = words.into_iter().flat_map(u64::to_le_bytes).collect();
        self.requests.write_all(&[head, slices.concat()].concat())?;

        let head = self.bytes((RESULTS + 1) * 8)?;
        let mut results: Vec<u64> =
            head.chunks(8).map(|word| u64::from_le_bytes(word.try_into().expect("eight bytes"))).collect();
        let beside = results.pop().expect("the last number of an answer");
        let slices = slices.iter().map(|slice| self.bytes(slice.len())).collect::<io::Result<_>>()?;
        Ok((Outcome { results, slices }, beside))
    }

    /// Calls a service: its numbers and slices in the order of its declaration, 0 for a number that it does not take.
    pub fn call(&mut self, service: Service, numbers: [u64; 2], slices: &[&[u8]]) -> Result<Outcome, String> {
        match self.exchange(service, numbers, slices) {
            Err(_) => Err(format!("the library's process ended: {:?}", self.process.wait())),
            Ok((_, beside)) if beside != 0 => Err(format!("{beside} slices have other bytes in front of them now")),
            Ok((outcome, _)) => Ok(outcome),
        }
    }

    /// Says what is wrong with the outcome of a call, if anything is.
    pub fn difference(&mut self, service: Service, numbers: [u64; 2], lent: &[Lent], due: &[u64]) -> Option<String> {
        let slices: Vec<&[u8]> = lent.iter().map(|slice| &slice.before[..]).collect();
        let outcome = match self.call(service, numbers, &slices) {
            Err(what) => return Some(what),
            Ok(outcome) => outcome,
        };
        let got = &outcome.results[..due.len()];
        if got != due {
            return Some(format!("gives {got:?}, expected {due:?}"));
        }
        lent.iter().zip(&outcome.slices).find_map(|(slice, after)| slice.difference(after))
    }
}
