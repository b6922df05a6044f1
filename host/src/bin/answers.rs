//! Answers framed calls from a file, a line to each, so that another planner's answers can be compared with them.
//!
//! answers FILE; or answers FILE SEED CALLS, which first writes the file: the benchmark's tasks, then so many generated calls.
//! Frames (`Call::frame`): `p` record nodes budget room words, `c` record path lent, `w` record nodes.

use depot_host::calls::{benchmark_calls, call};
use depot_host::plain;
use depot_host::random::Random;
use std::io::{BufWriter, Write};

struct Frames<'a>(&'a [u8]);

impl<'a> Frames<'a> {
    fn take(&mut self, count: usize) -> &'a [u8] {
        let (front, rest) = self.0.split_at(count);
        self.0 = rest;
        front
    }

    fn number(&mut self) -> u32 {
        u32::from_be_bytes(self.take(4).try_into().expect("four bytes"))
    }

    fn bytes(&mut self) -> &'a [u8] {
        let count = self.number() as usize;
        self.take(count)
    }
}

/// Bytes and words that nobody should write.
const BYTE: u8 = 0xEE;
const WORD: u64 = 0xEEEE_EEEE_EEEE_EEEE;

fn main() {
    let words: Vec<String> = std::env::args().skip(1).collect();
    let name = words.first().expect("usage: answers FILE [SEED CALLS]");
    if let [_, seed, many] = &words[..] {
        let mut r = Random::new(seed.parse().expect("a number"));
        let mut frames: Vec<Vec<u8>> = benchmark_calls().iter().map(|c| c.frame()).collect();
        frames.extend((0..many.parse().expect("a number")).map(|_: u64| call(&mut r).frame()));
        std::fs::write(name, frames.concat()).expect("the file of calls");
    }
    let data = std::fs::read(name).expect("the file of calls");
    let mut frames = Frames(&data);
    let mut out = BufWriter::new(std::io::stdout().lock());
    while !frames.0.is_empty() {
        match frames.take(1)[0] {
            b'p' => {
                let record = frames.bytes();
                let (nodes, budget, room, words) = (frames.number(), frames.number(), frames.number(), frames.number());
                let mut bytes = vec![BYTE; room as usize];
                let a = plain::plan(record, nodes, budget, &mut bytes, words as u64);
                let (plan, rest) = bytes.split_at(a.length as usize);
                let kept = if rest.iter().all(|&b| b == BYTE) { "" } else { " WRITTEN" };
                writeln!(out, "plan {} {} {} {} {} {plan:?}{kept}", a.number, a.length, a.cost, a.expanded, a.kept)
            }
            b'c' => {
                let (record, path) = (frames.bytes(), frames.bytes());
                let mut words = vec![WORD; frames.number() as usize];
                let number = plain::prices(record, path, &mut words);
                writeln!(out, "prices {number} {words:?}")
            }
            b'w' => {
                let record = frames.bytes();
                writeln!(out, "words {}", plain::table_words(record, frames.number()))
            }
            other => panic!("no call begins with {other}"),
        }
        .expect("standard output");
    }
}
