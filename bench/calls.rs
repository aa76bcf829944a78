// Check, prune and join in plain Rust, the twin of crates/call_bench: the same input, the same line.
mod join;
mod prune;
mod send;
mod sha256;
mod slip;
mod table;

use join::Joiner;
use prune::Pruner;
use send::Answer;
use slip::Checker;
use std::io::{BufReader, Read};

#[derive(Default)]
struct Tally {
    accepted: u64,
    refused: u64,
    sum: u64,
    sums: u64,
}

impl Tally {
    fn add(&mut self, a: &Answer) {
        self.grow_by(&a.label);
        self.accepted += u64::from(a.number == 0);
        self.refused += u64::from(a.number != 0);
        for n in [a.number, a.place, a.second, a.side, a.length, a.blocks] {
            self.grow(n as u64);
        }
    }

    fn grow_by(&mut self, bytes: &[u8]) {
        bytes.iter().for_each(|&b| self.grow(u64::from(b)));
    }

    fn grow(&mut self, n: u64) {
        self.sum = self.sum.wrapping_add(n);
        self.sums = self.sums.wrapping_add(self.sum);
    }
}

#[derive(Default)]
struct Calls {
    checker: Checker,
    pruner: Pruner,
    joiner: Joiner,
}

impl Calls {
    fn answer(&mut self, call: usize, s: &[u8], u: &[u8], list: &[u16], out: &mut [u8]) -> Answer {
        match call {
            0 => match self.checker.check(s, &mut ()) {
                Ok(a) => Answer::taken(s.len(), a.blocks, a.label),
                Err(r) => Answer::refused(r),
            },
            1 => self.pruner.prune(s, list, out),
            _ => self.joiner.join(s, u, out),
        }
    }
}

fn part(input: &mut impl Read, length: usize) -> Vec<u8> {
    let mut part = vec![0; length];
    input.read_exact(&mut part).expect("a whole part");
    part
}

fn main() {
    let mut input = BufReader::with_capacity(65536, std::io::stdin().lock());
    let (mut calls, mut tally, mut head) = (Calls::default(), Tally::default(), [0; 10]);
    while input.read_exact(&mut head).is_ok() {
        let number = |i: usize| usize::from(u16::from_be_bytes([head[2 * i], head[2 * i + 1]]));
        let (s, u) = (part(&mut input, number(2)), part(&mut input, number(3)));
        let list: Vec<u16> = u.chunks_exact(2).map(|c| u16::from_be_bytes([c[0], c[1]])).collect();
        let mut out = vec![165; number(4)];
        for _ in 0..number(1) {
            tally.add(&calls.answer(number(0), &s, &u, &list, &mut out));
        }
        tally.grow_by(&out);
    }
    let Tally { accepted, refused, sum, sums } = tally;
    println!("{accepted} {refused} {sum} {sums}");
}
