// SHA-256 in plain Rust, the twin of crates/hash_bench: the same input, the same line.
mod sha256;

use sha256::Digest;
use std::io::Read;

fn label(text: &[u8]) -> [u8; 32] {
    let mut digest = Digest::new();
    digest.absorb(text);
    digest.finish()
}

fn joined(last: [u8; 32], text: &[u8]) -> [u8; 32] {
    let mut digest = Digest::new();
    digest.absorb(&last);
    digest.absorb(&label(text));
    digest.finish()
}

fn main() {
    let mut input = Vec::new();
    std::io::stdin()
        .read_to_end(&mut input)
        .expect("standard input");
    let (head, data) = input.split_at(2);
    let times = u16::from_be_bytes([head[0], head[1]]);
    let mut last = [0; 32];
    for _ in 0..times {
        for text in data.chunks(4096) {
            last = joined(last, text);
        }
    }
    let line: String = last.iter().map(|b| format!("{b:02x}")).collect();
    println!("{line}");
}
