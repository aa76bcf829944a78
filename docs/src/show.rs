//! Reads a slip from standard input and prints what it discloses, or its refusal: `show`, over the library.
use std::io::{self, Read, Write};

const EDITION: usize = 1;
const MAX_BYTES: usize = 32768;
const MAX_NODES: usize = 1023;
const FIRST_TEXT: u16 = 2;

/// `struct liwharoko_answer` of include/liwharoko.h.
#[repr(C)]
struct Answer {
    number: usize,
    place: usize,
    second: usize,
    side: usize,
    length: usize,
    blocks: usize,
    label: [u8; 32],
}

#[link(name = "liwharoko", kind = "static")]
extern "C" {
    fn liwharoko_unpack(
        slip: *const u8,
        slip_length: usize,
        types: *mut u16,
        types_length: usize,
        counts: *mut u16,
        counts_length: usize,
        lengths: *mut u16,
        lengths_length: usize,
        values: *mut u8,
        values_length: usize,
    ) -> Answer;
}

fn unpack(slip: &[u8], types: &mut [u16], counts: &mut [u16], lengths: &mut [u16], values: &mut [u8]) -> Answer {
    // Each pair is a slice's own pointer and length: valid, aligned, not null, and no buffer overlaps another.
    unsafe {
        liwharoko_unpack(
            slip.as_ptr(),
            slip.len(),
            types.as_mut_ptr(),
            types.len(),
            counts.as_mut_ptr(),
            counts.len(),
            lengths.as_mut_ptr(),
            lengths.len(),
            values.as_mut_ptr(),
            values.len(),
        )
    }
}

fn hex(bytes: &[u8]) -> String {
    bytes.iter().map(|b| format!("{b:02x}")).collect()
}

fn main() -> io::Result<()> {
    // One byte more than a slip may have: a longer input is refused all the same.
    let mut slip = Vec::new();
    io::stdin().take(MAX_BYTES as u64 + 1).read_to_end(&mut slip)?;
    let (mut types, mut counts, mut lengths) = ([0; MAX_NODES], [0; MAX_NODES], [0; MAX_NODES]);
    let mut values = [0; MAX_BYTES];
    let a = unpack(&slip, &mut types, &mut counts, &mut lengths, &mut values);
    let mut out = io::stdout().lock();
    if a.number != 0 {
        return writeln!(out, "refused {} {}", a.number, a.place);
    }
    let nodes = usize::from(slip[0] % 4) * 256 + usize::from(slip[1]);
    writeln!(out, "slip {EDITION} {nodes} {}\nroot {}", a.blocks, hex(&a.label))?;
    let mut rest = &values[..];
    for (kind, length) in types.iter().zip(&lengths).take(nodes) {
        let (value, behind) = rest.split_at(usize::from(*length));
        if *kind >= FIRST_TEXT {
            let text = if value.is_empty() { "-".to_string() } else { hex(value) };
            writeln!(out, "pair {kind} {length} {text}")?;
        }
        rest = behind;
    }
    Ok(())
}
