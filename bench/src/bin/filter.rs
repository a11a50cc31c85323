//! The line program as a plain Rust filter: a day in, a month out, each day's year listed and searched.

#[path = "../plain.rs"]
#[allow(dead_code)]
mod plain;

use std::io::{stdin, stdout, BufRead, BufWriter, Write};

fn asked(line: &[u8]) -> Option<u64> {
    let digit = |b: &u8| b.is_ascii_digit() || (b'A'..=b'F').contains(b);
    if line.len() != 5 || !line.iter().all(digit) {
        return None;
    }
    u64::from_str_radix(std::str::from_utf8(line).ok()?, 16).ok()
}

fn main() -> std::io::Result<()> {
    let mut out = BufWriter::with_capacity(1 << 16, stdout().lock());
    for line in stdin().lock().split(b'\n') {
        match asked(&line?).map(plain::day) {
            None => out.write_all(b"E5\n")?,
            Some(None) => out.write_all(b"E3\n")?,
            Some(Some(m)) => {
                let r = m.record;
                writeln!(
                    out,
                    "{:03X}{:X}{:X}{:05X}{:02X}",
                    m.year, r.number, r.leap, r.first, r.length
                )?
            }
        }
    }
    out.flush()
}
