//! A list from a file and a recording from its input, read in parts: what the list's loads show, and how many samples are left over.
//! `cargo run --example counters LIST < RECORDING`

use mboxalind::{CELLS, TEXT};
use std::io::{Read, Write};

fn main() -> Result<(), Box<dyn std::error::Error>> {
    let path = std::env::args().nth(1).ok_or("counters LIST < RECORDING")?;
    let list = std::fs::read(path)?;
    let mut recording = mboxalind::Recording::default();
    let (mut input, mut part) = (std::io::stdin().lock(), [0; 65536]);
    loop {
        match input.read(&mut part)? {
            0 => break,
            bytes => recording.feed(&part[..bytes]),
        }
    }
    let (mut cells, mut out) = (vec![0; 2 * CELLS], vec![0; TEXT]);
    let ran = recording.run(&list, &mut cells, &mut out)?;
    let mut stdout = std::io::stdout().lock();
    stdout.write_all(&out[..ran.bytes])?;
    writeln!(stdout, "a1{:08x}", ran.left)?;
    Ok(())
}
