//! A list from its input: what its loads show. `cargo run --example loads < LIST`

use mboxalind::{CELLS, TEXT};
use std::io::{Read, Write};

fn main() -> Result<(), Box<dyn std::error::Error>> {
    let mut list = Vec::new();
    std::io::stdin().lock().read_to_end(&mut list)?;
    let (mut cells, mut out) = (vec![0; 2 * CELLS], vec![0; TEXT]);
    let bytes = mboxalind::run(&list, &mut cells, &mut out).written()?;
    std::io::stdout().lock().write_all(&out[..bytes])?;
    Ok(())
}
