//! A script from its input: its list, then what the list prints. `cargo run --example session < ../samples/whole-session.script`

#[cfg(translate)]
fn main() -> Result<(), Box<dyn std::error::Error>> {
    use mboxalind::{CELLS, TEXT};
    use std::io::{Read, Write};
    let mut script = Vec::new();
    std::io::stdin().lock().read_to_end(&mut script)?;
    let mut list = vec![0; TEXT];
    let bytes = mboxalind::translate(&script, &mut list).written()?;
    let list = &list[..bytes];
    let (mut cells, mut out) = (vec![0; 2 * CELLS], vec![0; TEXT]);
    let bytes = mboxalind::run(list, &mut cells, &mut out).written()?;
    let mut stdout = std::io::stdout().lock();
    stdout.write_all(list)?;
    stdout.write_all(&out[..bytes])?;
    Ok(())
}

#[cfg(not(translate))]
fn main() {
    eprintln!("the archive that this was linked with has no function translate");
    std::process::exit(2);
}
