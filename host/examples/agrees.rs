//! Whether a list from elsewhere agrees with a script: yes or no. `cargo run --example agrees SCRIPT LIST`

#[cfg(agrees)]
fn main() -> Result<(), Box<dyn std::error::Error>> {
    let file = |place| std::env::args().nth(place).ok_or("agrees SCRIPT LIST");
    let (script, list) = (std::fs::read(file(1)?)?, std::fs::read(file(2)?)?);
    match mboxalind::agrees(&script, &list)? {
        true => println!("yes"),
        false => println!("no"),
    }
    Ok(())
}

#[cfg(not(agrees))]
fn main() {
    eprintln!("the archive that this was linked with has no function agrees");
    std::process::exit(2);
}
