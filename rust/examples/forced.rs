//! Which switches of a card's rules are forced, and which rule holds each: `cargo run --example forced -- ../examples/surface_ring.cnf`.

use igbezolum::{read, End, Limits};
use std::error::Error;
use std::{env, fs};

fn main() -> Result<(), Box<dyn Error>> {
    let name = env::args().nth(1).ok_or("it needs the name of a file")?;
    let text = fs::read(&name)?;
    let card = read(&text).map_err(|refusal| format!("{name}: {}", refusal.within(&text)))?;
    let run = card.run(Limits::default())?;
    for (switch, on) in run.forced() {
        let rule = run.held_by(switch).expect("a forced switch is held by a rule");
        println!("switch {switch} is always {}, held by rule {rule}", if on { "on" } else { "off" });
    }
    match run.end {
        End::Settled => {}
        End::NoModel => println!("no setup is valid"),
        End::Stopped => println!("stopped by the budget: other switches may be forced too"),
    }
    Ok(())
}
