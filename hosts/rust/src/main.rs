//! Checks a script; if it is accepted, runs it for at most 1,000 steps and prints
//! the values of main's variables: `cargo run -- FILE`.

use nuyardi::{AcceptedEnding, Station};
use std::error::Error;
use std::process::ExitCode;

fn license(name: &str) -> Result<(), Box<dyn Error>> {
    let text = std::fs::read(name)?;
    let mut station = Station::new();
    let outcome = station.run(&text, 1_000)?;
    match outcome.ending() {
        AcceptedEnding::Finished => println!("{outcome}"),
        AcceptedEnding::Stopped(stop) => println!("without its end ({stop:?}): {outcome}"),
        _ => println!("{outcome}"),
    }
    for variable in outcome.variables() {
        println!("{} = {}", variable.name, variable.value);
    }
    Ok(())
}

fn main() -> ExitCode {
    let name = std::env::args().nth(1).unwrap_or_default();
    match license(&name) {
        Ok(()) => ExitCode::SUCCESS,
        Err(error) => {
            eprintln!("{name}: {error}");
            ExitCode::FAILURE
        }
    }
}
