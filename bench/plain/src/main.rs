//! `plain check` and `plain solve`: the answers of cribplan by a program without contracts, to measure beside it.

mod cards;
mod checker;
mod finder;
mod hash;
mod play;
mod problem;
mod show;
mod view;

use std::io::{Read, Write};
use std::process::ExitCode;

use checker::Checker;
use finder::Finder;
use problem::{plan_text, read_plan, read_problem, Lines, Refused};

/// Returns the answer of a command to an input, and whether it is yes.
fn answer(command: &str, text: &str) -> Result<(String, bool), Refused> {
    let mut lines = Lines::new(text);
    let problem = read_problem(&mut lines)?;
    match command {
        "check" => {
            let plan = read_plan(&mut lines)?;
            let failure = Checker::new(&problem, &plan).first_failure();
            Ok(failure.map_or(("holds\n".to_string(), true), |failure| (failure.text(), false)))
        }
        "solve" => {
            let Some(plan) = Finder::new(&problem).plan() else {
                return Ok(("none\n".to_string(), false));
            };
            match Checker::new(&problem, &plan).first_failure() {
                None => Ok((plan_text(&plan), true)),
                Some(failure) => Err(format!("the plan that was found {}", failure.text())),
            }
        }
        _ => Err("the commands are check and solve".to_string()),
    }
}

fn main() -> ExitCode {
    let command = std::env::args().nth(1).unwrap_or_default();
    let mut text = String::new();
    if let Err(error) = std::io::stdin().read_to_string(&mut text) {
        eprintln!("plain: {error}");
        return ExitCode::from(3);
    }
    match answer(&command, &text) {
        Ok((answer, is_yes)) => match std::io::stdout().write_all(answer.as_bytes()) {
            Ok(()) => ExitCode::from(u8::from(!is_yes)),
            Err(_) => ExitCode::from(3),
        },
        Err(why) => {
            eprintln!("plain: {why}");
            ExitCode::from(2)
        }
    }
}
