//! `model PROGRAM [--by-answer] [SCRIPT]`: runs answer, weigh or serve on a script, from standard input if none is named.
//! `--by-answer` judges a question by a call for each answer, and prints the same.

use std::io::{self, Read, Write};
use std::process::ExitCode;

use model::beliefs::Way;
use model::scripts;

fn main() -> ExitCode {
    let mut arguments = std::env::args_os().skip(1).peekable();
    let program = arguments.next();
    let way = match arguments.next_if(|argument| argument == "--by-answer") {
        Some(_) => Way::ByAnswer,
        None => Way::OnePass,
    };
    let run = |script: &[u8]| match program.as_ref().and_then(|program| program.to_str()) {
        Some("answer") => Some(scripts::answer(script)),
        Some("weigh") => Some(scripts::weigh(script, way)),
        Some("serve") => Some(scripts::serve(script, way)),
        _ => None,
    };
    let mut script = Vec::new();
    let read = match arguments.next() {
        Some(path) => std::fs::read(path).map(|bytes| script = bytes),
        None => io::stdin().read_to_end(&mut script).map(|_| ()),
    };
    let Some(printed) = run(&script) else {
        eprintln!("model answer|weigh|serve [--by-answer] [SCRIPT]");
        return ExitCode::from(2);
    };
    match read.and_then(|_| io::stdout().write_all(printed.as_bytes())) {
        Ok(()) => ExitCode::SUCCESS,
        Err(error) => {
            eprintln!("model: {error}");
            ExitCode::from(2)
        }
    }
}
