//! Writes the fixed inputs and the reading's answers to them, as `stdin` and
//! `stdout` in the folder given.

use std::path::Path;
use std::process::ExitCode;

fn main() -> ExitCode {
    let Some(folder) = std::env::args().nth(1) else {
        eprintln!("usage: vectors FOLDER");
        return ExitCode::FAILURE;
    };
    let (inputs, answers) = reading::vectors::files();
    for (name, content) in [("stdin", inputs), ("stdout", answers)] {
        let path = Path::new(&folder).join(name);
        if let Err(error) = std::fs::write(&path, content) {
            eprintln!("vectors: {}: {error}", path.display());
            return ExitCode::FAILURE;
        }
    }
    ExitCode::SUCCESS
}
