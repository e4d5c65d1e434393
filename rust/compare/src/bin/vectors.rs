//! Writes a file of calls for processors/play.c, and prints what it must print.

use std::process::ExitCode;

const USAGE: &str = "usage: vectors SEED BYTES FILE";

fn main() -> ExitCode {
    let arguments: Vec<String> = std::env::args().skip(1).collect();
    match write(&arguments) {
        Ok(printed) => {
            print!("{printed}");
            ExitCode::SUCCESS
        }
        Err(problem) => {
            eprintln!("vectors: {problem}");
            ExitCode::FAILURE
        }
    }
}

fn write(arguments: &[String]) -> Result<String, String> {
    let [seed, bytes, path] = arguments else {
        return Err(USAGE.to_string());
    };
    let number = |text: &String| text.parse().map_err(|_| USAGE.to_string());
    let (file, printed) = compare::vectors::file(number(seed)?, number(bytes)? as usize)?;
    std::fs::write(path, file).map_err(|problem| format!("{path}: {problem}"))?;
    Ok(printed)
}
