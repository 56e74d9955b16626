//! Runs one UPDATE on one row: `run STATEMENT CATALOGUE ROW NEW`, the files of three images, and the file for the new row's. Prints
//! `row N`, or `refused R: ..`, and then NEW is not touched.

use std::process::ExitCode;

fn main() -> ExitCode {
    let files: Vec<String> = std::env::args().skip(1).collect();
    let [statement, catalogue, row, new] = files.as_slice() else {
        eprintln!("run STATEMENT CATALOGUE ROW NEW");
        return ExitCode::from(2);
    };
    match run(statement, catalogue, row, new) {
        Ok(line) => println!("{line}"),
        Err(error) => {
            eprintln!("{error}");
            return ExitCode::from(2);
        }
    }
    ExitCode::SUCCESS
}

fn run(statement: &str, catalogue: &str, row: &str, new: &str) -> Result<String, String> {
    let mut out = vec![0; 65_536];
    match sirklemet::run(&read(statement)?, &read(catalogue)?, &read(row)?, &mut out) {
        Ok(length) => {
            std::fs::write(new, &out[..length]).map_err(|error| format!("{new}: {error}"))?;
            Ok(format!("row {length}"))
        }
        Err(refusal) => Ok(refusal.to_string()),
    }
}

fn read(file: &str) -> Result<Vec<u8>, String> {
    std::fs::read(file).map_err(|error| format!("{file}: {error}"))
}
