//! Binds one statement: `bind STATEMENT CATALOGUE`, the files of two images. Prints `bound N` or `refused R: ..`.

use std::process::ExitCode;

fn main() -> ExitCode {
    let files: Vec<String> = std::env::args().skip(1).collect();
    let [statement, catalogue] = files.as_slice() else {
        eprintln!("bind STATEMENT CATALOGUE");
        return ExitCode::from(2);
    };
    match (std::fs::read(statement), std::fs::read(catalogue)) {
        (Ok(statement), Ok(catalogue)) => bind(&statement, &catalogue),
        (Err(error), _) => unreadable(statement, error),
        (_, Err(error)) => unreadable(catalogue, error),
    }
}

fn bind(statement: &[u8], catalogue: &[u8]) -> ExitCode {
    let mut out = vec![0; 65_536];
    match sirklemet::bind(statement, catalogue, &mut out) {
        // out[..length] is the bound statement's image.
        Ok(length) => println!("bound {length}"),
        Err(refusal) => println!("{refusal}"),
    }
    ExitCode::SUCCESS
}

fn unreadable(file: &str, error: std::io::Error) -> ExitCode {
    eprintln!("{file}: {error}");
    ExitCode::from(2)
}
