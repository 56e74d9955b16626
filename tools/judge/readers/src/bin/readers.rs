//! The command `readers`: how long the proved readers take.

use std::process::ExitCode;

use judge::measure::{self, nanoseconds};
use readers::measure::{ALL, Case, Measured, PASS, cases};

const HELP: &str = "\
readers                   prints, for each case, nanoseconds a call of the proved reader and of a plain pass over the same
                          bytes, their sum, by the fastest of many batches; what the reader takes a byte; and the ratio
readers --instructions    the same in instructions, counted by valgrind: these do not depend on what else runs
        --only WORDS      only the cases whose names hold the words
It is no test.
";

#[derive(Default)]
struct Options {
    instructions: bool,
    only: String,
    /// For the profiler: one call of the function of this symbol on the bytes of this file.
    once: Option<[String; 2]>,
    help: bool,
}

fn options(mut arguments: impl Iterator<Item = String>) -> Result<Options, String> {
    let mut options = Options::default();
    while let Some(argument) = arguments.next() {
        let mut word = || arguments.next().ok_or(format!("{argument} needs a word behind it"));
        match argument.as_str() {
            "--instructions" => options.instructions = true,
            "--only" => options.only = word()?,
            "--once" => options.once = Some([word()?, word()?]),
            _ => options.help = true,
        }
    }
    Ok(options)
}

fn main() -> ExitCode {
    match options(std::env::args().skip(1)).and_then(|options| run(&options)) {
        Ok(()) => ExitCode::SUCCESS,
        Err(message) => {
            eprintln!("readers: {message}");
            ExitCode::from(2)
        }
    }
}

fn run(options: &Options) -> Result<(), String> {
    if options.help {
        print!("{HELP}");
        return Ok(());
    }
    if let Some([symbol, file]) = &options.once {
        return once(symbol, file);
    }
    println!("{}", if options.instructions { "instructions per call" } else { "nanoseconds per call" });
    println!("{:<40}{:>8}{:>12}{:>10}{:>10}{:>13}", "", "bytes", "reader", "pass", "per byte", "reader/pass");
    for case in cases().iter().filter(|case| case.name.contains(&options.only)) {
        let cost = if options.instructions { instructions } else { time };
        println!("{}", line(case, [cost(case, &case.reader)?, cost(case, &PASS)?]));
    }
    Ok(())
}

fn once(symbol: &str, file: &str) -> Result<(), String> {
    let bytes = std::fs::read(file).map_err(|error| format!("{file}: {error}"))?;
    let function = ALL.iter().find(|function| function.symbol == symbol).ok_or("no such function")?;
    (function.call)(&bytes);
    Ok(())
}

fn time(case: &Case, function: &Measured) -> Result<f64, String> {
    Ok(nanoseconds(|| (function.call)(std::hint::black_box(&case.bytes))))
}

fn line(case: &Case, [reader, pass]: [f64; 2]) -> String {
    let bytes = case.bytes.len();
    let per_byte = reader / bytes as f64;
    format!("{:<40}{bytes:>8}{reader:>12.0}{pass:>10.0}{per_byte:>10.2}{:>13.1}", case.name, reader / pass)
}

/// The instructions of one call, counted while the function and what it calls run.
fn instructions(case: &Case, function: &Measured) -> Result<f64, String> {
    let in_words = |error: std::io::Error| error.to_string();
    let file = std::env::temp_dir().join(format!("readers-{}", std::process::id()));
    std::fs::write(&file, &case.bytes).map_err(in_words)?;
    let counted = measure::instructions(function.symbol, &["--once", function.symbol, &file.to_string_lossy()]);
    std::fs::remove_file(&file).map_err(in_words)?;
    counted
}
