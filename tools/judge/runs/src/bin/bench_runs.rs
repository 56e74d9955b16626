//! The command `bench runs`.

use std::process::ExitCode;

use runs::measure::{UPDATE, sqlite_nanoseconds};
use runs::sqlite::version;

const HELP: &str = "\
bench runs    prints how many rows a second the runs table's first UPDATE is run on, by the fastest of many batches:
                SQLite          prepared once, and stepped over an in-memory table of one row
                sirklemet_run   the static library's, where SIRKLEMET_STATICLIB names one; it reads and binds the
                                statement and the catalogue again for each row
              It is no test
";

fn main() -> ExitCode {
    if std::env::args().len() > 1 {
        print!("{HELP}");
        return ExitCode::SUCCESS;
    }
    match run() {
        Ok(()) => ExitCode::SUCCESS,
        Err(message) => {
            eprintln!("bench runs: {message}");
            ExitCode::from(2)
        }
    }
}

fn run() -> Result<(), String> {
    println!("{UPDATE}\nthe fastest of many batches; nothing else should run on the machine");
    match sqlite_nanoseconds() {
        None => println!("SQLite: skipped (libsqlite3 is not found)"),
        Some(measured) => println!("{}", line(&format!("SQLite {}", version().unwrap_or_default()), measured?)),
    }
    match linked_nanoseconds()? {
        None => println!("sirklemet_run: skipped (SIRKLEMET_STATICLIB names no library)"),
        Some(measured) => println!("{}", line("sirklemet_run", measured)),
    }
    Ok(())
}

fn line(name: &str, nanoseconds: f64) -> String {
    format!("{name:<16}{:>12.0} rows a second{nanoseconds:>10.0} nanoseconds a row", 1e9 / nanoseconds)
}

#[cfg(not(feature = "linked"))]
fn linked_nanoseconds() -> Result<Option<f64>, String> {
    Ok(None)
}

#[cfg(feature = "linked")]
fn linked_nanoseconds() -> Result<Option<f64>, String> {
    use std::hint::black_box;

    use judge::measure::nanoseconds;
    use runs::compare::reply_differs;
    use runs::judge_run::judge_run;
    use runs::measure::case;
    use runs::other_side::OtherSide;
    use runs::other_side::linked::LinkedRunner;

    let case = case()?;
    let answer = judge_run(&case.statement, &case.catalogue, &case.row, case.room);
    if let Some(difference) = reply_differs(&case, &answer, &mut LinkedRunner) {
        return Err(format!("only a right answer is measured: {difference}"));
    }
    let mut out = vec![0; case.room];
    Ok(Some(nanoseconds(|| {
        black_box(LinkedRunner.run(black_box(&case), black_box(&mut out)));
    })))
}
