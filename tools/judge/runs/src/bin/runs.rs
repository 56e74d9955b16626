//! The command `runs`.

use std::process::ExitCode;

use images::show::{ImageKind, hex, show};
use runs::compare::Comparison;
use runs::generate::{Case, made};
use runs::mistakes::{mistaken, names};
use runs::record::record;
use runs::sqlite::{OneRow, version};

const HELP: &str = "\
runs --seed S --count N    N cases of seed S: paper 01's value rules in Rust beside SQLite, every expression over its row
                           and every whole UPDATE, and beside a static library's sirklemet_run, where
                           SIRKLEMET_STATICLIB names one: number, length, and every byte of the output. Prints counts,
                           the first difference, and last 'N compared, D differences'. Exit status 0 only where D is 0
     --from I              starts at case I, not 0; with --count 1 it runs one case again
     --mistake NAME        compares 01's rules with the same with a mistake planted; NAME 'list' lists them
     --record N --out FILE writes N small cases with their answers, and prints what they reach; the layout stands in
                           tools/judge/runs/RECORD
";

#[derive(Default)]
struct Command {
    seed: u64,
    count: u64,
    from: u64,
    mistake: Option<String>,
    record: Option<usize>,
    out: Option<String>,
    help: bool,
}

fn command(mut arguments: impl Iterator<Item = String>) -> Result<Command, String> {
    let mut command = Command { seed: 1, count: 20_000, ..Command::default() };
    while let Some(argument) = arguments.next() {
        let mut word = || arguments.next().ok_or(format!("{argument} needs a word behind it"));
        fn number<T: std::str::FromStr>(word: String) -> Result<T, String> {
            word.parse().map_err(|_| format!("{word} is no number"))
        }
        match argument.as_str() {
            "--seed" => command.seed = number(word()?)?,
            "--count" => command.count = number(word()?)?,
            "--from" => command.from = number(word()?)?,
            "--mistake" => command.mistake = Some(word()?),
            "--record" => command.record = Some(number(word()?)?),
            "--out" | "-o" => command.out = Some(word()?),
            "-h" | "--help" | "help" => command.help = true,
            _ => return Err(format!("{argument} is not known")),
        }
    }
    Ok(command)
}

fn main() -> ExitCode {
    let result = command(std::env::args().skip(1)).and_then(|command| run(&command));
    match result {
        Ok(true) => ExitCode::SUCCESS,
        Ok(false) => ExitCode::from(1),
        Err(message) => {
            eprintln!("runs: {message}\n\n{HELP}");
            ExitCode::from(2)
        }
    }
}

fn run(command: &Command) -> Result<bool, String> {
    if command.help {
        print!("{HELP}");
        return Ok(true);
    }
    if command.mistake.as_deref() == Some("list") {
        println!("{}", names().join("\n"));
        return Ok(true);
    }
    if let Some(count) = command.record {
        let file = command.out.as_deref().ok_or("--record needs --out FILE")?;
        let record = record(command.seed, count)?;
        std::fs::write(file, &record.bytes).map_err(|error| format!("{file}: {error}"))?;
        println!("{}\n{} bytes", record.tally.report(), record.bytes.len());
        return Ok(true);
    }
    compare(command)
}

/// The sides to compare with, and what to say about each.
fn sides(command: &Command) -> Result<(Comparison, String), String> {
    let mut comparison = Comparison::default();
    if let Some(name) = &command.mistake {
        let side = mistaken(name).ok_or(format!("{name} is no planted mistake; --mistake list lists them"))?;
        comparison.other = Some(Box::new(side));
        return Ok((comparison, format!("the other side: 01's rules with the mistake {name} planted")));
    }
    let sqlite = match OneRow::open() {
        None => "SQLite: skipped (libsqlite3 is not found)".to_string(),
        Some(open) => {
            comparison.sqlite = Some(open?);
            format!("SQLite: {}", version().unwrap_or_default())
        }
    };
    let linked = linked(&mut comparison);
    Ok((comparison, format!("{sqlite}; the other side: {linked}")))
}

#[cfg(feature = "linked")]
fn linked(comparison: &mut Comparison) -> &'static str {
    comparison.other = Some(Box::new(runs::other_side::linked::LinkedRunner));
    "the linked runner"
}

#[cfg(not(feature = "linked"))]
fn linked(_: &mut Comparison) -> &'static str {
    "none (SIRKLEMET_STATICLIB names no library)"
}

fn compare(command: &Command) -> Result<bool, String> {
    let (mut comparison, about) = sides(command)?;
    let end = command.from + command.count;
    println!("seed {}, cases {} to {end}; {about}\n", command.seed, command.from);
    let mut first = None;
    for index in command.from..end {
        let made = made(command.seed, index);
        if let Some(difference) = comparison.see(&made.case) {
            first.get_or_insert((index, made, difference));
        }
    }
    print!("{}", comparison.tally.report());
    if let Some((index, made, difference)) = first {
        println!("\nthe first difference is case {index}, with the faults: {}", made.faults.join("; "));
        print!("{}difference: {difference}\n", in_words(&made.case));
    }
    println!("\n{} compared, {} differences", comparison.tally.compared(), comparison.tally.differences());
    Ok(comparison.tally.differences() == 0)
}

fn in_words(case: &Case) -> String {
    let images =
        [(ImageKind::Statement, &case.statement), (ImageKind::Catalogue, &case.catalogue), (ImageKind::Row, &case.row)];
    let shown: String = images.map(|(kind, bytes)| show(kind, bytes, None).text).concat();
    let [statement, catalogue, row] = images.map(|(_, bytes)| hex(bytes));
    format!(
        "{shown}room: {}\nstatement in hex: {statement}\ncatalogue in hex: {catalogue}\nrow in hex: {row}\n",
        case.room
    )
}
