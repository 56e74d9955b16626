//! The command `compare`.

use std::process::ExitCode;

use images::show::{ImageKind, hex, show};
use judge::compare::mistakes::{mistaken, names};
use judge::compare::record::record;
use judge::compare::sample::sample;
use judge::compare::shrink::shrink;
use judge::compare::tally::{PAIRED, Tally};
use judge::compare::{Outcome, Side, run_case};
use judge::generate::{Case, planted};
use judge::judge::Answer;

const HELP: &str = "\
compare --seed S --count N    runs N cases of seed S on both sides and compares the answers: the number, the length, and
                              every byte of the output. Prints counts, the first difference made small, and last
                              'N compared, D differences'. Exit status 0 only where D is 0
        --from I              starts at case I, not 0; with --count 1 it runs one case again
        --places              also counts every place of the Rust and every planted fault
        --mistake NAME        the other side is the Rust with a mistake planted; NAME 'list' lists them
        --sample N --out FILE writes N cases with the Rust's answers; the format stands at the top of the file
        --record N --out FILE writes N small cases with the Rust's answers as bytes, and prints what they reach; the
                              layout stands in crates/replay/data/README
compare --judge STATEMENT CATALOGUE [--out FILE]
                              what the Rust answers for two image files: 'bound N' or 'refused R', and why. FILE gets
                              the bound image
";

#[derive(Default)]
struct Command {
    seed: u64,
    count: u64,
    from: u64,
    places: bool,
    mistake: Option<String>,
    sample: Option<usize>,
    record: Option<usize>,
    out: Option<String>,
    judge: Option<[String; 2]>,
    help: bool,
}

fn command(arguments: impl Iterator<Item = String>) -> Result<Command, String> {
    let mut command = Command { seed: 1, count: 20_000, ..Command::default() };
    let mut arguments = arguments;
    while let Some(argument) = arguments.next() {
        let mut word = || arguments.next().ok_or(format!("{argument} needs a word behind it"));
        fn number<T: std::str::FromStr>(word: String) -> Result<T, String> {
            word.parse().map_err(|_| format!("{word} is no number"))
        }
        match argument.as_str() {
            "--seed" => command.seed = number(word()?)?,
            "--count" => command.count = number(word()?)?,
            "--from" => command.from = number(word()?)?,
            "--places" => command.places = true,
            "--mistake" => command.mistake = Some(word()?),
            "--sample" => command.sample = Some(number(word()?)?),
            "--record" => command.record = Some(number(word()?)?),
            "--out" | "-o" => command.out = Some(word()?),
            "--judge" => command.judge = Some([word()?, word()?]),
            "-h" | "--help" | "help" => command.help = true,
            _ => return Err(format!("{argument} is not known")),
        }
    }
    Ok(command)
}

fn main() -> ExitCode {
    let result = command(std::env::args().skip(1)).and_then(|command| run(&command));
    match result {
        Ok(true) => ExitCode::SUCCESS,
        Ok(false) => ExitCode::from(1),
        Err(message) => {
            eprintln!("compare: {message}\n\n{HELP}");
            ExitCode::from(2)
        }
    }
}

fn run(command: &Command) -> Result<bool, String> {
    if command.help {
        print!("{HELP}");
        return Ok(true);
    }
    if let Some([statement, catalogue]) = &command.judge {
        return judge_files(statement, catalogue, command.out.as_deref());
    }
    if command.mistake.as_deref() == Some("list") {
        println!("{}", names().join("\n"));
        return Ok(true);
    }
    if let Some(count) = command.sample {
        write(command, "--sample", sample(command.seed, count).as_bytes())?;
        return Ok(true);
    }
    if let Some(count) = command.record {
        let record = record(command.seed, count)?;
        write(command, "--record", &record.bytes)?;
        println!("{}\n{} bytes", record.tally.report(false), record.bytes.len());
        return Ok(true);
    }
    compare(command)
}

fn write(command: &Command, option: &str, bytes: &[u8]) -> Result<(), String> {
    let file = command.out.as_deref().ok_or(format!("{option} needs --out FILE"))?;
    std::fs::write(file, bytes).map_err(|error| format!("{file}: {error}"))
}

fn judge_files(statement: &str, catalogue: &str, out: Option<&str>) -> Result<bool, String> {
    let read = |file: &str| std::fs::read(file).map_err(|error| format!("{file}: {error}"));
    let case = Case { statement: read(statement)?, catalogue: read(catalogue)?, room: usize::MAX };
    let verdict =
        judge::judge::judge_with(&case.statement, &case.catalogue, case.room, &mut judge::decode::Choice::new(0));
    match verdict.answer {
        Answer::Bound(image) => {
            println!("bound {}", image.len());
            match out {
                Some(file) => std::fs::write(file, image).map_err(|error| format!("{file}: {error}"))?,
                None => print!("{}", show(ImageKind::Bound, &image, None).text),
            }
        }
        Answer::Refused(number) => println!("refused {number}\n{}", verdict.reason),
    }
    Ok(true)
}

/// The side to compare with, and what to say about it.
fn other_side(command: &Command) -> Result<(Side, String), String> {
    if let Some(name) = &command.mistake {
        let side = mistaken(name).ok_or(format!("{name} is no planted mistake; --mistake list lists them"))?;
        return Ok((Some(Box::new(side)), format!("the Rust with the mistake {name} planted")));
    }
    #[cfg(feature = "linked")]
    return Ok((Some(Box::new(judge::compare::other_side::linked::LinkedBinder)), "the linked binder".to_string()));
    #[cfg(not(feature = "linked"))]
    Ok((None, "none yet: the Rust runs alone, and every image is held to its round trips".to_string()))
}

fn compare(command: &Command) -> Result<bool, String> {
    let (mut other, about) = other_side(command)?;
    println!(
        "seed {}, cases {} to {}; the other side: {about}\n",
        command.seed,
        command.from,
        command.from + command.count
    );
    let mut tally = Tally::default();
    let mut differences = 0;
    let mut first = None;
    for index in command.from..command.from + command.count {
        let made = planted(command.seed, index);
        let outcome = run_case(&made.case, &mut other, index);
        tally.add(&made.case, &outcome.verdict);
        made.faults.iter().for_each(|fault| tally.add_fault(fault));
        if index - command.from < PAIRED
            && let Some([one, two]) = made.alone()
        {
            tally.add_pair(one, two);
        }
        if outcome.difference.is_some() {
            differences += 1;
            first.get_or_insert((index, made));
        }
    }
    print!("{}", tally.report(command.places));
    if let Some((index, made)) = first {
        println!("\nthe first difference is case {index}, with the faults: {}", made.faults.join("; "));
        print!("{}", small_difference(&made.case, index, &mut other));
    }
    println!("\n{} compared, {differences} differences", command.count);
    Ok(differences == 0)
}

/// The smallest case that still differs, readably.
fn small_difference(case: &Case, index: u64, other: &mut Side) -> String {
    let small = shrink(case, &mut |case| run_case(case, other, index).difference.is_some());
    let Outcome { verdict, difference } = run_case(&small, other, index);
    format!(
        "made small:\n{}{}room: {}\nthe Rust: {} ({})\ndifference: {}\nstatement in hex: {}\ncatalogue in hex: {}\n",
        show(ImageKind::Statement, &small.statement, None).text,
        show(ImageKind::Catalogue, &small.catalogue, None).text,
        small.room,
        verdict.answer.number(),
        verdict.reason,
        difference.unwrap_or_default(),
        hex(&small.statement),
        hex(&small.catalogue),
    )
}
