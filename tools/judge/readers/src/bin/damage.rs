//! The command `damage`.

use std::process::ExitCode;

use images::show::hex;
use readers::compare::{Difference, compare, small_image};
use readers::mistakes::{MISTAKES, Mistake, named};
use readers::operations::binding::Binding;
use readers::operations::running::Running;
use readers::operations::{self, Operation};
use readers::sides::Asked;

const HELP: &str = "\
damage --seed S --count N    N images of seed S, judged by the Rust decoder and by the proved readers: what the generator
                             makes, copies with each byte changed, moved, removed or doubled, cut at each length, and
                             spliced. Prints counts, the first difference, and last 'N compared, D differences'. Exit
                             status 0 only where D is 0
       --at bind|run         the same at sirklemet_bind or sirklemet_run, beside what the Rust answers: the number, the
                             length and every byte of the output, with more room than is needed, with exactly as much,
                             with one byte less and with none. N counts the damaged cases
       --mistake NAME        the Rust side has a mistake planted; NAME 'list' lists them. With --at the other side is the
                             Rust with a mistake planted
       --seeds FOLDER        compares nothing, and writes N small images to files of the folder
";

struct Command {
    seed: u64,
    count: u64,
    at: Option<String>,
    mistake: Option<String>,
    seeds: Option<String>,
    help: bool,
}

fn command(mut arguments: impl Iterator<Item = String>) -> Result<Command, String> {
    let mut command = Command { seed: 1, count: 100_000, at: None, mistake: None, seeds: None, help: false };
    while let Some(argument) = arguments.next() {
        let mut word = || arguments.next().ok_or(format!("{argument} needs a word behind it"));
        let number = |word: String| word.parse().map_err(|_| format!("{word} is no number"));
        match argument.as_str() {
            "--seed" => command.seed = number(word()?)?,
            "--count" => command.count = number(word()?)?,
            "--at" => command.at = Some(word()?),
            "--mistake" => command.mistake = Some(word()?),
            "--seeds" => command.seeds = Some(word()?),
            "-h" | "--help" | "help" => command.help = true,
            _ => return Err(format!("{argument} is not known")),
        }
    }
    Ok(command)
}

fn main() -> ExitCode {
    let result = command(std::env::args().skip(1)).and_then(|command| run(&command));
    match result {
        Ok(true) => ExitCode::SUCCESS,
        Ok(false) => ExitCode::from(1),
        Err(message) => {
            eprintln!("damage: {message}\n\n{HELP}");
            ExitCode::from(2)
        }
    }
}

fn run(command: &Command) -> Result<bool, String> {
    if command.help {
        print!("{HELP}");
        return Ok(true);
    }
    if let Some(folder) = &command.seeds {
        return write_seeds(command, folder).map(|()| true);
    }
    match command.at.as_deref() {
        None => at_the_readers(command),
        Some("bind") => at_binding(command),
        Some("run") => at_running(command),
        Some(other) => Err(format!("{other} is neither bind nor run")),
    }
}

fn at_the_readers(command: &Command) -> Result<bool, String> {
    match command.mistake.as_deref() {
        Some("list") => {
            MISTAKES.iter().for_each(|mistake| println!("{}", mistake.name));
            Ok(true)
        }
        Some(name) => {
            let mistake = named(name).ok_or_else(|| no_mistake(name))?;
            Ok(compared(command, Some(mistake)))
        }
        None => Ok(compared(command, None)),
    }
}

fn no_mistake(name: &str) -> String {
    format!("{name} is no planted mistake; --mistake list lists them")
}

fn at_binding(command: &Command) -> Result<bool, String> {
    let operation = match command.mistake.as_deref() {
        Some("list") => return listed(&Binding::mistakes()),
        Some(name) => Binding::mistaken(name).ok_or_else(|| no_mistake(name))?,
        None => Binding::default(),
    };
    Ok(operated(command, "sirklemet_bind", operation))
}

fn at_running(command: &Command) -> Result<bool, String> {
    let operation = match command.mistake.as_deref() {
        Some("list") => return listed(&Running::mistakes()),
        Some(name) => Running::mistaken(name).ok_or_else(|| no_mistake(name))?,
        None => Running::default(),
    };
    Ok(operated(command, "sirklemet_run", operation))
}

fn listed(names: &[&str]) -> Result<bool, String> {
    println!("{}", names.join("\n"));
    Ok(true)
}

fn operated(command: &Command, name: &str, mut operation: impl Operation) -> bool {
    let other = match &command.mistake {
        Some(mistake) => format!("the Rust with the mistake {mistake} planted in place of {name}"),
        None => name.to_string(),
    };
    println!("seed {}; the Rust, and {other}\n", command.seed);
    let comparison = operations::compare::compare(&mut operation, command.seed, command.count);
    print!("{}", comparison.tally.report());
    if let Some(first) = &comparison.first {
        let operations::compare::Difference { case, way, words } = first;
        let [statement, catalogue, row] = [&case.statement, &case.catalogue, &case.row].map(|bytes| hex(bytes));
        println!("\nthe first difference, {}, in a room of {} bytes: {words}", way.name(), case.room);
        println!("statement in hex: {statement}\ncatalogue in hex: {catalogue}\nrow in hex: {row}");
    }
    let (cases, calls) = (comparison.tally.all(), comparison.tally.calls());
    println!("{calls} calls\n\n{cases} compared, {} differences", comparison.differences);
    comparison.differences == 0
}

fn write_seeds(command: &Command, folder: &str) -> Result<(), String> {
    for index in 0..command.count {
        let (kind, image) = small_image(command.seed, index);
        let file = format!("{folder}/{}-{index}", kind.name().replace(' ', "-"));
        std::fs::write(&file, image).map_err(|error| format!("{file}: {error}"))?;
    }
    Ok(())
}

fn compared(command: &Command, mistake: Option<&'static Mistake>) -> bool {
    let about = mistake.map_or(String::new(), |mistake| format!(" with the mistake {} planted", mistake.name));
    println!("seed {}; the Rust decoder{about} and the proved readers\n", command.seed);
    let comparison = compare(mistake, command.seed, command.count);
    print!("{}", comparison.tally.report());
    if let Some(first) = &comparison.first {
        print!("{}", in_words(first));
    }
    println!("\n{} compared, {} differences", comparison.tally.all(), comparison.differences);
    comparison.differences == 0
}

fn in_words(difference: &Difference) -> String {
    let Difference { asked, way, bytes, rust, proved } = difference;
    let name = |number: u8| if number == 0 { "taken".to_string() } else { format!("refused {number}") };
    let table = match asked {
        Asked::RowOf(table) => format!("table {} of the catalogue {}\n", table.number, hex(&table.tables)),
        _ => String::new(),
    };
    format!(
        "\nthe first difference: a {}, {}, of {} bytes\nthe Rust: {} ({})\nthe proved reader: {}\nin hex: {}\n{table}",
        asked.kind().name(),
        way.name(),
        bytes.len(),
        name(rust.number),
        rust.reason,
        name(*proved),
        hex(bytes),
    )
}
