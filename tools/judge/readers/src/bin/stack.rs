//! The command `bench stack`.

use std::process::ExitCode;

use readers::stack::{Taken, asked, bind, run};

const HELP: &str = "\
bench stack    prints, for each case, the bytes of stack that sirklemet_bind and sirklemet_run take beyond the frame of
               their caller, and what they answer: 0, or the number of a refusal. Counted are the bytes down to the last
               one that a call changes. It is no test
";

fn main() -> ExitCode {
    if std::env::args().len() > 1 {
        print!("{HELP}");
        return ExitCode::SUCCESS;
    }
    match table() {
        Ok(()) => ExitCode::SUCCESS,
        Err(message) => {
            eprintln!("bench stack: {message}");
            ExitCode::from(2)
        }
    }
}

fn table() -> Result<(), String> {
    println!("{:<60}{:>10}{:>16}{:>16}", "bytes of stack (and the answer)", "image", "sirklemet_bind", "sirklemet_run");
    let mut most = [0, 0];
    for asked in asked()? {
        let taken = [bind(&asked.case), run(&asked.case)];
        most = [0, 1].map(|place| most[place].max(taken[place].bytes));
        let [bind, run] = taken.map(in_words);
        println!("{:<60}{:>10}{bind:>16}{run:>16}", asked.name, asked.case.statement.len());
    }
    println!("{:<70}{:>11}{:>16}", "the most of these", most[0], most[1]);
    Ok(())
}

fn in_words(taken: Taken) -> String {
    format!("{} ({:>2})", taken.bytes, taken.number)
}
