//! The command `bench`.

use std::hint::black_box;
use std::process::ExitCode;

use images::{catalogue as image_catalogue, statement as image_statement};
use judge::analyzer::analyze;
use judge::decode::{self, Choice};
use judge::generate::Case;
use judge::judge::judge;
use judge::measure::{Measured, cases, growing, instructions, nanoseconds};

const HELP: &str = "\
bench           prints nanoseconds per call for a few cases, the fastest of many batches, in some 20 seconds:
                  analyze   the Rust's analyze() alone, on a statement and a catalogue in memory
                  decoded   decoding both images, then analyze()
                  pass      a plain pass over both images: the sum of their bytes
                  bind      the static library's sirklemet_bind, where SIRKLEMET_STATICLIB names one
                and their ratios. It is no test
bench growth    the same for statements that grow
bench instructions
                the instructions of one call of the static library's sirklemet_bind for the cases of `bench`, counted by
                valgrind: these do not depend on what else runs
";

fn main() -> ExitCode {
    let words: Vec<String> = std::env::args().skip(1).collect();
    let ended = match words.iter().map(String::as_str).collect::<Vec<_>>().as_slice() {
        [] => cases().and_then(|measured| run(&measured)),
        ["growth"] => growing().and_then(|measured| run(&measured)),
        ["instructions"] => cases().and_then(|measured| count(&measured)),
        ["--once", name] => cases().and_then(|measured| once(&measured, name)),
        _ => {
            print!("{HELP}");
            return ExitCode::SUCCESS;
        }
    };
    match ended {
        Ok(()) => ExitCode::SUCCESS,
        Err(message) => {
            eprintln!("bench: {message}");
            ExitCode::from(2)
        }
    }
}

fn run(cases: &[Measured]) -> Result<(), String> {
    println!("nanoseconds per call, the fastest of many batches; nothing else should run on the machine");
    println!("{}", heading());
    for measured in cases {
        let number = judge(&measured.case.statement, &measured.case.catalogue, measured.case.room).number();
        if number != 0 {
            return Err(format!(
                "{}: the Rust refuses it with {number}, and only what binds is measured",
                measured.name
            ));
        }
        println!("{}", line(measured)?);
    }
    Ok(())
}

fn count(cases: &[Measured]) -> Result<(), String> {
    if !cfg!(feature = "linked") {
        return Err("no static library: SIRKLEMET_STATICLIB names one".into());
    }
    println!("instructions per call of sirklemet_bind");
    for measured in cases {
        println!("{:<32}{:>12.0}", measured.name, instructions("sirklemet_bind", &["--once", measured.name])?);
    }
    Ok(())
}

/// For the profiler: one call on the case of this name.
fn once(cases: &[Measured], name: &str) -> Result<(), String> {
    let measured = cases.iter().find(|measured| measured.name == name).ok_or("no such case")?;
    bind_once(&measured.case)
}

fn heading() -> String {
    let mut text = format!("{:<32}{:>8}{:>10}{:>10}{:>8}", "", "bytes", "analyze", "decoded", "pass");
    text.push_str(&format!("{:>17}{:>13}", "decoded/analyze", "decoded/pass"));
    if cfg!(feature = "linked") {
        text.push_str(&format!("{:>10}{:>14}{:>14}{:>11}", "bind", "bind/analyze", "bind/decoded", "bind/pass"));
    }
    text
}

fn line(measured: &Measured) -> Result<String, String> {
    let case = &measured.case;
    let alone = analyze_alone(case)?;
    let decoded = nanoseconds(|| decode_and_analyze(case));
    let pass = nanoseconds(|| plain_pass(case));
    let mut text = format!("{:<32}{:>8}{alone:>10.0}{decoded:>10.0}{pass:>8.0}", measured.name, case.size());
    text.push_str(&format!("{:>17.2}{:>13.1}", decoded / alone, decoded / pass));
    if let Some(bind) = linked_bind(case)? {
        text.push_str(&format!("{bind:>10.0}{:>14.2}{:>14.2}{:>11.1}", bind / alone, bind / decoded, bind / pass));
    }
    Ok(text)
}

fn analyze_alone(case: &Case) -> Result<f64, String> {
    let statement = image_statement::decode(&case.statement).map_err(|damage| damage.to_string())?;
    let catalogue = image_catalogue::decode(&case.catalogue).map_err(|damage| damage.to_string())?;
    let parsed = decode::statement(&statement, &mut Choice::new(0));
    let tables = decode::catalog(&catalogue);
    Ok(nanoseconds(|| drop(black_box(analyze(black_box(&parsed), black_box(&tables))))))
}

fn decode_and_analyze(case: &Case) {
    let statement = image_statement::decode(black_box(&case.statement)).expect("it was decoded before");
    let catalogue = image_catalogue::decode(black_box(&case.catalogue)).expect("it was decoded before");
    let parsed = decode::statement(&statement, &mut Choice::new(0));
    drop(black_box(analyze(&parsed, &decode::catalog(&catalogue))));
}

fn plain_pass(case: &Case) {
    let sum = |bytes: &[u8]| bytes.iter().map(|byte| u64::from(*byte)).sum::<u64>();
    black_box(sum(black_box(&case.statement)) + sum(black_box(&case.catalogue)));
}

#[cfg(not(feature = "linked"))]
fn linked_bind(_: &Case) -> Result<Option<f64>, String> {
    Ok(None)
}

#[cfg(not(feature = "linked"))]
fn bind_once(_: &Case) -> Result<(), String> {
    Ok(())
}

#[cfg(feature = "linked")]
fn bind_once(case: &Case) -> Result<(), String> {
    use judge::compare::other_side::OtherSide;
    use judge::compare::other_side::linked::LinkedBinder;

    let reply = LinkedBinder.bind(&case.statement, &case.catalogue, &mut vec![0; case.room]);
    if reply.number != 0 {
        return Err(format!("the static library refuses it with {}, and only what binds is measured", reply.number));
    }
    Ok(())
}

#[cfg(feature = "linked")]
fn linked_bind(case: &Case) -> Result<Option<f64>, String> {
    use judge::compare::other_side::OtherSide;
    use judge::compare::other_side::linked::LinkedBinder;

    bind_once(case)?;
    let mut out = vec![0; case.room];
    let mut call = || LinkedBinder.bind(black_box(&case.statement), black_box(&case.catalogue), black_box(&mut out));
    Ok(Some(nanoseconds(|| {
        black_box(call());
    })))
}
