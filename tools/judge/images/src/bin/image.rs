//! The command `image`: text to images, and images to text.

use std::io::{Read, Write};
use std::process::ExitCode;

use images::bytes::Written;
use images::catalogue::{self, Catalogue, Table};
use images::show::{ImageKind, from_hex, hex, show};
use images::text::{self, TextError};
use images::{bound, row, statement};

const HELP: &str = "\
image catalogue FILE   the image of a catalogue that is written as text
image statement FILE   the image of one SQL statement
image row FILE         the image of a row, written as literals with commas between
image show [statement|catalogue|row|bound] FILE
                       an image as readable text, field by field, with byte positions; without a kind, each kind that
                       the bytes are an image of

FILE may be - for standard input. Further words, anywhere:
  -o FILE              write there, not to standard output
  --hex                print the image as hex; for show: the input is hex
  --as-is              the raw text of a statement is the whole text, white space at its ends included
  --catalogue FILE --table NAME
                       for a row: the table that it must obey. The catalogue may be text or an image

Exit status: 0; 1 where a text cannot be read or bytes are no image; 2 for bad usage.

The text of a catalogue:
  table runs id 7 version 3 tablets 1
    column serial id 4 TEXT not null
    column temp id 2 INT null
    key serial
Names are taken as written; in double quotes they may hold anything. # starts a comment.

The SQL is read by a small parser that is a convenience and not sqlparser. It knows CREATE TABLE, INSERT, SELECT, UPDATE,
DELETE, BEGIN, COMMIT, ROLLBACK and SHOW TABLES; any other statement becomes kind 9. A clause that the analyzer refuses
sets its mark: IF NOT EXISTS, AS SELECT and OR REPLACE; INSERT OR .., RETURNING and ON CONFLICT; DISTINCT, GROUP BY,
HAVING; WITH, ORDER BY, LIMIT; JOIN, aliases; USING; COLLATE; CONSTRAINT name ..; VALUES ROW (..); BEGIN IMMEDIATE; AND
CHAIN, TO SAVEPOINT; SHOW FULL TABLES. What SQL has no words for:
  [a + b] * c          grouping that leaves no parentheses in the tree
  unquoted\"x y\"        an unquoted name with any text
  number'+5'           a number with any text
  DELETE {tables} t    the first mark of a DELETE without FROM
An empty list is written as such: CREATE TABLE t (), UPDATE t SET WHERE ok, INSERT INTO t (a) VALUES, SELECT FROM t.
";

struct Usage(String);

/// What the words of the command line say.
#[derive(Default)]
struct Command {
    words: Vec<String>,
    out: Option<String>,
    hex: bool,
    as_is: bool,
    catalogue: Option<String>,
    table: Option<String>,
}

fn command(arguments: impl Iterator<Item = String>) -> Result<Command, Usage> {
    let mut command = Command::default();
    let mut arguments = arguments;
    while let Some(argument) = arguments.next() {
        let mut value = || arguments.next().ok_or(Usage(format!("{argument} needs a word behind it")));
        match argument.as_str() {
            "-o" => command.out = Some(value()?),
            "--catalogue" => command.catalogue = Some(value()?),
            "--table" => command.table = Some(value()?),
            "--hex" => command.hex = true,
            "--as-is" => command.as_is = true,
            "-h" | "--help" | "help" => command.words.insert(0, "help".to_string()),
            flag if flag.starts_with("--") => return Err(Usage(format!("{flag} is not known"))),
            _ => command.words.push(argument),
        }
    }
    Ok(command)
}

enum Failure {
    Usage(String),
    Refused(String),
}

fn refused<T>(message: impl Into<String>) -> Result<T, Failure> {
    Err(Failure::Refused(message.into()))
}

fn main() -> ExitCode {
    let result = match command(std::env::args().skip(1)) {
        Ok(command) => run(&command),
        Err(Usage(message)) => Err(Failure::Usage(message)),
    };
    match result {
        Ok(()) => ExitCode::SUCCESS,
        Err(Failure::Refused(message)) => {
            eprintln!("image: {message}");
            ExitCode::from(1)
        }
        Err(Failure::Usage(message)) => {
            eprintln!("image: {message}\n\n{HELP}");
            ExitCode::from(2)
        }
    }
}

fn run(command: &Command) -> Result<(), Failure> {
    let words: Vec<&str> = command.words.iter().map(String::as_str).collect();
    match words.as_slice() {
        ["help", ..] => write_out(command, HELP.as_bytes()),
        ["catalogue", file] => encode(command, file, text::catalogue::catalogue, Catalogue::encode),
        ["statement", file] => {
            encode(command, file, |text| read_statement(command, text), statement::Statement::encode)
        }
        ["row", file] => encode_row(command, file),
        ["show", file] => show_any(command, file),
        ["show", kind, file] => match ImageKind::ALL.into_iter().find(|known| known.name() == *kind) {
            Some(kind) => show_kind(command, kind, &image_bytes(command, file)?),
            None => Err(Failure::Usage(format!("{kind} is no kind of image"))),
        },
        _ => Err(Failure::Usage("which command, and on which file?".to_string())),
    }
}

fn read_bytes(file: &str) -> Result<Vec<u8>, Failure> {
    let mut bytes = Vec::new();
    let read = if file == "-" { std::io::stdin().read_to_end(&mut bytes).map(|_| bytes) } else { std::fs::read(file) };
    read.or_else(|error| refused(format!("{file}: {error}")))
}

fn read_text(file: &str) -> Result<String, Failure> {
    String::from_utf8(read_bytes(file)?).or_else(|_| refused(format!("{file}: the text is not UTF-8")))
}

fn write_out(command: &Command, bytes: &[u8]) -> Result<(), Failure> {
    let written = match &command.out {
        Some(file) => std::fs::write(file, bytes),
        None => std::io::stdout().write_all(bytes),
    };
    written.or_else(|error| refused(format!("{}: {error}", command.out.as_deref().unwrap_or("standard output"))))
}

fn read_statement(command: &Command, text: &str) -> Result<statement::Statement, TextError> {
    let mut statement = text::sql::statement(text)?;
    if command.as_is {
        statement.raw = text.to_string();
    }
    Ok(statement)
}

fn parse<V>(file: &str, text: &str, read: impl FnOnce(&str) -> Result<V, TextError>) -> Result<V, Failure> {
    read(text).or_else(|error| refused(format!("{file}: {}", error.in_text(text))))
}

fn encode<V>(
    command: &Command,
    file: &str,
    read: impl FnOnce(&str) -> Result<V, TextError>,
    write: impl FnOnce(&V) -> Written,
) -> Result<(), Failure> {
    let value = parse(file, &read_text(file)?, read)?;
    write_image(command, file, write(&value))
}

fn write_image(command: &Command, file: &str, image: Written) -> Result<(), Failure> {
    match image {
        Ok(image) if command.hex => write_out(command, format!("{}\n", hex(&image)).as_bytes()),
        Ok(image) => write_out(command, &image),
        Err(error) => refused(format!("{file}: {error}")),
    }
}

fn encode_row(command: &Command, file: &str) -> Result<(), Failure> {
    let value = parse(file, &read_text(file)?, text::row::row)?;
    let image = value.encode();
    if let (Some(table), Ok(image)) = (row_table(command)?, &image)
        && let Err(damage) = row::decode_of(image, &table)
    {
        return refused(format!("{file}: the row does not obey the table: {}", damage.message));
    }
    write_image(command, file, image)
}

/// The table that a row must obey, if the command names one.
fn row_table(command: &Command) -> Result<Option<Table>, Failure> {
    let (file, name) = match (&command.catalogue, &command.table) {
        (Some(file), Some(name)) => (file, name),
        (None, None) => return Ok(None),
        _ => return Err(Failure::Usage("--catalogue and --table belong together".to_string())),
    };
    let bytes = read_bytes(file)?;
    let catalogue = match catalogue::decode(&bytes) {
        Ok(catalogue) => catalogue,
        Err(_) => parse(file, &String::from_utf8_lossy(&bytes), text::catalogue::catalogue)?,
    };
    match catalogue.tables.into_iter().find(|table| table.name == *name) {
        Some(table) => Ok(Some(table)),
        None => refused(format!("{file}: there is no table {name:?}")),
    }
}

fn image_bytes(command: &Command, file: &str) -> Result<Vec<u8>, Failure> {
    if !command.hex {
        return read_bytes(file);
    }
    from_hex(&read_text(file)?).or_else(|error| refused(format!("{file}: {error}")))
}

fn show_kind(command: &Command, kind: ImageKind, image: &[u8]) -> Result<(), Failure> {
    let shown = show(kind, image, row_table(command)?.as_ref());
    write_out(command, shown.text.as_bytes())?;
    match shown.damage {
        None => Ok(()),
        Some(damage) => refused(format!("this is no {} image: {damage}", kind.name())),
    }
}

fn show_any(command: &Command, file: &str) -> Result<(), Failure> {
    let image = image_bytes(command, file)?;
    let kinds: Vec<ImageKind> = ImageKind::ALL.into_iter().filter(|kind| is_image(*kind, &image)).collect();
    if kinds.is_empty() {
        let tried: Vec<String> = ImageKind::ALL
            .iter()
            .filter_map(|kind| {
                show(*kind, &image, None).damage.map(|damage| format!("no {} image: {damage}", kind.name()))
            })
            .collect();
        return refused(format!("{file}: this is no image\n  {}", tried.join("\n  ")));
    }
    kinds.into_iter().try_for_each(|kind| show_kind(command, kind, &image))
}

fn is_image(kind: ImageKind, image: &[u8]) -> bool {
    match kind {
        ImageKind::Statement => statement::decode(image).is_ok(),
        ImageKind::Catalogue => catalogue::decode(image).is_ok(),
        ImageKind::Row => row::decode(image).is_ok(),
        ImageKind::Bound => bound::decode(image).is_ok(),
    }
}
