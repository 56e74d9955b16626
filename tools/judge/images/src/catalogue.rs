//! The catalogue image: tables, and the rules of a sound catalogue.

use std::collections::HashSet;

use crate::bytes::{Field, Log, NoImage, Read, Reader, Width, Written, bundle, damage, list};
use crate::value::ColumnType;

const WIDTH: Width = Width::Two;

#[derive(Debug, Clone, PartialEq, Eq, Default)]
pub struct Catalogue {
    pub tables: Vec<Table>,
}

#[derive(Debug, Clone, PartialEq, Eq)]
pub struct Table {
    pub id: u64,
    pub version: u64,
    pub tablets: u32,
    pub name: String,
    pub columns: Vec<Column>,
    /// Ids of columns, in key order.
    pub key: Vec<u64>,
}

#[derive(Debug, Clone, PartialEq, Eq)]
pub struct Column {
    pub id: u64,
    pub data_type: ColumnType,
    pub nullable: bool,
    pub name: String,
}

impl Catalogue {
    /// The image of a sound catalogue.
    pub fn encode(&self) -> Written {
        let image = self.encode_unjudged()?;
        match decode(&image) {
            Ok(_) => Ok(image),
            Err(damage) => Err(NoImage(format!("the catalogue is not sound: {}", damage.message))),
        }
    }

    /// The bytes of any catalogue, sound or not. Those of an unsound one are no image: tests need them.
    pub fn encode_unjudged(&self) -> Written {
        list(WIDTH, "tables", &self.tables, Table::encode)
    }
}

impl Table {
    fn encode(&self) -> Written {
        let numbers = [&self.id.to_le_bytes()[..], &self.version.to_le_bytes(), &self.tablets.to_le_bytes()].concat();
        let parts = [
            numbers,
            self.name.clone().into_bytes(),
            list(WIDTH, "columns", &self.columns, |column| column.encode(WIDTH))?,
            list(WIDTH, "key", &self.key, |id| Ok(id.to_le_bytes().to_vec()))?,
        ];
        bundle(WIDTH, "table", &parts)
    }

    pub fn column(&self, name: &str) -> Option<&Column> {
        self.columns.iter().find(|column| column.name == name)
    }
}

impl Column {
    /// In a catalogue counts have 2 bytes, in a bound statement 4.
    pub fn encode(&self, width: Width) -> Written {
        let numbers = [&self.id.to_le_bytes()[..], &[self.data_type.code(), u8::from(self.nullable)]].concat();
        bundle(width, "column", &[numbers, self.name.clone().into_bytes()])
    }

    pub fn decode(reader: Reader, width: Width) -> Read<Column> {
        let [mut numbers, mut name] = reader.record(width, "column")?;
        let column = Column {
            id: numbers.number(8, "column id")?,
            data_type: ColumnType::read(&mut numbers)?,
            nullable: numbers.mark("nullable")?,
            name: name.text("column name")?,
        };
        numbers.finish("numbers of a column")?;
        Ok(column)
    }
}

pub fn decode(image: &[u8]) -> Read<Catalogue> {
    let log = Log::off();
    decode_part(Reader::new(image, &log))
}

/// The value, and every field up to its end or to the damage.
pub fn explain(image: &[u8]) -> (Vec<Field>, Read<Catalogue>) {
    let log = Log::on();
    let value = decode_part(Reader::new(image, &log));
    (log.into_fields(), value)
}

fn decode_part(reader: Reader) -> Read<Catalogue> {
    let mut names = HashSet::new();
    let mut ids = HashSet::new();
    let tables = reader.list(WIDTH, "tables", "table", |part| {
        let table = decode_table(part)?;
        if !ids.insert(table.id) {
            return damage(part.at(), format!("an earlier table has the id {} as well", table.id));
        }
        if !names.insert(table.name.clone()) {
            return damage(part.at(), format!("an earlier table has the name {:?} as well", table.name));
        }
        Ok(table)
    })?;
    Ok(Catalogue { tables })
}

fn decode_table(reader: Reader) -> Read<Table> {
    let [mut numbers, mut name, columns, key] = reader.record(WIDTH, "table")?;
    let id = numbers.number(8, "table id")?;
    let version = numbers.number(8, "schema version")?;
    let tablets = numbers.number(4, "tablet count")? as u32;
    numbers.finish("numbers of a table")?;
    let name = name.text("table name")?;
    let columns = decode_columns(columns)?;
    let key = decode_key(key, &columns)?;
    Ok(Table { id, version, tablets, name, columns, key })
}

fn decode_columns(reader: Reader) -> Read<Vec<Column>> {
    let mut names = HashSet::new();
    let mut ids = HashSet::new();
    reader.list(WIDTH, "columns", "column", |part| {
        let column = Column::decode(part, WIDTH)?;
        if column.id == 0 {
            return damage(part.at(), format!("the column {:?} has the id 0", column.name));
        }
        if !ids.insert(column.id) {
            return damage(part.at(), format!("an earlier column has the id {} as well", column.id));
        }
        if !names.insert(column.name.clone()) {
            return damage(part.at(), format!("an earlier column has the name {:?} as well", column.name));
        }
        Ok(column)
    })
}

fn decode_key(reader: Reader, columns: &[Column]) -> Read<Vec<u64>> {
    let at = reader.at();
    let mut seen = HashSet::new();
    let key = reader.list(WIDTH, "key", "key column", |mut part| {
        let at = part.at();
        let id = part.number(8, "column id")?;
        part.finish("id of a key column")?;
        if !seen.insert(id) {
            return damage(at, format!("the key holds the id {id} twice"));
        }
        match columns.iter().find(|column| column.id == id) {
            None => damage(at, format!("the key holds the id {id}, and no column has it")),
            Some(column) if column.nullable => damage(at, format!("the key column {:?} is nullable", column.name)),
            Some(_) => Ok(id),
        }
    })?;
    if key.is_empty() {
        return damage(at, "the key is empty");
    }
    Ok(key)
}
