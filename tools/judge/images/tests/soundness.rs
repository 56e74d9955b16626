//! Catalogues that break one rule of soundness, and rows that do not obey, are refused at a named byte.

use images::bytes::Width;
use images::catalogue::{self, Catalogue, Column, Table};
use images::row::{self, Row};
use images::value::{ColumnType, Value};

fn column(id: u64, name: &str, nullable: bool) -> Column {
    Column { id, data_type: ColumnType::Int, nullable, name: name.to_string() }
}

fn table(id: u64, name: &str) -> Table {
    let columns = vec![column(4, "a", false), column(9, "b", true)];
    Table { id, version: 3, tablets: 1, name: name.to_string(), columns, key: vec![4] }
}

fn refusal(change: impl FnOnce(&mut Catalogue)) -> String {
    let mut catalogue = Catalogue { tables: vec![table(7, "runs"), table(8, "labels")] };
    change(&mut catalogue);
    catalogue::decode(&catalogue.encode_unjudged().unwrap()).unwrap_err().message
}

#[test]
fn each_rule_of_soundness() {
    assert!(refusal(|c| c.tables[1].id = 7).contains("earlier table has the id 7"));
    assert!(refusal(|c| c.tables[1].name = "runs".to_string()).contains("earlier table has the name"));
    assert!(refusal(|c| c.tables[0].columns[1].id = 0).contains("has the id 0"));
    assert!(refusal(|c| c.tables[0].columns[1].id = 4).contains("earlier column has the id 4"));
    assert!(refusal(|c| c.tables[0].columns[1].name = "a".to_string()).contains("earlier column has the name"));
    assert!(refusal(|c| c.tables[0].key.clear()).contains("the key is empty"));
    assert!(refusal(|c| c.tables[0].key.push(4)).contains("twice"));
    assert!(refusal(|c| c.tables[0].key.push(5)).contains("no column has it"));
    assert!(refusal(|c| c.tables[0].key.push(9)).contains("is nullable"));
}

#[test]
fn what_the_original_would_not_install_is_sound_here() {
    let mut odd = table(0, "");
    odd.version = 0;
    odd.tablets = 0;
    odd.columns[0].name = String::new();
    let catalogue = Catalogue { tables: vec![odd] };
    assert_eq!(catalogue::decode(&catalogue.encode().unwrap()), Ok(catalogue));
}

#[test]
fn rows_obey_or_are_refused() {
    let table = table(7, "runs");
    let check = |values: Vec<Value>| row::decode_of(&Row { values }.encode().unwrap(), &table);
    assert!(check(vec![Value::Int(1), Value::Null]).is_ok());
    assert!(check(vec![Value::Null, Value::Null]).is_err());
    assert!(check(vec![Value::Int(1), Value::Bool(true)]).is_err());
    assert!(check(vec![Value::Int(1)]).is_err());
    assert!(check(vec![Value::Int(1), Value::Null, Value::Null]).is_err());
}

#[test]
fn a_part_too_long_for_its_count_has_no_image() {
    assert_eq!(Width::Two.bytes(), 2);
    let long = |length: usize| Catalogue { tables: vec![table(7, &"x".repeat(length))] };
    assert!(long(60_000).encode().is_ok());
    assert!(long(65_536).encode().is_err());
}
