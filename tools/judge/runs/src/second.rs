//! SQLite as the second judge of what an expression comes to, and of the row after an UPDATE.
//!
//! The rules of paper 01 and of SQL differ in two things, and such cases are counted apart, though not left unjudged:
//!
//! - Paper 01 has faults. SQLite goes on, with a floating number where 64 bits overflow and with NULL where the divisor
//!   is zero. It is asked for the operands of the node where the fault arose and for that node.
//! - FALSE AND NULL and TRUE OR NULL are settled in SQL. SQLite is asked for a form in which they are not (`Form`).
//!
//! A third reason is SQLite's own: the stack of its parser holds 100 entries, and 64 levels can need more. Such an
//! expression is not judged here.

use images::bound::{Expression, NodeKind};
use images::catalogue::Table;
use images::row::Row;
use images::run::spans;
use images::statement::{Node, Update};
use images::value::Value;

use crate::evaluate::{Cause, Fault, Worked, null_meets_and_or};
use crate::sql::{self, Form};
use crate::sqlite::{Found, OneRow};

/// Why a case is counted apart.
#[derive(Debug, Clone, Copy, PartialEq, Eq)]
pub enum Reason {
    ZeroDivisor,
    Overflow,
    NullMeetsAndOr,
    TooDeep,
}

impl Reason {
    pub const ALL: [Reason; 4] = [Reason::ZeroDivisor, Reason::Overflow, Reason::NullMeetsAndOr, Reason::TooDeep];

    pub fn name(self) -> &'static str {
        match self {
            Reason::ZeroDivisor => "fault by 01: zero divisor",
            Reason::Overflow => "fault by 01: past 64 bits",
            Reason::NullMeetsAndOr => "AND, OR with NULL",
            Reason::TooDeep => "too deep for SQLite's parser",
        }
    }
}

#[derive(Debug, Clone, PartialEq, Eq)]
pub enum Seen {
    Alike,
    /// SQL says something else, for this reason, and SQLite bears the reason out; or it cannot be asked.
    Apart(Reason),
    Differs(String),
}

impl Seen {
    fn of_message(message: String) -> Seen {
        if message.contains("parser stack overflow") { Seen::Apart(Reason::TooDeep) } else { Seen::Differs(message) }
    }
}

/// An expression over the row that the one-row table holds.
pub struct Asked<'a> {
    pub table: &'a Table,
    /// As the statement has it.
    pub written: &'a [Node],
    /// As it is bound, and what each of its nodes comes to.
    pub bound: &'a Expression,
    pub worked: &'a [Worked],
}

impl Asked<'_> {
    pub fn see(&self, sqlite: &mut OneRow) -> Seen {
        self.judged(sqlite).unwrap_or_else(Seen::of_message)
    }

    fn judged(&self, sqlite: &mut OneRow) -> Result<Seen, String> {
        match self.worked.last().expect("an expression has a root") {
            Err(fault) => self.fault(sqlite, *fault),
            Ok(value) if null_meets_and_or(self.bound, self.worked) => {
                self.hold(sqlite, self.written, Form::Strict, value)?;
                Ok(Seen::Apart(Reason::NullMeetsAndOr))
            }
            Ok(value) => {
                self.hold(sqlite, self.written, Form::Plain, value)?;
                Ok(Seen::Alike)
            }
        }
    }

    fn hold(&self, sqlite: &mut OneRow, nodes: &[Node], form: Form, value: &Value) -> Result<(), String> {
        let text = sql::expression(nodes, self.table, form);
        let found = sqlite.ask(&text)?;
        if found.is(value) { Ok(()) } else { Err(format!("01 says {}, SQLite {found:?}: {text}", value.to_sql())) }
    }

    /// Every operand of the node is as 01 says, and the node itself has no INT.
    fn fault(&self, sqlite: &mut OneRow, fault: Fault) -> Result<Seen, String> {
        for operand in self.operands(fault.node) {
            let value = self.worked[operand].as_ref().map_err(|_| "a fault below the first one".to_string())?;
            self.hold(sqlite, self.written_at(operand), Form::Plain, value)?;
        }
        let text = sql::expression(self.written_at(fault.node), self.table, Form::Plain);
        let found = sqlite.ask(&text)?;
        match (fault.cause, &found) {
            (Cause::Overflow, Found::Real) => Ok(Seen::Apart(Reason::Overflow)),
            (Cause::ZeroDivisor, Found::Null) if self.divides_by_zero(fault.node) => {
                Ok(Seen::Apart(Reason::ZeroDivisor))
            }
            _ => Err(format!("01 says {:?}, SQLite {found:?}: {text}", fault.cause)),
        }
    }

    /// The operands were held to SQLite: what is left to see is that neither is NULL and the right one is 0.
    fn divides_by_zero(&self, node: usize) -> bool {
        let operands: Vec<&Worked> = self.operands(node).into_iter().map(|operand| &self.worked[operand]).collect();
        matches!(operands.as_slice(), [Ok(Value::Int(_)), Ok(Value::Int(0))])
    }

    fn operands(&self, node: usize) -> Vec<usize> {
        let spans = spans(&self.bound.nodes).expect("the nodes make a tree");
        match self.bound.nodes[node].kind {
            NodeKind::Column(_) | NodeKind::Literal(_) => Vec::new(),
            NodeKind::Binary(_) => vec![node - 1 - spans[node - 1], node - 1],
            _ => vec![node - 1],
        }
    }

    /// The nodes of the statement below and at a node of the bound expression.
    fn written_at(&self, node: usize) -> &[Node] {
        let place = sql::places(self.written)[node];
        let span = spans(self.written).expect("the nodes make a tree")[place];
        &self.written[place + 1 - span..=place]
    }
}

/// Runs the whole UPDATE on the row before, and holds the row to the one after.
pub fn see_update(sqlite: &mut OneRow, update: &Update, table: &Table, form: Form, rows: [&Row; 2]) -> Seen {
    let [before, after] = rows;
    let text = sql::update(update, table, form);
    let found = sqlite.set(before).and_then(|()| sqlite.execute(&text)).and_then(|()| sqlite.row(after.values.len()));
    match found {
        Err(message) => Seen::of_message(message),
        Ok(found) => match after.values.iter().zip(&found).position(|(value, found)| !found.is(value)) {
            None if form == Form::Strict => Seen::Apart(Reason::NullMeetsAndOr),
            None => Seen::Alike,
            Some(place) => {
                let value = after.values[place].to_sql();
                Seen::Differs(format!("01 leaves {value} at position {place}, SQLite {:?}: {text}", found[place]))
            }
        },
    }
}
