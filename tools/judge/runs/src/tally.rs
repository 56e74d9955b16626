//! Counts of what the cases were and what came of them.

use images::bound::{Expression, NodeKind};
use images::value::{Operator, Value};

use crate::evaluate::Worked;
use crate::second::{Reason, Seen};

/// 0 where there is a row, and the refusals.
pub const NUMBERS: usize = 13;

/// What was held to SQLite.
#[derive(Default)]
pub struct Held {
    pub alike: u64,
    apart: [u64; Reason::ALL.len()],
    pub differences: u64,
}

impl Held {
    pub fn add(&mut self, seen: &Seen) {
        match seen {
            Seen::Alike => self.alike += 1,
            Seen::Apart(reason) => self.apart[*reason as usize] += 1,
            Seen::Differs(_) => self.differences += 1,
        }
    }

    /// All but those that SQLite could not be asked for.
    pub fn compared(&self) -> u64 {
        let borne_out = Reason::ALL.into_iter().filter(|reason| *reason != Reason::TooDeep);
        self.alike + borne_out.map(|reason| self.apart[reason as usize]).sum::<u64>() + self.differences
    }

    fn line(&self, name: &str) -> String {
        let mut text = format!("{name:<16}{:>12} alike", self.alike);
        for reason in Reason::ALL {
            text.push_str(&format!("; {} {}", self.apart[reason as usize], reason.name()));
        }
        text.push_str(&format!("; {} differences\n", self.differences));
        text
    }
}

/// What an operator came to: a value, NULL, a fault of its own, or the fault of an operand.
pub const ENDS: [&str; 4] = ["value", "NULL", "fault", "operand's"];

/// The 13 binary operators, then the five of one operand.
pub const OPERATORS: usize = Operator::ALL.len() + 5;

fn operator_name(place: usize) -> &'static str {
    match Operator::ALL.get(place) {
        Some(operator) => operator.sign(),
        None => ["unary +", "unary -", "NOT", "IS NULL", "IS NOT NULL"][place - Operator::ALL.len()],
    }
}

fn operator_place(kind: &NodeKind) -> Option<usize> {
    let unary = match kind {
        NodeKind::Column(_) | NodeKind::Literal(_) => return None,
        NodeKind::Binary(operator) => return Some(usize::from(operator.code())),
        NodeKind::Positive => 0,
        NodeKind::Negative => 1,
        NodeKind::Not => 2,
        NodeKind::IsNull => 3,
        NodeKind::IsNotNull => 4,
    };
    Some(Operator::ALL.len() + unary)
}

fn end(number: usize, worked: &Worked) -> usize {
    match worked {
        Ok(Value::Null) => 1,
        Ok(_) => 0,
        Err(fault) if fault.node == number => 2,
        Err(_) => 3,
    }
}

/// Whether an operator can come to such an end at all.
pub fn can_end(operator: usize, end: usize) -> bool {
    let arithmetic = operator < 5;
    let negative = Operator::ALL.len() + 1;
    let null_test = operator >= Operator::ALL.len() + 3;
    match end {
        1 => !null_test,
        2 => arithmetic || operator == negative,
        _ => true,
    }
}

#[derive(Default)]
pub struct Tally {
    pub cases: u64,
    answers: [u64; NUMBERS],
    pub ends: [[u64; ENDS.len()]; OPERATORS],
    pub expressions: Held,
    pub updates: Held,
    /// Rows that an UPDATE changed, and rows that it left as they were.
    rows: [u64; 2],
    /// Replies of the other side that were compared, and those that differed.
    pub replies: u64,
    pub replies_differ: u64,
}

impl Tally {
    pub fn answer(&mut self, number: u8) {
        self.cases += 1;
        self.answers[usize::from(number)] += 1;
    }

    pub fn nodes(&mut self, expression: &Expression, worked: &[Worked]) {
        for (number, (node, worked)) in expression.nodes.iter().zip(worked).enumerate() {
            if let Some(place) = operator_place(&node.kind) {
                self.ends[place][end(number, worked)] += 1;
            }
        }
    }

    pub fn row(&mut self, changed: bool) {
        self.rows[usize::from(!changed)] += 1;
    }

    pub fn compared(&self) -> u64 {
        self.expressions.compared() + self.updates.compared() + self.replies
    }

    pub fn differences(&self) -> u64 {
        self.expressions.differences + self.updates.differences + self.replies_differ
    }

    /// The answers, and the ends of operators, that no case came to.
    pub fn missing(&self) -> Vec<String> {
        let answers = (0..NUMBERS).filter(|number| self.answers[*number] == 0).map(|number| format!("answer {number}"));
        let ends = (0..OPERATORS).flat_map(|operator| (0..ENDS.len()).map(move |end| (operator, end)));
        let ends = ends.filter(|(operator, end)| can_end(*operator, *end) && self.ends[*operator][*end] == 0);
        answers.chain(ends.map(|(operator, end)| format!("{} {}", operator_name(operator), ENDS[end]))).collect()
    }

    pub fn report(&self) -> String {
        let mut text = self.answers_table();
        text.push_str(&self.operators_table());
        for missing in self.missing() {
            text.push_str(&format!("not reached: {missing}\n"));
        }
        if self.expressions.compared() > 0 {
            text.push_str("\nby 01's rules and by SQLite\n");
            text.push_str(&self.expressions.line("expressions"));
            text.push_str(&self.updates.line("whole UPDATEs"));
        }
        if self.replies > 0 {
            let alike = self.replies - self.replies_differ;
            text.push_str(&format!(
                "\nby 01's rules and by the other side\nreplies         {alike:>12} alike; {} differences\n",
                self.replies_differ
            ));
        }
        text
    }

    fn answers_table(&self) -> String {
        let mut text = format!("{:<14}", "answered with");
        (1..NUMBERS).for_each(|number| text.push_str(&format!("{number:>8}")));
        text.push_str(&format!("{:>10}{:>10}\n{:<14}", "a row", "all", "cases"));
        self.answers[1..].iter().for_each(|count| text.push_str(&format!("{count:>8}")));
        text.push_str(&format!("{:>10}{:>10}\n", self.answers[0], self.cases));
        text.push_str(&format!("rows that changed: {}, that stayed as they were: {}\n\n", self.rows[0], self.rows[1]));
        text
    }

    fn operators_table(&self) -> String {
        let mut text = format!("{:<14}", "came to");
        ENDS.iter().for_each(|end| text.push_str(&format!("{end:>11}")));
        text.push('\n');
        for (place, ends) in self.ends.iter().enumerate() {
            text.push_str(&format!("{:<14}", operator_name(place)));
            ends.iter().for_each(|count| text.push_str(&format!("{count:>11}")));
            text.push('\n');
        }
        text
    }
}

#[cfg(test)]
mod tests {
    use super::*;

    #[test]
    fn what_sqlite_cannot_be_asked_is_not_compared() {
        let mut held = Held::default();
        let reasons = Reason::ALL.map(Seen::Apart);
        reasons.iter().chain([&Seen::Alike, &Seen::Differs(String::new())]).for_each(|seen| held.add(seen));
        assert_eq!((held.alike, held.differences, held.compared()), (1, 1, 5));
    }

    #[test]
    fn nothing_is_reached_before_a_case() {
        let missing = Tally::default().missing();
        assert!(missing.contains(&"answer 12".to_string()) && missing.contains(&"unary - fault".to_string()));
        assert!(!missing.contains(&"IS NULL NULL".to_string()) && !missing.contains(&"= fault".to_string()));
    }
}
