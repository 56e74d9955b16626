//! Makes a case that shows a difference as small as it will go.

use images::catalogue::{self, Catalogue, Column, Table as CatalogueTable};
use images::run::spans;
use images::statement::{
    self, Assignment, ColumnDefinition, ColumnOption, Constraint, CreateTable, DataType, Delete, DeleteFrom,
    Expression, Insert, Item, Name, Node, ObjectName, OptionKind, Query, Relation, Select, Source, Statement, Table,
    Target, Tree, Update, Values,
};

use crate::generate::{Case, Room};
use crate::judge::{Answer, judge};

/// Values that are a step smaller.
trait Shrink: Sized + Clone {
    fn smaller(&self) -> Vec<Self>;
}

/// A smaller case that still differs, and is as small as single steps can make it.
pub fn shrink(case: &Case, differs: &mut dyn FnMut(&Case) -> bool) -> Case {
    let mut best = case.clone();
    let refit = room_rule(case);
    loop {
        let smaller = candidates(&best).into_iter().filter(|next| size(next) < size(&best)).map(&refit);
        match smaller.into_iter().find(|next| differs(next)) {
            Some(next) => best = next,
            None => return best,
        }
    }
}

/// A room that fits its answer exactly, or is one short of it, must stay so while the answer shrinks.
fn room_rule(case: &Case) -> impl Fn(Case) -> Case + use<> {
    let rule = match judge(&case.statement, &case.catalogue, usize::MAX) {
        Answer::Bound(image) if image.len() == case.room => Some(Room::Exact),
        Answer::Bound(image) if image.len() == case.room + 1 => Some(Room::OneShort),
        _ => None,
    };
    move |case| match rule {
        Some(rule) => Case { room: rule.bytes(&judge(&case.statement, &case.catalogue, usize::MAX)), ..case },
        None => case,
    }
}

/// Fewer bytes first, then lower ones: every step makes this smaller, so shrinking ends.
fn size(case: &Case) -> (usize, u64) {
    let bytes = || case.statement.iter().chain(&case.catalogue);
    (bytes().count(), bytes().map(|byte| u64::from(*byte)).sum())
}

fn candidates(case: &Case) -> Vec<Case> {
    let statements = match statement::decode(&case.statement) {
        Ok(value) => value.smaller().iter().filter_map(|value| value.encode().ok()).collect(),
        Err(_) => case.statement.smaller(),
    };
    let catalogues = match catalogue::decode(&case.catalogue) {
        Ok(value) => value.smaller().iter().filter_map(|value| value.encode_unjudged().ok()).collect(),
        Err(_) => case.catalogue.smaller(),
    };
    let renamed = renamed(case);
    let with_catalogue = catalogues.into_iter().map(|catalogue| Case { catalogue, ..case.clone() });
    let with_statement = statements.into_iter().map(|statement| Case { statement, ..case.clone() });
    with_catalogue.chain(with_statement).chain(renamed).collect()
}

/// Each name of the catalogue replaced by a single letter, there and in the statement.
fn renamed(case: &Case) -> Vec<Case> {
    let (Ok(statement), Ok(catalogue)) = (statement::decode(&case.statement), catalogue::decode(&case.catalogue))
    else {
        return Vec::new();
    };
    let tables = catalogue.tables.iter().take(4);
    let old: Vec<&String> = tables
        .flat_map(|table| [&table.name].into_iter().chain(table.columns.iter().map(|column| &column.name)))
        .collect();
    let letters = ["a", "b", "c", "d", "e", "f"];
    let pairs = old.iter().flat_map(|old| letters.iter().map(move |new| (*old, *new)));
    pairs.filter_map(|(old, new)| rename(case, &statement, &catalogue, old, new)).collect()
}

fn rename(case: &Case, statement: &Statement, catalogue: &Catalogue, old: &str, new: &str) -> Option<Case> {
    let (mut statement, mut catalogue) = (statement.clone(), catalogue.clone());
    for name in statement.tree.names_mut() {
        if name.text == old || !name.quoted && name.text.to_ascii_lowercase() == old {
            name.text = new.to_string();
        }
    }
    for table in &mut catalogue.tables {
        let names = [&mut table.name].into_iter().chain(table.columns.iter_mut().map(|column| &mut column.name));
        names.filter(|name| *name == old).for_each(|name| *name = new.to_string());
    }
    let statement = statement.encode().ok()?;
    Some(Case { statement, catalogue: catalogue.encode_unjudged().ok()?, room: case.room })
}

/// Each field in turn made smaller, the others kept.
macro_rules! shrink_fields {
    ($($name:ident { $($field:ident),* })*) => {
        $(impl Shrink for $name {
            fn smaller(&self) -> Vec<Self> {
                let mut all = Vec::new();
                $(for $field in self.$field.smaller() {
                    all.push($name { $field, ..self.clone() });
                })*
                all
            }
        })*
    };
}

shrink_fields! {
    Statement { raw, tree }
    CreateTable { if_not_exists, query, features, name, columns, constraints }
    ColumnDefinition { collation, name, options, data_type }
    ColumnOption { named, kind }
    Insert { features, table, columns, source }
    Source { clauses, values }
    Values { explicit_row, rows }
    Query { clauses, select }
    Select { features, from, items, condition }
    Table { joins, relation }
    Relation { features, name }
    Update { from, returning, conflict, table, assignments, condition }
    Assignment { target, value }
    Delete { tables, using, returning, order_by, limit, from, condition }
    Name { quoted, text }
    Catalogue { tables }
    CatalogueTable { id, version, tablets, name, columns, key }
    Column { id, nullable, name }
}

/// Values of an enum that come before this one.
macro_rules! shrink_to_earlier {
    ($($name:ident)*) => {
        $(impl Shrink for $name {
            fn smaller(&self) -> Vec<Self> {
                $name::ALL.into_iter().take_while(|earlier| earlier != self).collect()
            }
        })*
    };
}

shrink_to_earlier! { DataType OptionKind }

impl Shrink for bool {
    fn smaller(&self) -> Vec<Self> {
        if *self { vec![false] } else { Vec::new() }
    }
}

impl Shrink for u8 {
    fn smaller(&self) -> Vec<Self> {
        if *self > 0 { vec![0, *self / 2, *self - 1] } else { Vec::new() }
    }
}

impl Shrink for u64 {
    fn smaller(&self) -> Vec<Self> {
        if *self > 1 { vec![0, 1, *self / 2, *self - 1] } else { Vec::new() }
    }
}

impl Shrink for u32 {
    fn smaller(&self) -> Vec<Self> {
        if *self > 1 { vec![1] } else { Vec::new() }
    }
}

/// Whole stretches are left out first, then single entries are made smaller.
impl<T: Shrink> Shrink for Vec<T> {
    fn smaller(&self) -> Vec<Self> {
        const MOST_SINGLE: usize = 100;
        let mut all = Vec::new();
        let mut stretch = self.len();
        while stretch > 0 {
            for start in (0..self.len()).step_by(stretch) {
                let end = (start + stretch).min(self.len());
                all.push([&self[..start], &self[end..]].concat());
            }
            stretch /= 2;
        }
        for (place, entry) in self.iter().enumerate().take(MOST_SINGLE) {
            for entry in entry.smaller() {
                let mut list = self.clone();
                list[place] = entry;
                all.push(list);
            }
        }
        all
    }
}

impl Shrink for char {
    fn smaller(&self) -> Vec<Self> {
        if *self == 'a' || *self == ' ' { Vec::new() } else { vec!['a', ' '] }
    }
}

impl Shrink for String {
    fn smaller(&self) -> Vec<Self> {
        let letters: Vec<char> = self.chars().collect();
        letters.smaller().into_iter().map(|letters| letters.into_iter().collect()).collect()
    }
}

impl<T: Shrink> Shrink for Option<T> {
    fn smaller(&self) -> Vec<Self> {
        match self {
            None => Vec::new(),
            Some(value) => [None].into_iter().chain(value.smaller().into_iter().map(Some)).collect(),
        }
    }
}

fn mapped<T: Shrink, U>(value: &T, wrap: impl Fn(T) -> U) -> Vec<U> {
    value.smaller().into_iter().map(wrap).collect()
}

/// `first`, and then the value inside made smaller.
fn or_smaller<T: Shrink, U>(first: U, value: &T, wrap: impl Fn(T) -> U) -> Vec<U> {
    [first].into_iter().chain(mapped(value, wrap)).collect()
}

impl Shrink for Tree {
    fn smaller(&self) -> Vec<Self> {
        match self {
            Tree::CreateTable(create) => or_smaller(Tree::Other, create, Tree::CreateTable),
            Tree::Insert(insert) => or_smaller(Tree::Other, insert, Tree::Insert),
            Tree::Query(query) => or_smaller(Tree::Other, query, Tree::Query),
            Tree::Update(update) => or_smaller(Tree::Other, update, Tree::Update),
            Tree::Delete(delete) => or_smaller(Tree::Other, delete, Tree::Delete),
            Tree::Begin { modes } => mapped(modes, |modes| Tree::Begin { modes }),
            Tree::Commit { chain } => mapped(chain, |chain| Tree::Commit { chain }),
            Tree::ShowTables { options } => mapped(options, |options| Tree::ShowTables { options }),
            Tree::Rollback { chain, savepoint } => {
                let mut all = mapped(chain, |chain| Tree::Rollback { chain, savepoint: *savepoint });
                all.extend(mapped(savepoint, |savepoint| Tree::Rollback { chain: *chain, savepoint }));
                all
            }
            Tree::Other => Vec::new(),
        }
    }
}

impl Shrink for ObjectName {
    fn smaller(&self) -> Vec<Self> {
        match self {
            ObjectName::Other => Vec::new(),
            ObjectName::One(name) => or_smaller(ObjectName::Other, name, ObjectName::One),
        }
    }
}

impl Shrink for Constraint {
    fn smaller(&self) -> Vec<Self> {
        let Constraint::PrimaryKey { features, names } = self else { return Vec::new() };
        let mut all = vec![Constraint::Other];
        all.extend(mapped(features, |features| Constraint::PrimaryKey { features, names: names.clone() }));
        all.extend(mapped(names, |names| Constraint::PrimaryKey { features: *features, names }));
        all
    }
}

impl Shrink for Item {
    fn smaller(&self) -> Vec<Self> {
        match self {
            Item::Name(name) => or_smaller(Item::Wildcard, name, Item::Name),
            Item::Wildcard | Item::Other => Vec::new(),
        }
    }
}

impl Shrink for Target {
    fn smaller(&self) -> Vec<Self> {
        match self {
            Target::Tuple => Vec::new(),
            Target::Column(name) => or_smaller(Target::Tuple, name, Target::Column),
        }
    }
}

impl Shrink for DeleteFrom {
    fn smaller(&self) -> Vec<Self> {
        match self {
            DeleteFrom::WithoutKeyword => Vec::new(),
            DeleteFrom::NotOne => vec![DeleteFrom::WithoutKeyword],
            DeleteFrom::Table(table) => or_smaller(DeleteFrom::NotOne, table, DeleteFrom::Table),
        }
    }
}

impl Shrink for Expression {
    fn smaller(&self) -> Vec<Self> {
        let Ok(spans) = spans(&self.nodes) else { return Vec::new() };
        let mut all = Vec::new();
        for (last, span) in spans.iter().enumerate().rev() {
            let whole = last + 1 - span..=last;
            push_operands(self, last, &spans, &mut all);
            for leaf in smaller_leaves(&self.nodes[last], *span) {
                let mut nodes = self.nodes.clone();
                nodes.splice(whole.clone(), [leaf]);
                all.push(Expression { nodes });
            }
        }
        all
    }
}

/// The expression with the subtree that ends at `last` replaced by each of its own operands.
fn push_operands(expression: &Expression, last: usize, spans: &[usize], all: &mut Vec<Expression>) {
    let whole = last + 1 - spans[last]..=last;
    let mut end = last;
    while end > *whole.start() {
        let operand = Expression { nodes: expression.nodes[end - spans[end - 1]..end].to_vec() };
        // Parentheses keep the depth of a case that is about depth.
        let in_parentheses = Expression::unary(Node::Parentheses, operand.clone());
        for smaller in [operand, in_parentheses] {
            let mut nodes = expression.nodes.clone();
            nodes.splice(whole.clone(), smaller.nodes);
            all.push(Expression { nodes });
        }
        end -= spans[end - 1];
    }
}

/// Leaves that could stand for a subtree.
fn smaller_leaves(node: &Node, span: usize) -> Vec<Node> {
    if span > 1 {
        return vec![Node::Null, Node::True, Node::Number("0".to_string()), Node::Text(String::new())];
    }
    match node {
        Node::Name(name) => or_smaller(Node::True, name, Node::Name),
        Node::Number(text) => mapped(text, Node::Number),
        Node::Text(text) => mapped(text, Node::Text),
        _ => Vec::new(),
    }
}
