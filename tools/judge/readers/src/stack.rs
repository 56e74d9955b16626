//! How many bytes of stack the two public operations take. A call runs on a stack of its own that was filled with one
//! byte; what it takes is from the top down to the last byte that it changed.

use images::limits::DEPTH;
use images::statement::{Expression, Name, Node, Tree};
use images::text;
use images::value::Operator;
use judge::measure::{self, Measured};
use runs::generate::Case;

use crate::operations::compare::example;
use crate::operations::linked::{sirklemet_bind, sirklemet_run};

/// What both operations are asked, with a name for people.
pub struct Asked {
    pub name: String,
    pub case: Case,
}

/// What an operation answers, and the bytes of stack that it takes for that, its caller's frame not counted.
#[derive(Debug, Clone, Copy, PartialEq, Eq)]
pub struct Taken {
    pub number: u8,
    pub bytes: usize,
}

type Bind = unsafe extern "C" fn(*const u8, usize, *const u8, usize, *mut u8, usize, *mut usize) -> u8;
type Run = unsafe extern "C" fn(*const u8, usize, *const u8, usize, *const u8, usize, *mut u8, usize, *mut usize) -> u8;

extern "C" fn no_bind(_: *const u8, _: usize, _: *const u8, _: usize, _: *mut u8, _: usize, _: *mut usize) -> u8 {
    0
}

#[rustfmt::skip]
extern "C" fn no_run(
    _: *const u8, _: usize, _: *const u8, _: usize, _: *const u8, _: usize, _: *mut u8, _: usize, _: *mut usize,
) -> u8 {
    0
}

pub fn bind(case: &Case) -> Taken {
    beyond(bind_by(no_bind, case), bind_by(sirklemet_bind, case))
}

pub fn run(case: &Case) -> Taken {
    beyond(run_by(no_run, case), run_by(sirklemet_run, case))
}

/// The call of a function that does nothing takes the frame of the caller alone.
fn beyond(nothing: Taken, taken: Taken) -> Taken {
    Taken { bytes: taken.bytes - nothing.bytes, ..taken }
}

fn bind_by(function: Bind, case: &Case) -> Taken {
    let function = std::hint::black_box(function);
    let [s, c] = [&case.statement, &case.catalogue];
    let mut out = vec![0; case.room];
    let mut written = 0;
    // SAFETY: the lengths are those of the bytes.
    taken(&mut || unsafe {
        function(s.as_ptr(), s.len(), c.as_ptr(), c.len(), out.as_mut_ptr(), out.len(), &mut written)
    })
}

fn run_by(function: Run, case: &Case) -> Taken {
    let function = std::hint::black_box(function);
    let [s, c, r] = [&case.statement, &case.catalogue, &case.row];
    let mut out = vec![0; case.room];
    let mut written = 0;
    // SAFETY: as above.
    taken(&mut || unsafe {
        let (out, room) = (out.as_mut_ptr(), out.len());
        function(s.as_ptr(), s.len(), c.as_ptr(), c.len(), r.as_ptr(), r.len(), out, room, &mut written)
    })
}

/// A byte of the pattern may be written as it was; not with both patterns.
fn taken(call: &mut dyn FnMut() -> u8) -> Taken {
    let [one, two] = [0xA5, 0x5A].map(|pattern| on_a_stack_of(pattern, call));
    Taken { bytes: one.bytes.max(two.bytes), ..one }
}

const STACK: usize = 1 << 22;

fn on_a_stack_of(pattern: u8, call: &mut dyn FnMut() -> u8) -> Taken {
    let mut stack = vec![pattern; STACK];
    let top = stack.as_mut_ptr_range().end.map_addr(|address| address & !15);
    let mut request = Request { call, number: 0 };
    on_stack(top, &mut request);
    let number = request.number;
    let lowest = stack.iter().position(|byte| *byte != pattern).expect("a call leaves its return address");
    Taken { number, bytes: top.addr() - stack[lowest..].as_ptr().addr() }
}

struct Request<'a> {
    call: &'a mut dyn FnMut() -> u8,
    number: u8,
}

extern "C" fn answer(request: &mut Request) {
    request.number = (request.call)();
}

#[cfg(target_arch = "x86_64")]
fn on_stack(top: *mut u8, request: &mut Request) {
    // SAFETY: below `top`, which is aligned as the calling convention asks, there is room; the old stack comes back, as
    // a function that is called keeps r12.
    unsafe {
        std::arch::asm!(
            "mov r12, rsp",
            "mov rsp, {top}",
            "call {answer}",
            "mov rsp, r12",
            top = in(reg) top,
            answer = in(reg) answer as extern "C" fn(&mut Request),
            in("rdi") request,
            out("r12") _,
            clobber_abi("C"),
        );
    }
}

#[cfg(not(target_arch = "x86_64"))]
fn on_stack(_: *mut u8, _: &mut Request) {
    panic!("how to change the stack is written for x86-64 alone");
}

// ---- what is asked

/// The measured statements of `bench`, and expressions of the depth that is allowed at every place that can hold one.
pub fn asked() -> Result<Vec<Asked>, String> {
    let mut all: Vec<Asked> = measure::cases()?.into_iter().map(of_bench).collect();
    for (name, column, expression) in deepest() {
        all.push(asked_of(&format!("UPDATE runs SET {column} = x WHERE ok"), &name, &expression));
        if column == "ok" {
            all.extend(WHERES.map(|sql| asked_of(sql, &name, &expression)));
        }
    }
    all.push(asked_of(WHERES[0], &format!("NOT, depth {PAST}"), &chain(Node::Not, "ok", PAST)));
    Ok(all)
}

const WHERES: [&str; 3] =
    ["UPDATE runs SET temp = 1 WHERE x", "SELECT * FROM runs WHERE x", "DELETE FROM runs WHERE x"];

/// Far past the limit of depth, in an image that is not past the limit of bytes.
const PAST: usize = 10_000;

fn of_bench(measured: Measured) -> Asked {
    let judge::generate::Case { statement, catalogue, room } = measured.case;
    Asked { name: measured.name.to_string(), case: Case { statement, catalogue, row: example().row, room } }
}

/// Expressions of the depth that is allowed, each by one kind of node, with a column that takes its value.
fn deepest() -> Vec<(String, &'static str, Expression)> {
    let mut all = Vec::new();
    for (operator, column) in [(Operator::Add, "minutes"), (Operator::And, "ok"), (Operator::Equal, "ok")] {
        let sign = operator.sign();
        all.push((format!("{sign} to the left"), column, leaning(operator, column, |deep, leaf| (deep, leaf))));
        all.push((format!("{sign} to the right"), column, leaning(operator, column, |deep, leaf| (leaf, deep))));
    }
    all.push(("-".to_string(), "minutes", chain(Node::Minus, "minutes", DEPTH)));
    for (name, node) in [("NOT", Node::Not), ("( )", Node::Parentheses), ("IS NULL", Node::IsNull)] {
        all.push((name.to_string(), "ok", chain(node, "ok", DEPTH)));
    }
    all
}

fn leaf(name: &str) -> Expression {
    Expression::leaf(Node::Name(Name::unquoted(name)))
}

type Operands = fn(Expression, Expression) -> (Expression, Expression);

fn leaning(operator: Operator, name: &str, operands: Operands) -> Expression {
    (1..DEPTH).fold(leaf(name), |deep, _| {
        let (left, right) = operands(deep, leaf(name));
        Expression::binary(Node::Binary(operator), left, right)
    })
}

fn chain(node: Node, name: &str, depth: usize) -> Expression {
    (1..depth).fold(leaf(name), |deep, _| Expression::unary(node.clone(), deep))
}

/// The statement with the expression in place of x.
fn asked_of(sql: &str, name: &str, expression: &Expression) -> Asked {
    let mut statement = text::sql::statement(sql).expect("it is SQL");
    for place in expressions(&mut statement.tree) {
        if *place == leaf("x") {
            *place = expression.clone();
        }
    }
    let case = Case { statement: statement.encode().expect("it has an image"), room: measure::ROOM, ..example() };
    Asked { name: format!("{}, x by {name}", sql.replace(" runs", "")), case }
}

fn expressions(tree: &mut Tree) -> Vec<&mut Expression> {
    match tree {
        Tree::Update(update) => {
            let values = update.assignments.iter_mut().map(|assignment| &mut assignment.value);
            values.chain(&mut update.condition).collect()
        }
        Tree::Query(query) => query.select.iter_mut().flat_map(|select| &mut select.condition).collect(),
        Tree::Delete(delete) => delete.condition.iter_mut().collect(),
        _ => Vec::new(),
    }
}
