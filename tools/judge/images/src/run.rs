//! A run: an expression as nodes with children before parents.
//!
//! The number of a node's operands follows from its kind, so the spans follow from the order of the nodes. A value
//! therefore holds the nodes alone, and the decoder holds the written spans to the ones that must stand there.

use crate::bytes::{Log, NoImage, Read, Reader, Width, Written, damage, push_count};

/// What a run needs to know of its nodes.
pub trait RunNode: Sized {
    const WIDTH: Width;
    /// The bytes of a node before its span.
    const HEAD: usize;

    fn operands(&self) -> usize;
    fn head(&self) -> Vec<u8>;
    fn content(&self) -> Vec<u8>;

    /// Reads a node from its head and its content, and uses up the content.
    fn read(head: Reader, content: Reader) -> Read<Self>;

    /// The node's name, for people.
    fn label(&self) -> String;
}

/// The span of each node, or the number of the first node that finds too few operands before it. `Err(n)` with n the
/// number of nodes: something is left over, or there is no node at all.
pub fn spans<N: RunNode>(nodes: &[N]) -> Result<Vec<usize>, usize> {
    let mut spans = Vec::with_capacity(nodes.len());
    let mut open: Vec<usize> = Vec::new();
    for (number, node) in nodes.iter().enumerate() {
        let mut span = 1;
        for _ in 0..node.operands() {
            span += open.pop().ok_or(number)?;
        }
        open.push(span);
        spans.push(span);
    }
    if open.len() == 1 { Ok(spans) } else { Err(nodes.len()) }
}

/// The depth of the tree: a leaf is 1.
pub fn depth<N: RunNode>(nodes: &[N]) -> usize {
    let mut open: Vec<usize> = Vec::new();
    for node in nodes {
        let mut below = 0;
        for _ in 0..node.operands() {
            below = below.max(open.pop().unwrap_or(0));
        }
        open.push(below + 1);
    }
    open.into_iter().max().unwrap_or(0)
}

pub fn encode<N: RunNode>(nodes: &[N]) -> Written {
    let Ok(spans) = spans(nodes) else {
        return Err(NoImage("the nodes of an expression make no tree".to_string()));
    };
    let mut out = Vec::new();
    let mut contents = Vec::new();
    push_count(&mut out, N::WIDTH, nodes.len(), "nodes")?;
    for (node, span) in nodes.iter().zip(spans) {
        contents.extend_from_slice(&node.content());
        out.extend_from_slice(&node.head());
        push_count(&mut out, N::WIDTH, span, "span")?;
        push_count(&mut out, N::WIDTH, contents.len(), "end of a content")?;
    }
    out.extend_from_slice(&contents);
    Ok(out)
}

/// A run that fills its part.
pub fn decode<N: RunNode>(mut reader: Reader) -> Read<Vec<N>> {
    let start = reader.at();
    let count = reader.number(N::WIDTH.bytes(), "nodes")? as usize;
    if count == 0 {
        return damage(start, "an expression has at least one node");
    }
    let size = N::HEAD + 2 * N::WIDTH.bytes();
    if reader.remaining() / size < count {
        let have = reader.remaining();
        return damage(reader.at(), format!("{count} nodes of {size} bytes are needed and {have} bytes are left"));
    }
    let contents_at = reader.at() + count * size;
    let table = reader.part(count * size, "nodes")?;
    let (nodes, written) = read_nodes(table, reader)?;
    check_spans(&nodes, &written, contents_at - count * size, size)?;
    Ok(nodes)
}

/// Reads all nodes, and with each the span that is written in it.
fn read_nodes<N: RunNode>(mut table: Reader, mut contents: Reader) -> Read<(Vec<N>, Vec<usize>)> {
    let width = N::WIDTH.bytes();
    let mut nodes = Vec::new();
    let mut spans = Vec::new();
    let mut last_end = 0;
    while !table.is_empty() {
        let start = table.at();
        let head = table.part(N::HEAD, "node")?;
        let span = table.peek_number(0, width);
        let end = table.peek_number(width, width);
        table.part(2 * width, "node")?;
        if end < last_end {
            return damage(
                start + N::HEAD + width,
                format!("the end {end} lies before the end {last_end} of the node before"),
            );
        }
        let content = contents.part(end - last_end, "content of a node")?;
        let node = read_node::<N>(head, content, &spans, |operands| format!("span {span}, end {end}{operands}"))?;
        nodes.push(node);
        spans.push(span);
        last_end = end;
    }
    contents.finish("contents of an expression")?;
    Ok((nodes, spans))
}

/// Reads one node. `spans` are those of the nodes before it, and `rest` says what stands behind the head.
fn read_node<N: RunNode>(
    head: Reader,
    content: Reader,
    spans: &[usize],
    rest: impl FnOnce(String) -> String,
) -> Read<N> {
    // The heading needs the node's name, which is known only once the node is read. So it is read without a log, and
    // its content once more where there is a log.
    let silent = Log::off();
    let number = spans.len();
    let node = N::read(head.with_log(&silent), content.with_log(&silent))?;
    head.note(head.at(), head.at() + N::HEAD + 2 * N::WIDTH.bytes(), || {
        format!("node {number}: {}, {}", node.label(), rest(operand_numbers(&node, spans)))
    });
    if content.logs() && !content.is_empty() {
        content.inside(|| format!("content of node {number}"), || N::read(head.with_log(&silent), content))?;
    }
    Ok(node)
}

fn operand_numbers<N: RunNode>(node: &N, spans: &[usize]) -> String {
    let last = spans.len().checked_sub(1);
    let left = last.and_then(|last| last.checked_sub(spans[last]));
    match (node.operands(), left, last) {
        (1, _, Some(last)) => format!(", operand {last}"),
        (2, Some(left), Some(right)) => format!(", operands {left} and {right}"),
        _ => String::new(),
    }
}

fn check_spans<N: RunNode>(nodes: &[N], written: &[usize], table_at: usize, size: usize) -> Read<()> {
    let place = |number: usize| table_at + number * size;
    let expected = match spans(nodes) {
        Ok(expected) => expected,
        Err(number) if number < nodes.len() => {
            return damage(place(number), format!("node {number} finds too few operands before it"));
        }
        Err(_) => {
            let last = nodes.len() - 1;
            return damage(
                place(last),
                format!("node {last} is the last and not the root of all: nodes are left over"),
            );
        }
    };
    for (number, (have, want)) in written.iter().zip(expected).enumerate() {
        if *have != want {
            return damage(place(number) + N::HEAD, format!("node {number} has span {have} where {want} must stand"));
        }
    }
    Ok(())
}
