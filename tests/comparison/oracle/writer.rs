//! The writer of circuit text: node i as line i, each child as `(line K)`.

use super::table::{Node, Table};
use super::{refused, Refused};

fn line(node: &Node) -> String {
    match node {
        Node::False => "(false)\n".to_string(),
        Node::True => "(true)\n".to_string(),
        Node::Yes(variable) => format!("(yes {variable})\n"),
        Node::No(variable) => format!("(no {variable})\n"),
        Node::Pick(variable, a, b) => format!("(pick {variable} (line {a}) (line {b}))\n"),
        Node::Both(children) => {
            let lines: String = children.iter().map(|child| format!(" (line {child})")).collect();
            format!("(both{lines})\n")
        }
    }
}

/// The text of a well-formed table: 21, 22.
pub fn text(table: &Table) -> Result<String, Refused> {
    let nodes = table.well_formed()?;
    let lines: String = nodes.iter().map(line).collect();
    Ok(format!("(circuit {})\n{lines}", table.variables))
}

/// Writes the text into a sink: its length, or 16 with the needed length.
pub fn write(table: &Table, sink: &mut [u8]) -> Result<u64, Refused> {
    let text = text(table)?;
    if sink.len() < text.len() {
        return refused(16, text.len() as u64);
    }
    sink[..text.len()].copy_from_slice(text.as_bytes());
    Ok(text.len() as u64)
}
