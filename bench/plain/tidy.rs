//! A plain program to compare `goref tidy` with: it reads a record of the same grammar into flat lists, and
//! writes the same canonical text. Nothing of it is proved.

use std::io::{self, Read, Write};
use std::process::ExitCode;

const MAX_DEPTH: usize = 1000;

/// A name, and the number of its first value.
struct Property<'a> {
    name: &'a [u8],
    first_value: u32,
}

/// The number of the first node of a tree, and how deep the tree is nested.
struct Tree {
    first_node: u32,
    depth: u32,
}

/// Trees before their children, nodes by the numbers of their first properties, and all values, each in
/// one list.
#[derive(Default)]
struct Record<'a> {
    trees: Vec<Tree>,
    nodes: Vec<u32>,
    properties: Vec<Property<'a>>,
    values: Vec<&'a [u8]>,
}

/// Without space, HT, LF, VT, FF and CR at the front.
fn after_space(text: &[u8]) -> &[u8] {
    let count = text
        .iter()
        .take_while(|it| matches!(it, b' ' | 9..=13))
        .count();
    &text[count..]
}

fn begins_tree(text: &[u8]) -> bool {
    text.strip_prefix(b"(")
        .is_some_and(|rest| after_space(rest).starts_with(b";"))
}

/// The bytes of a value up to its `]`, and what follows that.
fn value_of(text: &[u8]) -> Option<(&[u8], &[u8])> {
    let mut end = 0;
    while *text.get(end)? != b']' {
        end += if text[end] == b'\\' { 2 } else { 1 };
    }
    Some((&text[..end], &text[end + 1..]))
}

impl<'a> Record<'a> {
    /// Reads a property from its name on, and gives what follows it and white space.
    fn read_property(&mut self, text: &'a [u8]) -> Option<&'a [u8]> {
        let count = text
            .iter()
            .take_while(|it| it.is_ascii_alphabetic())
            .count();
        let (name, mut rest) = text.split_at(count);
        if !name.iter().any(u8::is_ascii_uppercase) {
            return None;
        }
        let first_value = self.values.len() as u32;
        self.properties.push(Property { name, first_value });
        rest = after_space(rest);
        while let Some(inside) = rest.strip_prefix(b"[") {
            let (value, after) = value_of(inside)?;
            self.values.push(value);
            rest = after_space(after);
        }
        (self.values.len() as u32 > first_value).then_some(rest)
    }

    /// Reads the nodes of a tree, and gives what follows them.
    fn read_nodes(&mut self, text: &'a [u8]) -> Option<&'a [u8]> {
        let mut rest = after_space(text);
        if !rest.starts_with(b";") {
            return None;
        }
        while let Some(inside) = rest.strip_prefix(b";") {
            self.nodes.push(self.properties.len() as u32);
            rest = after_space(inside);
            while rest.first().is_some_and(u8::is_ascii_alphabetic) {
                rest = self.read_property(rest)?;
            }
        }
        Some(rest)
    }

    fn read(text: &'a [u8]) -> Option<Record<'a>> {
        let mut record = Record::default();
        let mut rest = text;
        while !begins_tree(rest) {
            rest = rest.get(1..)?;
        }
        let mut depth = 0;
        while depth > 0 || begins_tree(rest) {
            if let Some(inside) = rest.strip_prefix(b"(") {
                depth += 1;
                if depth > MAX_DEPTH {
                    return None;
                }
                let first_node = record.nodes.len() as u32;
                record.trees.push(Tree {
                    first_node,
                    depth: depth as u32,
                });
                rest = record.read_nodes(inside)?;
            } else {
                rest = after_space(rest.strip_prefix(b")")?);
                depth -= 1;
            }
        }
        Some(record)
    }

    fn values_of(&self, property: usize) -> &[&'a [u8]] {
        let first = self.properties[property].first_value as usize;
        let end = self
            .properties
            .get(property + 1)
            .map(|it| it.first_value as usize);
        &self.values[first..end.unwrap_or(self.values.len())]
    }

    fn write_property(&self, property: usize, out: &mut Vec<u8>) {
        let name = self.properties[property].name;
        out.extend(name.iter().filter(|it| it.is_ascii_uppercase()));
        for value in self.values_of(property) {
            out.push(b'[');
            out.extend_from_slice(value);
            out.push(b']');
        }
    }

    fn write_node(&self, node: usize, out: &mut Vec<u8>) {
        out.push(b';');
        let first = self.nodes[node] as usize;
        let end = self.nodes.get(node + 1).map(|it| *it as usize);
        for property in first..end.unwrap_or(self.properties.len()) {
            self.write_property(property, out);
        }
    }

    /// Writes `)` for each tree that is deeper than is to stay open, and LF after an outermost one.
    fn close(depth: usize, open: usize, out: &mut Vec<u8>) {
        for _ in open..depth {
            out.push(b')');
        }
        if open == 0 && depth > 0 {
            out.push(b'\n');
        }
    }

    fn write(&self, out: &mut impl Write) -> io::Result<()> {
        let mut text = Vec::new();
        let mut depth = 0;
        for (number, tree) in self.trees.iter().enumerate() {
            Record::close(depth, tree.depth as usize - 1, &mut text);
            depth = tree.depth as usize;
            text.push(b'(');
            let end = self.trees.get(number + 1).map(|it| it.first_node as usize);
            for node in tree.first_node as usize..end.unwrap_or(self.nodes.len()) {
                self.write_node(node, &mut text);
                if text.len() > 1 << 16 {
                    out.write_all(&text)?;
                    text.clear();
                }
            }
        }
        Record::close(depth, 0, &mut text);
        out.write_all(&text)
    }
}

fn main() -> ExitCode {
    let mut text = Vec::new();
    if io::stdin().read_to_end(&mut text).is_err() {
        return ExitCode::from(3);
    }
    let Some(record) = Record::read(&text) else {
        return ExitCode::FAILURE;
    };
    match record.write(&mut io::stdout()) {
        Ok(()) => ExitCode::SUCCESS,
        Err(_) => ExitCode::from(3),
    }
}
