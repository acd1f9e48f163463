//! A sheet as input of FaCT++ (Debian's package fact++): a knowledge base in its Lisp-like syntax, and the file of
//! settings that names it and asks whether everything (`*TOP*`) is satisfiable, for which FaCT++ first tells
//! whether the knowledge base is consistent.
//!
//! Line n is a defined concept Ln, so that a sheet grows by one definition a line; name n is the concept Nn, role n
//! the role Rn, individual n the individual In.

use second::sheet::{Line, Sheet, AND, BOTTOM, NAME, NOT, OR, SOME, TOP};
use std::collections::BTreeSet;

/// The knowledge base.
pub fn knowledge(sheet: &Sheet) -> String {
    let mut out = String::new();
    for name in names(sheet) {
        out += &format!("(defprimconcept N{name})\n");
    }
    for role in roles(sheet) {
        out += &format!("(defprimrole R{role})\n");
    }
    for (own, line) in sheet.lines.iter().enumerate() {
        out += &format!("(defconcept L{own} {})\n", expression(line));
    }
    for (c, d) in &sheet.rules {
        out += &format!("(implies_c L{c} L{d})\n");
    }
    for individual in 0..sheet.individuals {
        out += &format!("(defindividual I{individual})\n");
    }
    for (individual, line) in &sheet.classes {
        out += &format!("(instance I{individual} L{line})\n");
    }
    for (role, from, to) in &sheet.roles {
        out += &format!("(related I{from} R{role} I{to})\n");
    }
    out
}

/// The settings, for a knowledge base in the named file.
pub fn settings(file: &str) -> String {
    format!("[LeveLogger]\n file = reasoning.log\n allowedLevel = 0\n\n[Tuning]\n\n[Query]\n TBox = {file}\n Target = *TOP*\n")
}

/// What FaCT++ wrote, as a verdict: consistent or not, or None if it says neither.
pub fn verdict(written: &str) -> Option<bool> {
    if written.contains("KB is inconsistent") {
        return Some(false);
    }
    written.contains("concept is satisfiable w.r.t. TBox").then_some(true)
}

/// The version among what FaCT++ wrote.
pub fn version(written: &str) -> &str {
    let line = written.lines().find(|line| line.contains("Version ")).unwrap_or("");
    line.rsplit(". ").next().unwrap_or(line)
}

fn names(sheet: &Sheet) -> BTreeSet<u8> {
    sheet.lines.iter().filter(|line| line.kind == NAME).map(|line| line.first).collect()
}

fn roles(sheet: &Sheet) -> BTreeSet<u8> {
    let of_lines = sheet.lines.iter().filter(|line| line.kind >= SOME).map(|line| line.first);
    of_lines.chain(sheet.roles.iter().map(|role| role.0)).collect()
}

fn expression(line: &Line) -> String {
    let Line { kind, first, second } = line;
    match *kind {
        TOP => "*TOP*".to_string(),
        BOTTOM => "*BOTTOM*".to_string(),
        NAME => format!("N{first}"),
        NOT => format!("(not L{first})"),
        AND => format!("(and L{first} L{second})"),
        OR => format!("(or L{first} L{second})"),
        SOME => format!("(some R{first} L{second})"),
        _ => format!("(all R{first} L{second})"),
    }
}
