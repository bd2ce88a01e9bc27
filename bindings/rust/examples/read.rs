//! Prints the items of the source on standard input as they are read, a line each: tokens with their bytes, and errors with
//! their lines. With texts that have names, lines like `#include "NAME"` are answered by these:
//!
//!     read [--glsl=VERSION[,compatibility|,es]] [--budget=STEPS] [--first=ITEMS] [:NAME:TEXT]... [NAME=CONTENT | next]... < shader.frag
use pp_rs::reader::{Error, Profile, Reader, Rules};
use pp_rs::token::Token;
use std::io::{self, Read, Write};

fn rules_of(text: &str) -> Option<Rules> {
    let (version, profile) = match text.split_once(',') {
        None => (text, Profile::Core),
        Some((version, "compatibility")) => (version, Profile::Compatibility),
        Some((version, "es")) => (version, Profile::Es),
        Some(_) => return None,
    };
    Some(Rules::glsl(version.parse().ok()?, profile))
}

// Prints an item, and in which text it is, if not in the source. A line that asks for a text that has a name is answered.
fn print(
    item: Result<Token, Error>,
    reader: &mut Reader,
    texts: &[(String, String)],
    out: &mut impl Write,
) -> io::Result<()> {
    if reader.text_number() > 0 {
        write!(out, "[{}] ", reader.text_number())?;
    }
    match item {
        Ok(token) => {
            let place = token.location;
            writeln!(out, "{} {}..{}", token.value, place.start, place.end)?;
        }
        Err(Error::Source { error, place }) => {
            let line = place.line();
            writeln!(out, "{} {}..{} L{}", error, place.start, place.end, line)?;
        }
        Err(error) => writeln!(out, "{}", error)?,
    }
    let name = reader
        .include_line()
        .map(|line| line.split('"').nth(1).unwrap_or(""));
    match texts.iter().find(|(known, _)| name == Some(known)) {
        Some((_, text)) => match reader.include(text) {
            Ok(()) => writeln!(out, "included"),
            Err(error) => writeln!(out, "not included: {}", error),
        },
        None => Ok(()),
    }
}

fn main() -> io::Result<()> {
    let mut source = String::new();
    io::stdin().read_to_string(&mut source)?;
    let (mut rules, mut budget, mut first) = (Rules::PpRs, 0, usize::MAX);
    let (mut calls, mut texts) = (Vec::new(), Vec::new());
    for word in std::env::args().skip(1) {
        if let Some((name, text)) = word.strip_prefix(':').and_then(|rest| rest.split_once(':')) {
            texts.push((name.to_string(), text.to_string()));
            continue;
        }
        match word.split_once('=') {
            Some(("--glsl", text)) => rules = rules_of(text).expect("rules"),
            Some(("--budget", steps)) => budget = steps.parse().expect("a number of steps"),
            Some(("--first", items)) => first = items.parse().expect("a number of items"),
            _ => calls.push(word),
        }
    }
    let mut reader = match texts.len() {
        0 => Reader::with_rules(&source, rules),
        _ => Reader::with_includes(&source, rules),
    };
    reader.set_budget(budget);
    let mut out = io::BufWriter::new(io::stdout());
    for word in &calls {
        match word.split_once('=') {
            Some((name, content)) => match reader.add_define(name, content) {
                Ok(()) => writeln!(out, "added")?,
                Err((error, place)) => {
                    writeln!(out, "refused: {} {}..{}", error, place.start, place.end)?
                }
            },
            None => match reader.next() {
                Some(item) => print(item, &mut reader, &texts, &mut out)?,
                None => writeln!(out, "None")?,
            },
        }
    }
    for _ in 0..first {
        match reader.next() {
            Some(item) => print(item, &mut reader, &texts, &mut out)?,
            None => break,
        }
    }
    out.flush()
}
