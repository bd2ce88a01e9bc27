//! Prints what each call over the source on standard input returns, a line each, and then all items that are left:
//!
//!     dump [NAME=CONTENT | next]... < shader.frag
use pp_rs::pp::Preprocessor;
use std::io::{self, Read, Write};

fn main() -> io::Result<()> {
    let mut source = String::new();
    io::stdin().read_to_string(&mut source)?;
    let mut pp = Preprocessor::new(&source);
    let mut out = io::BufWriter::new(io::stdout());
    for word in std::env::args().skip(1) {
        match word.split_once('=') {
            Some((name, content)) => writeln!(out, "{:?}", pp.add_define(name, content))?,
            None => writeln!(out, "{:?}", pp.next())?,
        }
    }
    for item in pp {
        writeln!(out, "{:?}", Some(item))?;
    }
    writeln!(out, "None")?;
    out.flush()
}
