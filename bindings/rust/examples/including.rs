//! Prints the tokens that a shader has once it is preprocessed, with what it includes from the folder in which it is
//! run: including < shader.frag
use pp_rs::reader::{Profile, Reader, Rules};
use std::error::Error;
use std::io::{self, Read};

// The text of an `#include "NAME"` line, by what follows its word.
fn text_of(line: &str) -> io::Result<String> {
    std::fs::read_to_string(line.split('"').nth(1).unwrap_or_default())
}

fn main() -> Result<(), Box<dyn Error>> {
    let mut source = String::new();
    io::stdin().read_to_string(&mut source)?;
    let mut reader = Reader::with_includes(&source, Rules::glsl(450, Profile::Core));
    reader.set_budget(100_000_000);
    while let Some(item) = reader.next() {
        match reader.include_line().map(text_of) {
            Some(text) => reader.include(&text?)?,
            None => println!("{}", item?.value),
        }
    }
    Ok(())
}
