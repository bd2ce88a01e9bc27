//! Counts the items of the source on standard input, which the Rust library gives. Built and run by bench/kinds and
//! bench/rust_crate. With a word it reads otherwise: `first` item, `front` of 1,000 items, or `all` with a definition after
//! each hundred if the word is `defined`. With a number after the word it reads so often, and prints the least nanoseconds too.
use pp_rs::pp::Preprocessor;
use std::io::{self, Read};
use std::time::Instant;

fn count(source: &str, how: &str) -> usize {
    let mut pp = Preprocessor::new(source);
    match how {
        "first" => pp.take(1).count(),
        "front" => pp.take(1000).count(),
        "defined" => {
            let mut count = 0;
            while pp.next().is_some() {
                count += 1;
                if count % 100 == 0 {
                    pp.add_define("float", "1 + 2").expect("it has no error");
                }
            }
            count
        }
        _ => pp.count(),
    }
}

fn main() -> io::Result<()> {
    let mut source = String::new();
    io::stdin().read_to_string(&mut source)?;
    let how = std::env::args().nth(1).unwrap_or_default();
    let Some(rounds) = std::env::args().nth(2) else {
        println!("{}", count(&source, &how));
        return Ok(());
    };
    let rounds: usize = rounds.parse().expect("how often");
    let (mut items, mut least) = (0, u128::MAX);
    for _ in 0..rounds {
        let before = Instant::now();
        items = count(&source, &how);
        least = least.min(before.elapsed().as_nanos());
    }
    println!("{} {}", items, least);
    Ok(())
}
