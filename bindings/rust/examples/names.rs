//! Prints the names that a shader has once it is preprocessed, each with its bytes: names < shader.frag
use pp_rs::pp::Preprocessor;
use pp_rs::token::TokenValue;
use std::io::{self, Read};

fn main() -> io::Result<()> {
    let mut source = String::new();
    io::stdin().read_to_string(&mut source)?;
    let mut pp = Preprocessor::new(&source);
    pp.add_define("GL_ES", "1").expect("`1` has no error");
    for item in pp {
        match item {
            Ok(token) => {
                if let TokenValue::Ident(name) = token.value {
                    println!("{} {}..{}", name, token.location.start, token.location.end);
                }
            }
            Err((error, place)) => {
                eprintln!("{:?} {}..{}", error, place.start, place.end);
                std::process::exit(1);
            }
        }
    }
    Ok(())
}
