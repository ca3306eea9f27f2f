//! Seals a file, opens the message, and compares: round_trip KEYRING FILE

use esdk::{Keyring, Opening, Sealing};
use std::io::{self, Read};
use std::{env, fs};

fn main() -> io::Result<()> {
    let words: Vec<String> = env::args().collect();
    let ring = Keyring::from_file(&words[1])?;
    let mut message = Vec::new();
    let source = fs::File::open(&words[2])?;
    Sealing::new().pair("file", &words[2]).reader(&ring, source)?.read_to_end(&mut message)?;
    let (text, context) = Opening::new().all(&ring, &message)?;
    println!("the text came back: {}", text == fs::read(&words[2])? && context["file"] == words[2]);
    message.pop();
    println!("{}", Opening::new().all(&ring, &message).unwrap_err());
    Ok(())
}
