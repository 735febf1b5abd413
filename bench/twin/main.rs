//! A card by another hand, in plain Rust, written for speed, with the checks that the proved one makes: what the benchmarks measure it
//! against.
//! Usage: twin SETUP COMMANDS memory|FILE
//! carries out two scripts on a new card, in memory or over a file, and prints the answers to the second.
#![forbid(unsafe_code)]
mod api;
mod calls;
mod card;
mod exits;
mod firewall;
mod frames;
mod heap;
mod journal;
mod layout;
mod linker;
mod machine;
mod manager;
mod memory;
mod objects;
mod packages;
mod platform;
mod script;
mod store;

use card::Card;
use std::fs::File;
use std::io::{BufReader, Error, ErrorKind, Result, Write};
use std::os::fd::AsFd;
use store::{Fuse, InMemory, OverFile, Store};

fn fault(text: &str) -> Error {
    Error::new(ErrorKind::Other, text)
}

/// Every answer to the setup is that it was carried out.
struct Expected;

impl Write for Expected {
    fn write(&mut self, answer: &[u8]) -> Result<usize> {
        if answer == b"9000\n" || answer.is_empty() {
            Ok(answer.len())
        } else {
            Err(fault("the setup is refused"))
        }
    }

    fn flush(&mut self) -> Result<()> {
        Ok(())
    }
}

fn carry_out<S: Store>(store: S, setup: &str, commands: &str) -> Result<()> {
    let mut card = Card::new(Fuse::new(store));
    script::carry_out(&mut card, BufReader::new(File::open(setup)?), Expected)?;
    let out = File::from(std::io::stdout().as_fd().try_clone_to_owned()?);
    script::carry_out(&mut card, BufReader::new(File::open(commands)?), out)
}

fn main() -> Result<()> {
    let words: Vec<String> = std::env::args().skip(1).collect();
    match &words[..] {
        [setup, commands, place] if place == "memory" => carry_out(InMemory::new(), setup, commands),
        [setup, commands, path] => carry_out(OverFile::create(path)?, setup, commands),
        _ => Err(fault("usage: twin SETUP COMMANDS memory|FILE")),
    }
}
