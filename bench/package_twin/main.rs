//! The loading of packages and the power up over them as plain Rust of the same design, which makes the same checks as the
//! proved card and prints the same answers.
//! Usage: package_twin loads SCRIPT | package_twin resets IMAGE COUNT
mod components;
mod heap;
mod linking;
mod loading;
mod platform;

/// Each answer is written at once, as the card writes it.
fn loads(script: &[u8]) {
    let digit = |byte: u8| (byte as char).to_digit(16).expect("a digit") as u8;
    let mut card = loading::Card::default();
    for line in script.split(|byte| *byte == b'\n').filter(|line| !line.is_empty()) {
        let command: Vec<u8> = line.chunks_exact(2).map(|pair| digit(pair[0]) * 16 + digit(pair[1])).collect();
        println!("{:04X}", card.exchange(&command));
    }
}

fn resets(image: &[u8], count: usize) {
    let mut words: Vec<u16> = image.chunks_exact(2).map(|pair| u16::from_be_bytes([pair[0], pair[1]])).collect();
    for _ in 0..count {
        match heap::power_up(&mut words) {
            Ok(card) => {
                std::hint::black_box(&card);
                println!("ready");
            }
            Err(number) => println!("bad image {number}"),
        }
    }
}

fn main() {
    let words: Vec<String> = std::env::args().skip(1).collect();
    let words: Vec<&str> = words.iter().map(String::as_str).collect();
    let file = |name: &str| std::fs::read(name).expect("a file");
    match words[..] {
        ["loads", script] => loads(&file(script)),
        ["resets", image, count] => resets(&file(image), count.parse().expect("a number")),
        _ => std::process::exit(2),
    }
}
