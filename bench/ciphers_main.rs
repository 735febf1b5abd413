
fn main() {
    let words: Vec<String> = std::env::args().collect();
    let (name, count) = (words[1].as_str(), words[2].parse().unwrap());
    let timed = if name.starts_with("p256") || name.starts_with("rsa") { long_loops::timed } else { loops::timed };
    for byte in timed(name, count) {
        print!("{byte:02x}");
    }
    println!();
}
