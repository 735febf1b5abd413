//! Scripts: a line is a command in hexadecimal, or `stop K`, which lets K more writes pass; it is empty, or a comment. Its answer is
//! written before the next line is read. A card that is down stays so.
use crate::card::Card;
use crate::store::{Down, Fuse, Store};
use std::io::{BufRead, Error, ErrorKind, Result, Write};

const NO_DIGIT: u8 = 16;

/// The values of the digits, by their characters.
const VALUES: [u8; 256] = {
    let mut values = [NO_DIGIT; 256];
    let mut digit = 0;
    while digit < 16 {
        values[b"0123456789ABCDEF"[digit] as usize] = digit as u8;
        values[b"0123456789abcdef"[digit] as usize] = digit as u8;
        digit += 1;
    }
    values
};

/// The two digits of each byte.
const DIGITS: [[u8; 2]; 256] = {
    let mut digits = [[0; 2]; 256];
    let mut byte = 0;
    while byte < 256 {
        digits[byte] = [b"0123456789ABCDEF"[byte / 16], b"0123456789ABCDEF"[byte % 16]];
        byte += 1;
    }
    digits
};

/// The bytes that a line of digits spells.
fn decode(line: &[u8], bytes: &mut Vec<u8>) -> Option<()> {
    bytes.clear();
    let pairs = line.chunks_exact(2);
    if !pairs.remainder().is_empty() {
        return None;
    }
    for pair in pairs {
        let (high, low) = (VALUES[usize::from(pair[0])], VALUES[usize::from(pair[1])]);
        if (high | low) >= NO_DIGIT {
            return None;
        }
        bytes.push(high << 4 | low);
    }
    Some(())
}

/// Carries out the lines of a script on a card.
pub fn carry_out<S: Store>(card: &mut Card<Fuse<S>>, mut script: impl BufRead, mut out: impl Write) -> Result<()> {
    let (mut line, mut bytes, mut answer) = (Vec::new(), Vec::new(), Vec::new());
    let mut is_down = false;
    while script.read_until(b'\n', &mut line)? > 0 {
        let text = line.strip_suffix(b"\n").unwrap_or(&line);
        answer.clear();
        if decode(text, &mut bytes).is_none() {
            other_line(card, text, &mut answer)?;
        } else if !bytes.is_empty() {
            match card.exchange(&bytes) {
                Ok(status) if !is_down => {
                    for byte in card.memory.sent.iter().copied().chain(status.to_be_bytes()) {
                        answer.extend(DIGITS[usize::from(byte)]);
                    }
                }
                Ok(_) | Err(Down) => {
                    is_down = true;
                    answer.extend(b"down");
                }
            }
            answer.push(b'\n');
        }
        out.write_all(&answer)?;
        line.clear();
    }
    Ok(())
}

/// Answers a line that is no command.
fn other_line<S: Store>(card: &mut Card<Fuse<S>>, line: &[u8], answer: &mut Vec<u8>) -> Result<()> {
    if line.starts_with(b"#") {
        return Ok(());
    }
    let text = String::from_utf8_lossy(line);
    let writes: Option<u16> = text.strip_prefix("stop ").and_then(|count| count.parse().ok());
    let writes = writes.ok_or_else(|| Error::new(ErrorKind::Other, format!("no command: {text}")))?;
    card.memory.heap.journal.store.arm(writes);
    writeln!(answer, "armed {writes}")
}
