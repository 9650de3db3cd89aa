//! Boards in words, as text for people and as hexadecimal digits for files; and what a command says.

use crate::Result;
use std::io::Write;
use std::process::ExitCode;

/// Says a line on standard output.
pub fn say(line: &str) -> Result<()> {
    let mut out = std::io::stdout();
    writeln!(out, "{line}").and_then(|()| out.flush()).map_err(|why| format!("standard output: {why}"))
}

/// A command's status; what is wrong is said on standard error.
pub fn status(command: &str, done: Result<()>) -> ExitCode {
    let Err(why) = done else { return ExitCode::SUCCESS };
    _ = writeln!(std::io::stderr(), "{command}: {why}");
    ExitCode::FAILURE
}

/// A board as text if it is plain text, else its hexadecimal digits.
pub fn shown(board: &[u8]) -> String {
    match std::str::from_utf8(board) {
        Ok(text) if !text.chars().any(char::is_control) => format!("\"{text}\""),
        _ => format!("bytes {}", digits(board)),
    }
}

/// Two lower-case hexadecimal digits for each byte; `-` for no bytes.
pub fn digits(board: &[u8]) -> String {
    if board.is_empty() {
        return "-".to_string();
    }
    board.iter().map(|byte| format!("{byte:02x}")).collect()
}

/// The bytes of such digits.
pub fn bytes(digits: &str) -> Result<Vec<u8>> {
    if digits == "-" {
        return Ok(vec![]);
    }
    let lower = digits.bytes().all(|digit| matches!(digit, b'0'..=b'9' | b'a'..=b'f'));
    if digits.is_empty() || digits.len() % 2 == 1 || !lower {
        return Err(format!("not the hexadecimal digits of a board: {digits}"));
    }
    let pairs = digits.as_bytes().chunks(2).map(|pair| 16 * value(pair[0]) + value(pair[1]));
    Ok(pairs.collect())
}

fn value(digit: u8) -> u8 {
    match digit {
        b'0'..=b'9' => digit - b'0',
        _ => digit - b'a' + 10,
    }
}

#[cfg(test)]
mod tests {
    use super::*;

    #[test]
    fn digits_give_the_bytes_back() {
        for board in [&[][..], &[0], &[0x0a, 0xff, 0x10]] {
            assert_eq!(bytes(&digits(board)), Ok(board.to_vec()));
        }
        assert_eq!(digits(&[]), "-");
        for wrong in ["", "0", "0g", "0A", "+1", "é"] {
            assert!(bytes(wrong).is_err(), "{wrong}");
        }
    }
}
