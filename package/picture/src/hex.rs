//! Boards as hexadecimal digits, and numbers in decimal ones.

/// Two lower-case digits a byte.
pub fn digits(board: &[u8]) -> String {
    board.iter().map(|byte| format!("{byte:02x}")).collect()
}

/// The board of such digits, or of `-`, which is the empty one.
pub fn board(word: &str) -> Option<Vec<u8>> {
    if word == "-" {
        return Some(vec![]);
    }
    let pairs = word.as_bytes().chunks_exact(2);
    if word.is_empty() || !pairs.remainder().is_empty() {
        return None;
    }
    let digit = |byte: u8| (byte as char).to_digit(16).map(|digit| digit as u8);
    pairs.map(|two| Some(digit(two[0])? << 4 | digit(two[1])?)).collect()
}

/// A number of plain digits, without a sign.
pub fn number(word: &str) -> Option<u32> {
    word.bytes().all(|byte| byte.is_ascii_digit()).then(|| word.parse().ok()).flatten()
}

#[cfg(test)]
mod tests {
    use super::*;

    #[test]
    fn boards_come_back() {
        for bytes in [vec![], vec![0], vec![0x0a, 0xff, 0x10]] {
            let word = if bytes.is_empty() { "-".to_string() } else { digits(&bytes) };
            assert_eq!(board(&word), Some(bytes));
        }
        assert_eq!(board("0A"), Some(vec![10]));
    }

    #[test]
    fn other_words_are_no_board_and_no_number() {
        for word in ["", "a", "abc", "0x", "+1", "é", "--", " a"] {
            assert_eq!(board(word), None, "{word}");
        }
        for word in ["", "-1", "+1", "1a", "4294967296", "é"] {
            assert_eq!(number(word), None, "{word}");
        }
        assert_eq!(number("4294967295"), Some(u32::MAX));
    }
}
