//! A piece of input in a message: not long, and with nothing that a terminal would act on.

/// Letters that a message shows.
const SHOWN: usize = 80;

pub fn quoted(text: &str) -> String {
    let shown: String = text.chars().take(SHOWN).flat_map(char::escape_debug).collect();
    let more = if text.chars().nth(SHOWN).is_some() { "…" } else { "" };
    format!("`{shown}{more}`")
}

#[cfg(test)]
mod tests {
    use super::*;

    #[test]
    fn long_and_odd_texts() {
        assert_eq!(quoted("1 ok"), "`1 ok`");
        assert_eq!(quoted("\u{1b}[2Jé"), "`\\u{1b}[2Jé`");
        assert_eq!(quoted(&"a".repeat(81)), format!("`{}…`", "a".repeat(80)));
    }
}
