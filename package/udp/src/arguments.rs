//! A command's words and its options, `--name value`.

use crate::Result;
use std::ffi::OsString;
use std::str::FromStr;

/// What a command was given and has not yet taken.
pub struct Arguments {
    words: Vec<String>,
    options: Vec<(String, String)>,
}

impl Arguments {
    /// Sorts what was given. After a bare `--` everything is a word.
    pub fn new(given: impl Iterator<Item = OsString>) -> Result<Arguments> {
        let (mut words, mut options) = (vec![], vec![]);
        let mut given = given.map(|word| word.into_string().map_err(|word| format!("not text: {word:?}")));
        while let Some(word) = given.next() {
            let word = word?;
            if word == "--" {
                words.extend(given.by_ref().collect::<Result<Vec<String>>>()?);
            } else if let Some(name) = word.strip_prefix("--") {
                let value = given.next().ok_or_else(|| format!("--{name} needs a value"))??;
                options.push((name.to_string(), value));
            } else {
                words.push(word);
            }
        }
        words.reverse();
        Ok(Arguments { words, options })
    }

    /// The next word.
    pub fn word(&mut self, what: &str) -> Result<String> {
        self.words.pop().ok_or_else(|| format!("{what} is missing"))
    }

    /// The next word as a number.
    pub fn number<T: FromStr>(&mut self, what: &str) -> Result<T> {
        let word = self.word(what)?;
        word.parse().map_err(|_| format!("{what}: {word} is not such a number"))
    }

    /// An option, if it was given.
    pub fn option(&mut self, name: &str) -> Option<String> {
        let place = self.options.iter().position(|(given, _)| given == name)?;
        Some(self.options.remove(place).1)
    }

    /// An option that is a number within limits; if it was not given, the number stated.
    pub fn limited(&mut self, name: &str, stated: u64, low: u64, high: u64) -> Result<u64> {
        let Some(value) = self.option(name) else { return Ok(stated) };
        let number = value.parse().ok().filter(|number| (low..=high).contains(number));
        number.ok_or_else(|| format!("--{name} is a number from {low} to {high}, not {value}"))
    }

    /// Refuses what is left over.
    pub fn end(self) -> Result<()> {
        match (self.words.last(), self.options.first()) {
            (Some(word), _) => Err(format!("{word} is one word too many")),
            (_, Some((name, _))) => Err(format!("--{name} is unknown here, or given twice")),
            _ => Ok(()),
        }
    }
}

#[cfg(test)]
mod tests {
    use super::*;

    fn given(words: &[&str]) -> Result<Arguments> {
        Arguments::new(words.iter().map(OsString::from))
    }

    #[test]
    fn words_and_options_are_told_apart() {
        let mut given = given(&["put", "--wait", "7", "1", "--", "--text"]).unwrap();
        assert_eq!(given.word("command").unwrap(), "put");
        assert_eq!(given.limited("wait", 5, 1, 9), Ok(7));
        assert_eq!(given.limited("wait", 5, 1, 9), Ok(5));
        assert_eq!(given.number("client"), Ok(1u8));
        assert_eq!(given.word("text").unwrap(), "--text");
        assert!(given.end().is_ok());
    }

    #[test]
    fn what_is_wrong_is_refused() {
        assert!(given(&["--wait"]).is_err());
        assert!(given(&["--wait", "10"]).unwrap().limited("wait", 5, 1, 9).is_err());
        assert!(given(&["--wait", "5"]).unwrap().end().is_err());
        assert!(given(&["word"]).unwrap().end().is_err());
        assert!(given(&["300"]).unwrap().number::<u8>("client").is_err());
    }
}
