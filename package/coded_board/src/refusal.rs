use std::error::Error;
use std::fmt;

/// Why a call did nothing: the number of the first question that was answered no. What the call was handed is
/// as it was.
#[derive(Clone, Copy, Debug, PartialEq, Eq, Hash)]
pub struct Refusal {
    number: u8,
}

/// A buffer's length or a state's content.
pub(crate) const SHAPE: Refusal = Refusal { number: 6 };
/// No party of this number.
pub(crate) const MISSING: Refusal = Refusal { number: 8 };
/// A record that keeps no rule.
pub(crate) const ILL_FORMED: u8 = 12;
/// Encoding for a server that is not there.
pub(crate) const ELEMENTS: u8 = 18;

impl Refusal {
    /// What a call's number says.
    pub(crate) fn told(number: u8) -> Result<(), Refusal> {
        match number {
            0 => Ok(()),
            number => Err(Refusal { number }),
        }
    }

    /// The question's number.
    pub fn number(self) -> u8 {
        self.number
    }

    fn line(self) -> &'static str {
        match self.number {
            1 => "the number of servers is not 1 to 16",
            2 => "k is not 1 to the number of servers",
            3 => "D is above 7",
            4 => "an element's length is not 1 to 64",
            5 => "the number of clients is not 1 to 16",
            6 => "a length, offset or distance is wrong, or the bytes are no state of this configuration",
            8 => "there is no server or client of this number",
            9 => "the client is down",
            10 => "the client has an operation open",
            11 => "the client's operation numbers are used up",
            12 => "the record is ill formed",
            14 => "the client does not await this answer",
            16 => "the record is for somebody else, or of a kind that this party does not receive",
            17 => "the server numbers do not rise strictly within 1 to N",
            18 => "there are fewer than k elements, or there is no such server to encode for",
            19 => "the board is longer than k times E",
            21 => "a client's rank is above 3",
            _ => "refused",
        }
    }
}

impl fmt::Display for Refusal {
    fn fmt(&self, f: &mut fmt::Formatter<'_>) -> fmt::Result {
        write!(f, "{}: {}", self.number, self.line())
    }
}

impl Error for Refusal {}

#[cfg(test)]
mod tests {
    use super::Refusal;
    use std::collections::HashSet;

    /// Each number that a call gives has a line of its own.
    #[test]
    fn every_number_has_its_line() {
        let numbers = [1, 2, 3, 4, 5, 6, 8, 9, 10, 11, 12, 14, 16, 17, 18, 19, 21];
        let lines: HashSet<&str> = numbers.map(|number| Refusal { number }.line()).into();
        assert_eq!(lines.len(), numbers.len());
        assert!(!lines.contains(Refusal { number: 7 }.line()));
        assert_eq!(Refusal { number: 9 }.to_string(), "9: the client is down");
    }
}
