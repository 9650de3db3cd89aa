//! Colours, fonts and sizes.

use crate::history::{Board, History};
use std::collections::HashMap;

pub const BACKGROUND: &str = "#fcfcfa";

/// Around the whole picture.
pub const MARGIN: i64 = 24;

/// A bar's height.
pub const BAR: i64 = 24;

/// The height of the mark with an operation's place.
pub const MARK: i64 = 16;

pub const STYLE: &str = "
text { font-family: 'Helvetica Neue', Helvetica, Arial, 'DejaVu Sans', sans-serif; font-size: 12px; fill: #1f2937; }
.title { font-size: 19px; font-weight: bold; }
.row { font-size: 13px; font-weight: bold; }
.small { font-size: 11px; fill: #6b7280; }
.bad { font-size: 17px; font-weight: bold; fill: #c81e1e; }
.code, .tag, .time, .mark { font-family: 'DejaVu Sans Mono', Menlo, Consolas, 'Liberation Mono', monospace; }
.tag, .time { font-size: 10px; }
.time { fill: #6b7280; text-anchor: middle; }
.mark { font-size: 10px; font-weight: bold; text-anchor: middle; }
.white { fill: #ffffff; }
.faint { fill: #6b7280; }
";

/// Of a text in the fixed-width font of `.code`, 12 pixels high.
pub fn code_width(text: &str) -> i64 {
    letters(text) * 73 / 10 + 1
}

/// Of one in `.tag` or `.mark`, 10 pixels high.
pub fn tag_width(text: &str) -> i64 {
    letters(text) * 61 / 10 + 1
}

/// Of a text in the other font, so many pixels high; hardly any is wider.
pub fn text_width(text: &str, height: i64) -> i64 {
    letters(text) * height * 58 / 100 + 1
}

fn letters(text: &str) -> i64 {
    text.chars().count() as i64
}

/// The colours of a board: what writes it is filled with the strong one, what shows it with the pale one.
#[derive(Clone, Copy, Debug, PartialEq)]
pub struct Hue {
    pub strong: &'static str,
    pub pale: &'static str,
}

/// The starting board's.
pub const START: Hue = Hue { strong: "#5b6776", pale: "#e6e9ee" };

/// Of a read whose board is nobody's.
pub const ODD: Hue = Hue { strong: "#c81e1e", pale: "#ffffff" };

/// Of what is spent, and of a read that shows nothing yet.
pub const GREY: Hue = Hue { strong: "#a3a9b3", pale: "#f0f1f3" };

/// In turn those of the boards written.
const HUES: [Hue; 9] = [
    Hue { strong: "#2f6fb3", pale: "#dceaf8" },
    Hue { strong: "#b8590f", pale: "#fbe7d3" },
    Hue { strong: "#2c7d50", pale: "#dbf1e3" },
    Hue { strong: "#7a4ba6", pale: "#ece1f6" },
    Hue { strong: "#11757a", pale: "#d5eff0" },
    Hue { strong: "#a8326f", pale: "#f8deeb" },
    Hue { strong: "#806a0a", pale: "#f4edc9" },
    Hue { strong: "#4a53b5", pale: "#e2e4f8" },
    Hue { strong: "#80573a", pale: "#f0e4da" },
];

/// One hue for each board that is written, whoever writes it, and one for the starting board.
pub struct Hues<'a> {
    of: HashMap<&'a Board, Hue>,
}

impl<'a> Hues<'a> {
    pub fn new(history: &'a History) -> Hues<'a> {
        let mut of: HashMap<&Board, Hue> = history.start.iter().map(|start| (start, START)).collect();
        let mut hues = HUES.iter().cycle().copied();
        for write in history.operations.iter().filter(|operation| operation.is_write()) {
            if let Some(board) = write.board().filter(|board| !of.contains_key(board)) {
                of.insert(board, hues.next().unwrap_or(START));
            }
        }
        Hues { of }
    }

    pub fn of(&self, board: &Board) -> Hue {
        self.of.get(board).copied().unwrap_or(ODD)
    }
}

#[cfg(test)]
mod tests {
    use super::*;
    use crate::host;

    #[test]
    fn boards_have_hues() {
        let record =
            "begin 1 write aa\nbegin 2 write bb\nend 1 written 1 1\nbegin 1 write aa\nbegin 3 write 00\n";
        let history = host::history(record, Some(vec![0]), vec![]).unwrap();
        let hues = Hues::new(&history);
        assert_eq!([0, 0xaa, 0xbb].map(|byte| hues.of(&vec![byte])), [START, HUES[0], HUES[1]]);
        assert_eq!(hues.of(&vec![0x77]), ODD);
    }
}
