//! Records of a host for tests, drawn from a seed.

/// Xorshift of 32 bits.
pub struct Draws(u32);

impl Draws {
    /// The seed is not 0.
    pub fn new(seed: u32) -> Draws {
        Draws(seed)
    }

    /// Below this number.
    pub fn next(&mut self, below: u32) -> u32 {
        self.0 ^= self.0 << 13;
        self.0 ^= self.0 >> 17;
        self.0 ^= self.0 << 5;
        self.0 % below
    }
}

/// Three clients with up to five operations on boards of few values, whatever they show; some are left behind unended.
pub fn any_record(draws: &mut Draws) -> String {
    let mut open = [None; 3];
    let (mut record, mut begun) = (String::new(), 0);
    for _ in 0..4 + draws.next(9) {
        let client = draws.next(3) as usize;
        let name = client + 1;
        record += &match open[client].take() {
            None if begun == 5 => continue,
            None => {
                begun += 1;
                let write = draws.next(2) == 0;
                open[client] = Some(write);
                if write {
                    format!("begin {name} write 0{}\n", draws.next(3))
                } else {
                    format!("begin {name} read\n")
                }
            }
            Some(_) if draws.next(12) == 0 => continue,
            Some(_) if draws.next(20) == 0 => format!("end {name} spent\n"),
            Some(true) => format!("end {name} written {} {name}\n", 1 + draws.next(3)),
            Some(false) => {
                format!("end {name} read {} {} 0{}\n", 1 + draws.next(3), 1 + draws.next(3), draws.next(3))
            }
        };
    }
    record
}

/// Where a client of `board_record` stands: what it is to write, or the line of its end.
#[derive(Clone)]
enum Stand {
    Idle,
    Begun(Option<String>),
    Done(String),
}

/// What one board shows: each operation counts at some event between its begin and its end. The starting board is 00.
pub fn board_record(draws: &mut Draws, clients: u32, operations: usize) -> String {
    let mut stands = vec![Stand::Idle; clients as usize];
    let (mut record, mut begun) = (String::new(), 0);
    let (mut number, mut state) = (0, "0 0 00".to_string());
    while begun < operations {
        let place = draws.next(clients) as usize;
        let name = place + 1;
        stands[place] = match stands[place].clone() {
            Stand::Idle => {
                begun += 1;
                let written = (draws.next(2) == 0).then(|| drawn_board(draws));
                let call = written.as_ref().map_or("read".to_string(), |board| format!("write {board}"));
                record += &format!("begin {name} {call}\n");
                Stand::Begun(written)
            }
            Stand::Begun(Some(board)) => {
                number += 1;
                state = format!("{number} {name} {board}");
                Stand::Done(format!("end {name} written {number} {name}\n"))
            }
            Stand::Begun(None) => Stand::Done(format!("end {name} read {state}\n")),
            Stand::Done(line) => {
                record += &line;
                Stand::Idle
            }
        }
    }
    record
}

/// Of up to 12 bytes.
fn drawn_board(draws: &mut Draws) -> String {
    let bytes: String = (0..draws.next(13)).map(|_| format!("{:02x}", draws.next(256))).collect();
    if bytes.is_empty() {
        "-".to_string()
    } else {
        bytes
    }
}
