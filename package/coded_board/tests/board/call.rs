//! One call of the archive as data: which, and the bytes and numbers that it is handed. Run, each buffer
//! stands between guards, and what may not change is looked at.

use coded_board::calls;

#[derive(Clone, Copy, Debug, PartialEq)]
pub enum Which {
    Lengths,
    ServerFresh,
    ServerStep,
    ServerElement,
    ClientFresh,
    ClientWrite,
    ClientRead,
    ClientStep,
    Encode,
    EncodeAll,
    Decode,
}

/// The buffers in the order of the header, the configuration first. `party` is a server's or a client's
/// number, `number` a tag's number or a length; `places` is the offset and the distance of elements.
#[derive(Clone, Debug)]
pub struct Call {
    pub which: Which,
    pub parts: Vec<Vec<u8>>,
    pub party: u8,
    pub number: u32,
    pub places: [usize; 2],
}

/// What a call leaves: its number, the buffers and the lent numbers.
#[derive(Debug, PartialEq)]
pub struct Done {
    pub no: u8,
    pub parts: Vec<Vec<u8>>,
    pub sizes: [usize; 4],
}

const GUARD: usize = 24;
const UNTOUCHED: [usize; 4] = [0xA5A5_A5A5, 77, 0, usize::MAX];

impl Which {
    /// As the header has it.
    pub fn name(self) -> &'static str {
        match self {
            Which::Lengths => "coded_lengths",
            Which::ServerFresh => "coded_server_fresh",
            Which::ServerStep => "coded_server_step",
            Which::ServerElement => "coded_server_element",
            Which::ClientFresh => "coded_client_fresh",
            Which::ClientWrite => "coded_client_write",
            Which::ClientRead => "coded_client_read",
            Which::ClientStep => "coded_client_step",
            Which::Encode => "coded_encode",
            Which::EncodeAll => "coded_encode_all",
            Which::Decode => "coded_decode",
        }
    }

    /// Whether each buffer is lent to write.
    pub fn lent(self) -> &'static [bool] {
        match self {
            Which::Lengths => &[false],
            Which::ServerFresh => &[false, false, true, true],
            Which::ServerStep => &[false, true, false, true, true],
            Which::ServerElement => &[false, false, false],
            Which::ClientFresh => &[false, true],
            Which::ClientWrite => &[false, true, false, true, true],
            Which::ClientRead => &[false, true, true],
            Which::ClientStep => &[false, true, false, false, true, true, true, true],
            Which::Encode | Which::EncodeAll => &[false, false, true],
            Which::Decode => &[false, false, false, true],
        }
    }
}

impl Call {
    pub fn new(which: Which, parts: &[&[u8]], party: u8, number: u32) -> Call {
        assert_eq!(parts.len(), which.lent().len());
        let parts = parts.iter().map(|part| part.to_vec()).collect();
        Call { which, parts, party, number, places: [0, 0] }
    }

    /// Runs it. Guards, buffers that are not lent and, where it is refused, all that is lent are as before.
    pub fn run(&self) -> Done {
        let mut guarded: Vec<Vec<u8>> = self.parts.iter().map(|part| guard(part)).collect();
        let mut sizes = UNTOUCHED;
        let no = self.on(&mut guarded, &mut sizes);
        let parts: Vec<Vec<u8>> = guarded.iter().map(|part| inside(part).to_vec()).collect();
        for (i, part) in guarded.iter().enumerate() {
            let (before, after) = (&part[..GUARD], &part[part.len() - GUARD..]);
            assert!(before.iter().chain(after).all(|byte| *byte == 0xA5), "{self:?}: past part {i}");
            let stays = no != 0 || !self.which.lent()[i];
            assert!(!stays || parts[i] == self.parts[i], "{self:?}: {no}, and part {i} is {:?}", parts[i]);
        }
        assert!(no == 0 || sizes == UNTOUCHED, "{self:?}: {no}, and {sizes:?}");
        Done { no, parts, sizes }
    }

    fn on(&self, guarded: &mut [Vec<u8>], sizes: &mut [usize; 4]) -> u8 {
        let mut parts = guarded.iter_mut().map(|part| {
            let end = part.len() - GUARD;
            &mut part[GUARD..end]
        });
        let mut part = || parts.next().expect("as many as the call has");
        let ([a, b, c, d], [offset, distance]) = (sizes, self.places);
        match self.which {
            Which::Lengths => calls::lengths(part(), a, b, c, d),
            Which::ServerFresh => calls::server_fresh(part(), self.party, part(), part(), part()),
            Which::ServerStep => calls::server_step(part(), part(), part(), part(), part()),
            Which::ServerElement => calls::server_element(part(), part(), self.number, self.party, part(), a),
            Which::ClientFresh => calls::client_fresh(part(), self.party, part()),
            Which::ClientWrite => {
                calls::client_write(part(), part(), self.number as u16, part(), part(), part())
            }
            Which::ClientRead => calls::client_read(part(), part(), part()),
            Which::ClientStep => {
                calls::client_step(part(), part(), part(), part(), part(), part(), part(), part())
            }
            Which::Encode => calls::encode(part(), part(), self.party, part()),
            Which::EncodeAll => calls::encode_all(part(), part(), offset, distance, part()),
            Which::Decode => calls::decode(part(), part(), part(), part()),
        }
    }
}

fn guard(part: &[u8]) -> Vec<u8> {
    [&[0xA5; GUARD], part, &[0xA5; GUARD]].concat()
}

fn inside(guarded: &[u8]) -> &[u8] {
    &guarded[GUARD..guarded.len() - GUARD]
}
