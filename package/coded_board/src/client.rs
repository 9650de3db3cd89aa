use crate::refusal::{Refusal, ILL_FORMED, SHAPE};
use crate::{calls, Config, Record, Tag};

/// A client: its state, the board that it is writing, and the elements that it has received. A host keeps
/// them durably before it lets records out, and one process has a client's number and goes on from what was
/// kept.
#[derive(Debug)]
pub struct Client {
    config: Config,
    state: [u8; 56],
    kept: Vec<u8>,
    elements: Vec<u8>,
}

/// What a client's step gives.
#[derive(Clone, Debug, PartialEq, Eq)]
pub struct Step {
    /// The records to send, one to each server in order, or none.
    pub sends: Vec<Record>,
    /// How the operation ended, if it did.
    pub ended: Ended,
}

/// How an operation ends.
#[derive(Clone, Debug, PartialEq, Eq)]
pub enum Ended {
    /// Not yet.
    Nothing,
    /// The board is written, as this version.
    Written(Tag),
    /// No number was left; nothing was written or read.
    Spent,
    /// The version read, and its bytes.
    Read(Tag, Vec<u8>),
}

impl Client {
    /// The client of a number, 1 to C, that has done nothing yet.
    pub fn fresh(config: &Config, number: u8) -> Result<Client, Refusal> {
        let mut state = [0; 56];
        Refusal::told(calls::client_fresh(config.bytes(), number, &mut state))?;
        let (kept, elements) = (vec![0; config.board_length()], vec![0; config.elements_length()]);
        Ok(Client { config: config.clone(), state, kept, elements })
    }

    /// A client from what a host kept of it; 6 if these bytes are not such.
    pub fn from_parts(
        config: &Config,
        state: &[u8],
        kept: &[u8],
        elements: &[u8],
    ) -> Result<Client, Refusal> {
        let state = state.try_into().map_err(|_| SHAPE)?;
        let (kept, elements) = (kept.to_vec(), elements.to_vec());
        let mut client = Client { config: config.clone(), state, kept, elements };
        // A record of zeros is ill formed: so it is refused, and 12 says that all else is in order.
        match client.step(&Record::blank()) {
            Err(no) if no.number() != ILL_FORMED => Err(no),
            _ => Ok(client),
        }
    }

    /// The state, to keep.
    pub fn state(&self) -> &[u8; 56] {
        &self.state
    }

    /// The board that is being written, to keep.
    pub fn kept(&self) -> &[u8] {
        &self.kept
    }

    /// The elements received, to keep.
    pub fn elements(&self) -> &[u8] {
        &self.elements
    }

    /// Its number.
    pub fn number(&self) -> u8 {
        self.state[0]
    }

    /// The number of its last operation, 0 if there was none.
    pub fn operation(&self) -> u32 {
        u32::from_le_bytes([self.state[4], self.state[5], self.state[6], self.state[7]])
    }

    /// Whether no operation is open.
    pub fn is_idle(&self) -> bool {
        self.state[1] == 0
    }

    /// Begins to write a board of up to k × E bytes (else 19), and gives a record for each server, in order.
    /// 10 if an operation is open.
    pub fn write(&mut self, board: &[u8]) -> Result<Vec<Record>, Refusal> {
        let length = u16::try_from(board.len()).unwrap_or(u16::MAX);
        let mut padded = vec![0; self.config.board_length()];
        for (to, from) in padded.iter_mut().zip(board) {
            *to = *from;
        }
        let mut sends = vec![0; self.config.sends_length()];
        let config = self.config.bytes();
        let no = calls::client_write(config, &mut self.state, length, &padded, &mut self.kept, &mut sends);
        Refusal::told(no)?;
        Ok(Record::first(&sends, self.config.n()))
    }

    /// Begins to read, and gives a record for each server, in order. 10 if an operation is open.
    pub fn read(&mut self) -> Result<Vec<Record>, Refusal> {
        let mut sends = vec![0; self.config.sends_length()];
        Refusal::told(calls::client_read(self.config.bytes(), &mut self.state, &mut sends))?;
        Ok(Record::first(&sends, self.config.n()))
    }

    /// Takes a server's answer: 12 if it is ill formed, 16 if it is not for this client, 14 if it is not
    /// awaited, as a late or a repeated one.
    pub fn step(&mut self, message: &Record) -> Result<Step, Refusal> {
        let mut sends = vec![0; self.config.sends_length()];
        let mut board = vec![0; self.config.board_length()];
        let mut outcome = [0; 12];
        Refusal::told(calls::client_step(
            self.config.bytes(),
            &mut self.state,
            message.bytes(),
            &self.kept,
            &mut self.elements,
            &mut sends,
            &mut board,
            &mut outcome,
        ))?;
        let [how, count, low, high, n0, n1, n2, n3, client, ..] = outcome;
        let tag = Tag { number: u32::from_le_bytes([n0, n1, n2, n3]), client };
        board.truncate(u16::from_le_bytes([low, high]).into());
        let ended = match how {
            1 => Ended::Written(tag),
            2 => Ended::Spent,
            3 => Ended::Read(tag, board),
            _ => Ended::Nothing,
        };
        Ok(Step { sends: Record::first(&sends, count), ended })
    }
}
