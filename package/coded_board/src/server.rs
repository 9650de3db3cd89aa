use crate::refusal::{Refusal, ELEMENTS, MISSING, SHAPE};
use crate::{calls, encode, Config, Record, Tag};

/// A server: its state and its store of elements. A host keeps both durably before it lets an answer out, so
/// that the server goes on from them after a restart.
#[derive(Debug)]
pub struct Server {
    config: Config,
    state: [u8; 88],
    store: Vec<u8>,
}

impl Server {
    /// The server of a number, 1 to N, with nothing but its element of the starting board, of k × E bytes.
    pub fn fresh(config: &Config, number: u8, start: &[u8]) -> Result<Server, Refusal> {
        let mut element = vec![0; config.e().into()];
        encode(config, start, number, &mut element).map_err(|no| match no.number() {
            ELEMENTS => MISSING,
            _ => no,
        })?;
        let (mut state, mut store) = ([0; 88], vec![0; config.store_length()]);
        Refusal::told(calls::server_fresh(config.bytes(), number, &element, &mut state, &mut store))?;
        Ok(Server { config: config.clone(), state, store })
    }

    /// A server from what a host kept of it; 6 if these bytes are not such.
    pub fn from_parts(config: &Config, state: &[u8], store: &[u8]) -> Result<Server, Refusal> {
        let mut place = 0;
        Refusal::told(calls::server_element(config.bytes(), state, 0, 0, store, &mut place))?;
        let state = state.try_into().map_err(|_| SHAPE)?;
        Ok(Server { config: config.clone(), state, store: store.to_vec() })
    }

    /// The state, to keep.
    pub fn state(&self) -> &[u8; 88] {
        &self.state
    }

    /// The store, to keep.
    pub fn store(&self) -> &[u8] {
        &self.store
    }

    /// Its number.
    pub fn number(&self) -> u8 {
        self.state[0]
    }

    /// Takes a client's record and gives the one to send back to that client: 12 if it is ill formed, 16 if
    /// it is not for this server.
    pub fn step(&mut self, message: &Record) -> Result<Record, Refusal> {
        let mut answer = Record::blank();
        Refusal::told(calls::server_step(
            self.config.bytes(),
            &mut self.state,
            message.bytes(),
            &mut self.store,
            answer.lent(),
        ))?;
        Ok(answer)
    }

    /// The stored element of a tag.
    pub fn element(&self, tag: Tag) -> Option<&[u8]> {
        let mut place = 0;
        let config = self.config.bytes();
        let no = calls::server_element(config, &self.state, tag.number, tag.client, &self.store, &mut place);
        let end = place.checked_add(self.config.e().into())?;
        self.store.get(place..end).filter(|_| no == 0)
    }
}
