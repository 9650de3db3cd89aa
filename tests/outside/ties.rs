//! What lists meet of ranks: tags of one number that ranks put in another order than client numbers alone do.

use crate::common::never;
use crate::model::{Config, PRE_WRITE, READ_FINALISE, Record, Server, Tag, WRITE_FINALISE};

/// Document 01's order, without ranks.
pub fn plain(t: Tag) -> (u32, u8) {
    (t.number, t.client)
}

/// Whether ranks reverse the order of two tags.
fn reversed(config: &Config, a: Tag, b: Tag) -> bool {
    (config.key(a) < config.key(b)) != (plain(a) < plain(b))
}

/// Whether ranks raise a tag above another, if they reverse their order.
fn raised(config: &Config, t: Tag, other: Tag) -> Option<bool> {
    reversed(config, t, other).then_some(config.key(t) > config.key(other))
}

/// Whether clients differ in rank.
pub fn mixed(config: &Config) -> bool {
    config.ranks.iter().take(config.c).any(|rank| *rank != config.ranks[0])
}

/// How often something came out otherwise than it would have without ranks, from the same state.
#[derive(Default, Debug)]
pub struct Ties {
    /// Pre-writes that have a stored tag dropped, and the new one.
    pub dropped: [usize; 2],
    /// Pre-writes below the floor, and above it.
    pub floor: [usize; 2],
    /// Read finalises answered by kind 9, and by kind 8 without an element.
    pub cleared: [usize; 2],
    /// Finalises that leave H, and that raise it.
    pub highest: [usize; 2],
    /// Answers to a query below the highest so far, and above it.
    pub answers: [usize; 2],
    /// Reads that take another tag, and that end with it.
    pub taken: usize,
    pub ended: usize,
    /// Finalises of a tag with H's number and rank, where clients differ in rank.
    pub alike: usize,
}

impl Ties {
    pub fn missing(&self) -> Vec<&'static str> {
        never(&[
            ("by rank: a stored tag dropped", self.dropped[0]),
            ("by rank: a pre-write dropped", self.dropped[1]),
            ("by rank: a pre-write below the floor", self.floor[0]),
            ("by rank: a pre-write above the floor", self.floor[1]),
            ("by rank: kind 9 below the floor", self.cleared[0]),
            ("by rank: kind 8 above the floor", self.cleared[1]),
            ("by rank: H left", self.highest[0]),
            ("by rank: H raised", self.highest[1]),
            ("by rank: an answer below the highest", self.answers[0]),
            ("by rank: an answer above the highest", self.answers[1]),
            ("by rank: a read takes another tag", self.taken),
            ("by rank: a read ends with another tag", self.ended),
            ("tags of one number and rank", self.alike),
        ])
    }

    /// Notes what a message will do to a server.
    pub fn at_server(&mut self, config: &Config, server: &Server, r: &Record) {
        let t = r.tag;
        let stored = server.stored.iter().any(|(tag, _)| *tag == t);
        let above_floor = server.floor.filter(|_| !stored).and_then(|floor| raised(config, t, floor));
        match r.kind {
            PRE_WRITE if !stored => {
                count(&mut self.floor, above_floor);
                self.note_dropped(config, server, t);
            }
            READ_FINALISE => count(&mut self.cleared, above_floor),
            _ => {}
        }
        if matches!(r.kind, WRITE_FINALISE | READ_FINALISE) {
            let h = server.highest;
            count(&mut self.highest, raised(config, t, h));
            let same_rank = config.rank(h.client) == config.rank(t.client);
            self.alike += (h != t && h.number == t.number && same_rank) as usize;
        }
    }

    /// A pre-write above the floor, by either order, has a tag dropped where D + 1 are stored.
    fn note_dropped(&mut self, config: &Config, server: &Server, t: Tag) {
        let above = |f: Tag| config.key(t) > config.key(f) && plain(t) > plain(f);
        let tags = || server.stored.iter().map(|(tag, _)| *tag).chain([t]);
        let by_rank = tags().min_by_key(|tag| config.key(*tag)).unwrap();
        let other = Some(by_rank) != tags().min_by_key(|tag| plain(*tag));
        if server.floor.is_none_or(above) && tags().count() > config.d + 1 && other {
            self.dropped[(by_rank == t) as usize] += 1;
        }
    }

    /// Notes an awaited answer to a query, by the highest tag before it.
    pub fn at_client(&mut self, config: &Config, highest: Tag, t: Tag) {
        count(&mut self.answers, raised(config, t, highest));
    }
}

fn count(counts: &mut [usize; 2], which: Option<bool>) {
    if let Some(which) = which {
        counts[which as usize] += 1;
    }
}
