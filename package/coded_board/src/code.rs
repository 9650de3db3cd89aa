use crate::refusal::Refusal;
use crate::{calls, Config};

/// Puts server s's element of a board of k × E bytes into a lent part of E bytes: 6 for other lengths, 18 if
/// there is no such server.
pub fn encode(config: &Config, board: &[u8], s: u8, element: &mut [u8]) -> Result<(), Refusal> {
    Refusal::told(calls::encode(config.bytes(), board, s, element))
}

/// Puts all servers' elements of a board of k × E bytes into a lent buffer of N records of `distance` bytes:
/// that of server s into E bytes from offset + (s − 1) × distance on. All other bytes stay. 6 for other
/// lengths, and where offset + E is above the distance. Offset 16 and distance 80 are for records; offset 0
/// and distance E join the elements.
pub fn encode_all(
    config: &Config,
    board: &[u8],
    offset: usize,
    distance: usize,
    buffer: &mut [u8],
) -> Result<(), Refusal> {
    Refusal::told(calls::encode_all(config.bytes(), board, offset, distance, buffer))
}

/// Puts the board of some servers' elements into a lent buffer of k × E bytes. The server numbers rise
/// strictly (else 17); there are at least k (else 18), and the first k are used; their elements stand joined
/// in the same order.
pub fn decode(config: &Config, servers: &[u8], elements: &[u8], board: &mut [u8]) -> Result<(), Refusal> {
    Refusal::told(calls::decode(config.bytes(), servers, elements, board))
}
