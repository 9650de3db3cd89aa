//! Encoding, of one server and of all, and decoding: document 01's figures, and a shift-and-add multiplier.

use crate::random::{config, made, Random};
use crate::samples::{element_of, places};
use coded_board::{decode, encode_all, Config, Refusal};

/// Polynomials modulo hexadecimal 11D, by shift and add.
fn product(a: u8, b: u8) -> u8 {
    let (mut shifted, mut sum) = (u16::from(a), 0);
    for i in 0..8 {
        if b >> i & 1 == 1 {
            sum ^= shifted;
        }
        shifted = if shifted & 0x80 == 0 { shifted << 1 } else { shifted << 1 ^ 0x11D };
    }
    sum as u8
}

/// Byte j is the sum over i of board byte i × E + j times s to the power i.
fn element(config: &Config, board: &[u8], s: u8) -> Vec<u8> {
    let mut element = vec![0; config.e().into()];
    let mut power = 1;
    for row in board.chunks(config.e().into()) {
        element.iter_mut().zip(row).for_each(|(sum, byte)| *sum ^= product(*byte, power));
        power = product(power, s);
    }
    element
}

/// A buffer with the element of each server in its record: an offset and a distance, and all other bytes as
/// they are.
pub fn with_elements(config: &Config, board: &[u8], places: [usize; 2], buffer: &[u8]) -> Vec<u8> {
    let ([offset, distance], mut with) = (places, buffer.to_vec());
    for (s, record) in (1..).zip(with.chunks_mut(distance)) {
        record[offset..offset + usize::from(config.e())].copy_from_slice(&element(config, board, s));
    }
    with
}

/// All elements of a board in records of any bytes: those of `element` and of `encode`, and the bytes between
/// stay.
fn check_all(random: &mut Random, config: &Config, board: &[u8], [offset, distance]: [usize; 2]) {
    let before = random.bytes(usize::from(config.n()) * distance);
    let mut after = before.clone();
    assert_eq!(encode_all(config, board, offset, distance, &mut after), Ok(()));
    assert_eq!(
        after,
        with_elements(config, board, [offset, distance], &before),
        "{config:?} {offset} {distance}"
    );
    for (s, record) in (1..).zip(after.chunks(distance)) {
        assert_eq!(
            record[offset..offset + usize::from(config.e())],
            element_of(config, board, s),
            "{config:?} {s}"
        );
    }
}

/// What these servers' elements decode to.
fn decoded(config: &Config, board: &[u8], servers: &[u8]) -> Vec<u8> {
    let elements: Vec<u8> = servers.iter().flat_map(|s| element_of(config, board, *s)).collect();
    let mut read = vec![0; config.board_length()];
    decode(config, servers, &elements, &mut read).expect("rising server numbers");
    read
}

#[test]
fn figures_of_document_01() {
    assert_eq!((product(2, 128), product(3, 7)), (29, 9));
    let config = Config::new(5, 3, 0, 1, 1, &[]).expect("numbers in range");
    let board = [10, 20, 30];
    let elements: Vec<u8> = (1..=5).flat_map(|s| element_of(&config, &board, s)).collect();
    assert_eq!(elements, [0, 90, 80, 167, 173]);
    let mut joined = [0; 5];
    encode_all(&config, &board, 0, 1, &mut joined).expect("room for five elements");
    assert_eq!(joined, [0, 90, 80, 167, 173]);
    let mut read = [0; 3];
    decode(&config, &[2, 4, 5], &[90, 167, 173], &mut read).expect("three elements");
    assert_eq!(read, board);
    let cut: Vec<u8> = (1..=5).flat_map(|s| element_of(&config, &[10, 20, 0], s)).collect();
    assert_eq!(cut, [30, 34, 54, 90, 78]);
    let config = Config::new(3, 2, 0, 1, 1, &[]).expect("numbers in range");
    let elements: Vec<u8> = (1..=3).flat_map(|s| element_of(&config, &[1, 2], s)).collect();
    assert_eq!(elements, [3, 5, 7]);
}

#[test]
fn quorums_of_document_01() {
    for (n, k, q) in [(5, 3, 4), (5, 5, 5), (6, 3, 5), (16, 1, 9)] {
        assert_eq!(Config::new(n, k, 0, 1, 1, &[]).map(|config| config.quorum()), Ok(q));
    }
}

/// Any k servers give the board back, and of more the first k decide.
#[test]
fn any_k_of_them() {
    let config = Config::new(5, 3, 0, 1, 1, &[]).expect("numbers in range");
    let sets = (1..32u32).map(|set| (1..=5).filter(|s| set >> (s - 1) & 1 == 1).collect::<Vec<u8>>());
    for servers in sets.filter(|servers| servers.len() >= 3) {
        assert_eq!(decoded(&config, &[10, 20, 30], &servers), [10, 20, 30]);
        let mut elements: Vec<u8> =
            servers.iter().flat_map(|s| element_of(&config, &[10, 20, 30], *s)).collect();
        elements[3..].fill(99);
        let mut read = [0; 3];
        decode(&config, &servers, &elements, &mut read).expect("rising server numbers");
        assert_eq!(read, [10, 20, 30]);
    }
}

#[test]
fn any_configuration_and_board() {
    let random = &mut Random::new(3, 285);
    for _ in 0..1500 {
        let config = config(random);
        let board = random.bytes(config.board_length());
        for s in 1..=config.n() {
            assert_eq!(element_of(&config, &board, s), element(&config, &board, s));
        }
        let places = places(random, &config);
        check_all(random, &config, &board, places);
        let servers = some_k(random, &config);
        assert_eq!(decoded(&config, &board, &servers), board);
    }
}

/// Any k servers.
fn some_k(random: &mut Random, config: &Config) -> Vec<u8> {
    let mut servers: Vec<u8> = (1..=config.n()).collect();
    while servers.len() > config.k().into() {
        servers.remove(random.below(servers.len()));
    }
    servers
}

/// Every N, k and E, with a board drawn for each.
#[test]
fn every_n_k_and_e() {
    let random = &mut Random::new(3, 286);
    for (n, e) in (1..=16).flat_map(|n| (1..=64).map(move |e| (n, e))) {
        for k in 1..=n {
            let config = made(random, [n, k, 0, e, 1]);
            let board = random.bytes(k * e);
            let places = places(random, &config);
            check_all(random, &config, &board, places);
            let servers = some_k(random, &config);
            assert_eq!(decoded(&config, &board, &servers), board, "{config:?} {servers:?}");
        }
    }
}

/// N, k and E, small and large.
const SOME: [[usize; 3]; 12] = [
    [16, 16, 64],
    [16, 8, 64],
    [16, 16, 16],
    [5, 3, 64],
    [6, 3, 16],
    [3, 1, 1],
    [12, 10, 7],
    [16, 7, 1],
    [16, 12, 64],
    [10, 10, 64],
    [16, 7, 16],
    [8, 8, 64],
];

/// Boards of zeros, of 255, with one byte that is another, and any, at every offset in a record and joined.
#[test]
fn all_elements_at_once() {
    let random = &mut Random::new(3, 287);
    for [n, k, e] in SOME {
        let config = made(random, [n, k, 0, e, 1]);
        let mut one = vec![0; k * e];
        one[random.below(k * e)] = random.within(1, 255) as u8;
        for board in [vec![0; k * e], vec![255; k * e], one, random.bytes(k * e), random.bytes(k * e)] {
            check_all(random, &config, &board, [0, e]);
            for offset in 0..=80 - e {
                check_all(random, &config, &board, [offset, 80]);
            }
        }
        for _ in 0..200 {
            let board = random.bytes(k * e);
            check_all(random, &config, &board, [16, 80]);
        }
    }
}

/// A refused call leaves the buffer as it was: a board of another length, an element past its record, a
/// buffer that is not N distances long, and sums and products past the largest number.
#[test]
fn all_elements_or_none() {
    let random = &mut Random::new(3, 288);
    for [n, k, e] in SOME {
        let config = made(random, [n, k, 0, e, 1]);
        let before = random.bytes(80 * n + 81);
        let mut refused = |board: usize, offset: usize, distance: usize, buffer: usize| {
            let (board, mut after) = (random.bytes(board), before.clone());
            let said = encode_all(&config, &board, offset, distance, &mut after[..buffer]);
            assert_eq!(said.map_err(Refusal::number), Err(6), "{config:?} {offset} {distance} {buffer}");
            assert_eq!(after, before, "{config:?} {offset} {distance} {buffer}");
        };
        let (v, all) = (k * e, 80 * n);
        for board in [0, v - 1, v + 1, 2 * v] {
            refused(board, 16, 80, all);
        }
        for offset in [80 - e + 1, 80, 81, usize::MAX - e, usize::MAX - e + 1, usize::MAX - 15, usize::MAX] {
            refused(v, offset, 80, all);
        }
        for buffer in [0, 1, all - 80, all - 1, all + 1, all + 80] {
            refused(v, 16, 80, buffer);
        }
        for distance in [0, e - 1, 79, 81, usize::MAX / n, usize::MAX / n + 1, usize::MAX - 1, usize::MAX] {
            refused(v, 0, distance, all);
            refused(v, 16, distance, all);
            refused(v, distance, distance, all);
            refused(v, usize::MAX, distance, all);
        }
        refused(v, 0, 0, 0);
        refused(v, 0, e - 1, n * (e - 1));
        refused(v, 1, e, n * e);
    }
}

/// Server s's element of a board that is 0 but for row 1 is s times that row: all bytes, all servers.
#[test]
fn every_byte_times_every_server() {
    let config = Config::new(16, 2, 0, 64, 1, &[]).expect("numbers in range");
    for from in [0, 64, 128, 192] {
        let row: Vec<u8> = (0..64).map(|i| from + i).collect();
        for s in 1..=16 {
            let due: Vec<u8> = row.iter().map(|byte| product(*byte, s)).collect();
            assert_eq!(element_of(&config, &[vec![0; 64], row.clone()].concat(), s), due);
        }
    }
}
