//! What the crate says in words.

use coded_board::{Client, Config, Record, Server, Tag};

/// A refusal says its number and why.
#[test]
fn refusals_in_words() {
    let said =
        |n, k, d, e, c, ranks: &[u8]| Config::new(n, k, d, e, c, ranks).map_err(|no| no.to_string()).err();
    assert_eq!(said(0, 1, 0, 1, 1, &[]).as_deref(), Some("1: the number of servers is not 1 to 16"));
    assert_eq!(said(1, 1, 0, 1, 1, &[4]).as_deref(), Some("21: a client's rank is above 3"));
}

/// The header's table has the numbers that calls give, and no other.
#[test]
fn the_table_of_numbers() {
    let header = include_str!("../../../coded_board.h");
    let table = header.split("// NUMBERS").nth(1).and_then(|after| after.split("// Each call").next());
    let numbers = table
        .unwrap_or("")
        .lines()
        .filter_map(|line| line.strip_prefix("//")?.split_whitespace().next()?.parse().ok());
    let due = [0, 1, 2, 3, 4, 5, 6, 8, 9, 10, 11, 12, 14, 16, 17, 18, 19, 21];
    assert_eq!(numbers.collect::<Vec<u8>>(), due);
}

#[test]
fn what_a_record_says() {
    let mut bytes = [0; 80];
    bytes[..13].copy_from_slice(&[7, 2, 3, 0, 1, 2, 3, 4, 5, 6, 7, 8, 9]);
    let record = Record::from_bytes(&bytes).expect("80 bytes");
    assert_eq!((record.kind(), record.client(), record.server()), (7, 2, 3));
    assert_eq!(record.operation(), 0x0403_0201);
    assert_eq!(record.tag(), Tag { number: 0x0807_0605, client: 9 });
    assert_eq!(record.bytes(), &bytes);
}

/// A host may hand a party to another thread.
#[test]
fn parties_may_move() {
    fn moves<T: Send + Sync + 'static>() {}
    moves::<Server>();
    moves::<Client>();
    moves::<Record>();
}
