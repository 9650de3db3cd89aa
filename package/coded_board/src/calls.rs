//! The archive's calls, as they are: bytes in and out, and a number, 0 or that of the first question answered
//! no. On a number other than 0 every buffer and every lent number is as it was. The rest of this crate is
//! built on them; a host that keeps its own buffers may use them alone. `coded_board.h` says each call's
//! lengths and numbers.
//!
//! This is the one module with `unsafe` in it. Each call is a pointer and a length for each slice, which Rust
//! vouches for: they are valid, and what is lent to write overlaps nothing else.

#![allow(unsafe_code)]

mod archive {
    extern "C" {
        pub fn coded_lengths(
            config: *const u8,
            config_length: usize,
            board: *mut usize,
            store: *mut usize,
            elements: *mut usize,
            sends: *mut usize,
        ) -> u8;
        pub fn coded_server_fresh(
            config: *const u8,
            config_length: usize,
            s: u8,
            element: *const u8,
            element_length: usize,
            state: *mut u8,
            state_length: usize,
            store: *mut u8,
            store_length: usize,
        ) -> u8;
        pub fn coded_server_step(
            config: *const u8,
            config_length: usize,
            state: *mut u8,
            state_length: usize,
            message: *const u8,
            message_length: usize,
            store: *mut u8,
            store_length: usize,
            answer: *mut u8,
            answer_length: usize,
        ) -> u8;
        pub fn coded_server_element(
            config: *const u8,
            config_length: usize,
            state: *const u8,
            state_length: usize,
            number: u32,
            client: u8,
            store: *const u8,
            store_length: usize,
            place: *mut usize,
        ) -> u8;
        pub fn coded_client_fresh(
            config: *const u8,
            config_length: usize,
            c: u8,
            state: *mut u8,
            state_length: usize,
        ) -> u8;
        pub fn coded_client_write(
            config: *const u8,
            config_length: usize,
            state: *mut u8,
            state_length: usize,
            length: u16,
            board: *const u8,
            board_length: usize,
            kept: *mut u8,
            kept_length: usize,
            sends: *mut u8,
            sends_length: usize,
        ) -> u8;
        pub fn coded_client_read(
            config: *const u8,
            config_length: usize,
            state: *mut u8,
            state_length: usize,
            sends: *mut u8,
            sends_length: usize,
        ) -> u8;
        pub fn coded_client_step(
            config: *const u8,
            config_length: usize,
            state: *mut u8,
            state_length: usize,
            message: *const u8,
            message_length: usize,
            kept: *const u8,
            kept_length: usize,
            elements: *mut u8,
            elements_length: usize,
            sends: *mut u8,
            sends_length: usize,
            board: *mut u8,
            board_length: usize,
            outcome: *mut u8,
            outcome_length: usize,
        ) -> u8;
        pub fn coded_encode(
            config: *const u8,
            config_length: usize,
            board: *const u8,
            board_length: usize,
            s: u8,
            element: *mut u8,
            element_length: usize,
        ) -> u8;
        pub fn coded_encode_all(
            config: *const u8,
            config_length: usize,
            board: *const u8,
            board_length: usize,
            offset: usize,
            distance: usize,
            buffer: *mut u8,
            buffer_length: usize,
        ) -> u8;
        pub fn coded_decode(
            config: *const u8,
            config_length: usize,
            servers: *const u8,
            servers_length: usize,
            elements: *const u8,
            elements_length: usize,
            board: *mut u8,
            board_length: usize,
        ) -> u8;
    }
}

/// The lengths of a configuration's buffers: a board, a server's store, the elements that a client receives,
/// its sends.
pub fn lengths(
    config: &[u8],
    board: &mut usize,
    store: &mut usize,
    elements: &mut usize,
    sends: &mut usize,
) -> u8 {
    // Safe: a valid slice, and four numbers lent to this call alone.
    unsafe { archive::coded_lengths(config.as_ptr(), config.len(), board, store, elements, sends) }
}

/// A fresh server, with its element of the starting board.
pub fn server_fresh(config: &[u8], s: u8, element: &[u8], state: &mut [u8], store: &mut [u8]) -> u8 {
    // Safe: valid slices, those to write lent to this call alone.
    unsafe {
        archive::coded_server_fresh(
            config.as_ptr(),
            config.len(),
            s,
            element.as_ptr(),
            element.len(),
            state.as_mut_ptr(),
            state.len(),
            store.as_mut_ptr(),
            store.len(),
        )
    }
}

/// A server's step on a message; what it sends back goes into the answer.
pub fn server_step(
    config: &[u8],
    state: &mut [u8],
    message: &[u8],
    store: &mut [u8],
    answer: &mut [u8],
) -> u8 {
    // Safe: valid slices, those to write lent to this call alone.
    unsafe {
        archive::coded_server_step(
            config.as_ptr(),
            config.len(),
            state.as_mut_ptr(),
            state.len(),
            message.as_ptr(),
            message.len(),
            store.as_mut_ptr(),
            store.len(),
            answer.as_mut_ptr(),
            answer.len(),
        )
    }
}

/// Where in its store a server has the element of a tag; the store's length if it has none.
pub fn server_element(
    config: &[u8],
    state: &[u8],
    number: u32,
    client: u8,
    store: &[u8],
    place: &mut usize,
) -> u8 {
    // Safe: valid slices, and a number lent to this call alone.
    unsafe {
        archive::coded_server_element(
            config.as_ptr(),
            config.len(),
            state.as_ptr(),
            state.len(),
            number,
            client,
            store.as_ptr(),
            store.len(),
            place,
        )
    }
}

/// A fresh client.
pub fn client_fresh(config: &[u8], c: u8, state: &mut [u8]) -> u8 {
    // Safe: valid slices, that to write lent to this call alone.
    unsafe { archive::coded_client_fresh(config.as_ptr(), config.len(), c, state.as_mut_ptr(), state.len()) }
}

/// A client begins to write a board.
pub fn client_write(
    config: &[u8],
    state: &mut [u8],
    length: u16,
    board: &[u8],
    kept: &mut [u8],
    sends: &mut [u8],
) -> u8 {
    // Safe: valid slices, those to write lent to this call alone.
    unsafe {
        archive::coded_client_write(
            config.as_ptr(),
            config.len(),
            state.as_mut_ptr(),
            state.len(),
            length,
            board.as_ptr(),
            board.len(),
            kept.as_mut_ptr(),
            kept.len(),
            sends.as_mut_ptr(),
            sends.len(),
        )
    }
}

/// A client begins to read.
pub fn client_read(config: &[u8], state: &mut [u8], sends: &mut [u8]) -> u8 {
    // Safe: valid slices, those to write lent to this call alone.
    unsafe {
        archive::coded_client_read(
            config.as_ptr(),
            config.len(),
            state.as_mut_ptr(),
            state.len(),
            sends.as_mut_ptr(),
            sends.len(),
        )
    }
}

/// A client's step on a message.
#[allow(clippy::too_many_arguments)]
pub fn client_step(
    config: &[u8],
    state: &mut [u8],
    message: &[u8],
    kept: &[u8],
    elements: &mut [u8],
    sends: &mut [u8],
    board: &mut [u8],
    outcome: &mut [u8],
) -> u8 {
    // Safe: valid slices, those to write lent to this call alone.
    unsafe {
        archive::coded_client_step(
            config.as_ptr(),
            config.len(),
            state.as_mut_ptr(),
            state.len(),
            message.as_ptr(),
            message.len(),
            kept.as_ptr(),
            kept.len(),
            elements.as_mut_ptr(),
            elements.len(),
            sends.as_mut_ptr(),
            sends.len(),
            board.as_mut_ptr(),
            board.len(),
            outcome.as_mut_ptr(),
            outcome.len(),
        )
    }
}

/// The element of server s.
pub fn encode(config: &[u8], board: &[u8], s: u8, element: &mut [u8]) -> u8 {
    // Safe: valid slices, that to write lent to this call alone.
    unsafe {
        archive::coded_encode(
            config.as_ptr(),
            config.len(),
            board.as_ptr(),
            board.len(),
            s,
            element.as_mut_ptr(),
            element.len(),
        )
    }
}

/// The elements of all servers, each in its record of `distance` bytes of the buffer, from `offset` on.
pub fn encode_all(config: &[u8], board: &[u8], offset: usize, distance: usize, buffer: &mut [u8]) -> u8 {
    // Safe: valid slices, that to write lent to this call alone.
    unsafe {
        archive::coded_encode_all(
            config.as_ptr(),
            config.len(),
            board.as_ptr(),
            board.len(),
            offset,
            distance,
            buffer.as_mut_ptr(),
            buffer.len(),
        )
    }
}

/// The board of some servers' elements.
pub fn decode(config: &[u8], servers: &[u8], elements: &[u8], board: &mut [u8]) -> u8 {
    // Safe: valid slices, that to write lent to this call alone.
    unsafe {
        archive::coded_decode(
            config.as_ptr(),
            config.len(),
            servers.as_ptr(),
            servers.len(),
            elements.as_ptr(),
            elements.len(),
            board.as_mut_ptr(),
            board.len(),
        )
    }
}
