// The coded board store's calls for C: the archive is target/staticlib/libhost.a, made by `package/archive`.
//
// A board is one block of bytes, kept as coded elements on N servers and used by C clients, over a network that
// reorders, loses and repeats messages. These calls are a server's step, a client's step and the code. A call takes
// what it is handed and gives back a number; it keeps nothing of its own, takes no memory, and does no input or
// output. Sockets, disks and timers are the host's. docs/PROTOCOL.md says the protocol.
//
// WHAT IS PROMISED
//
// If the hosts keep the duties below, the history of all clients' calls has an order that fits: each read and write
// that ended stands in it once, a write that has not ended at most once, one that ended spent not at all; one that
// ended before another began stands first; and every read shows the length and the bytes of the last write before it,
// or the starting board (proved: crates/host/proofs/Atomic.antt). Calls on several machines stand in the history by
// their instants, each between its beginning and its return. That an operation ends is not promised: it waits while
// fewer than (N + k) / 2 servers, rounded up, answer.
//
// THE HOST'S DUTIES
//
// 1. Keep first, send then: all that a call wrote, state and buffers, is kept together, whole or not at all, before
//    any of the call's records is let out and before its outcome is told to anyone. A call of which nothing was kept
//    has not happened: nothing of it is let out or told.
// 2. One process at a time has a client's number, and one a server's; a later one goes on from what was kept last, and
//    from no older copy. A client or a server whose bytes are lost is gone for good: its number is not made fresh
//    again.
// 3. Hand in no record that no call has sent: the channel authenticates. A call has sent records only if it answers 0:
//    a server's step its answer, a begin N, a client's step as many as the outcome says. A record may come late, often
//    or never, and a host may send one again whenever it likes. Records of kinds 1, 3, 5 and 7 go to the server at
//    offset 2, all others to the client at offset 1.
// 4. All parties use one configuration and one starting board, for good.
// 5. What a call is lent to write overlaps nothing else that it is handed. No pointer is null, even with length 0.
//
// BUFFERS
//
// Every buffer is the caller's, before and after the call. A parameter NAME that is a buffer is followed by
// NAME_length, its length in bytes; a length other than the one stated here gets 6. A buffer that is not const is
// lent to write. Every call answers 0, or the number of the first question that is answered no, in the order stated
// at the call. On a number other than 0, every buffer and every lent size_t is as it was.
//
// With V = k * E, the lengths are:
//
//   config       CODED_CONFIG (21)
//   state        CODED_SERVER_STATE (88) of a server, CODED_CLIENT_STATE (56) of a client
//   board, kept  V
//   element      E
//   store        (D + 1) * E
//   elements     N * E: the element received from server s stands at (s - 1) * E. In coded_decode E for each server
//   message      CODED_RECORD (80), and so the answer
//   sends        CODED_RECORD * N: a record for each server, 1 to N, in order
//   outcome      CODED_OUTCOME (12)
//   buffer       N * distance: a record of `distance` bytes for each server, 1 to N, in order
//
// A host keeps a server's state and store; a client's state, kept and elements. They go from call to call as the last
// one left them; kept and elements may hold anything at first. sends, answer, outcome, and the board of
// coded_client_step are lent for one call, and what they hold before it is not looked at. To ask whether kept bytes
// pass question 6: coded_server_element answers 0, or 6; coded_client_step with a message of zeros answers 12, or 6.
//
// LAYOUTS, by offset; numbers are little-endian
//
// Configuration
//   0         N, 1 to 16 servers
//   1         k, 1 to N: so many elements give a board back
//   2         D, 0 to 7: a server keeps the elements of at most D + 1 versions
//   3         E, 1 to 64 bytes in an element
//   4         C, 1 to 16 clients
//   5 to 20   the ranks of clients 1 to 16, 0 to 3; those past C are not looked at. Of two writes with the same number,
//             that of the client of higher rank is the later one
//
// Server's state
//   0         its number
//   1         how many tags are stored
//   2         whether there is a floor, 0 or 1
//   3 to 7    zero
//   8 to 15   the highest finalised tag
//   16 to 23  the floor
//   24 to 87  eight rows: the stored tags, in the order of the store; rows past them are zero
//   A tag takes 8 bytes: number (4), client (1), length of its board (2, zero but for stored tags), zero.
//
// Client's state; what its phase has no use for is zero
//   0         its number
//   1         phase: 0 idle, 1 asking, 2 pre-writing, 3 finalising a write, 4 finalising a read, 5 down
//   2         whether it asks to write, 0 or 1
//   3         zero
//   4 to 7    operation number
//   8 to 12   tag: number (4), client (1)
//   13 to 14  length of the kept board, while it asks to write
//   15        zero
//   16 to 19  the servers counted, server s as bit s
//   20 to 23  the servers that sent an element, likewise
//   24 to 55  the lengths sent with these elements, 2 bytes for each of 16 servers
//   No call gives phase 5.
//
// Outcome; what does not apply is zero
//   0         CODED_OPEN, CODED_WRITTEN, CODED_SPENT or CODED_READ
//   1         how many records are in sends, 0 or N
//   2 to 3    length of the board read
//   4 to 8    tag written or read: number (4), client (1)
//   9 to 11   zero
//
// Record
//   0         kind: 1 query, 3 pre-write, 5 write finalise, 7 read finalise; 2, 4, 6, 8 their answers, 9 cleared
//   1         client
//   2         server
//   3         whether it has an element, 0 or 1
//   4 to 7    operation number
//   8 to 12   tag: number (4), client (1)
//   13 to 14  length of the element's board
//   15        zero
//   16 to 79  element, zeros past E
//
// NUMBERS
//
//    0  accepted
//    1  N is not 1 to 16
//    2  k is not 1 to N
//    3  D is not 0 to 7
//    4  E is not 1 to 64
//    5  C is not 1 to 16
//    6  a buffer has another length, an element goes past the record that it is put into, or the state's bytes are not
//       those of any state of this configuration
//    8  there is no server, or no client, of this number
//    9  the client is down
//   10  the client has an operation open
//   11  the client's operation number is 4294967295, the last
//   12  the record is ill formed
//   14  the client does not await this answer: it is late, repeated, or of another phase
//   16  the record is not for this party, or of a kind that it does not receive
//   17  the server numbers do not rise strictly within 1 to N
//   18  fewer than k elements to decode; no server of this number to encode for
//   19  the write's length is above V
//   21  the rank of a client, 1 to C, is above 3
//
// Each call asks its questions in this order: 6 of the configuration's length; 1, 2, 3, 4, 5, 21 of its bytes; 6 of
// all other lengths, of offset and distance, and of the state; then those named at the call. The others (7, 13, 15, 20,
// 22 to 28) no call here gives.
//
// EXAMPLE
//
// Three servers and a client in one program. A host also keeps bytes, and sends records where this one copies them.
//
//     #include "coded_board.h"
//     #include <stdlib.h>
//     #include <string.h>
//
//     // N 3, k 2, D 1, E 4, C 1; the lengths are those that coded_lengths gives.
//     enum { N = 3, E = 4, BOARD = 8, STORE = 8, ELEMENTS = 12, SENDS = CODED_RECORD * N };
//     static const uint8_t config[CODED_CONFIG] = {N, 2, 1, E, 1};
//     static uint8_t servers[N][CODED_SERVER_STATE], stores[N][STORE];
//     static uint8_t client[CODED_CLIENT_STATE], kept[BOARD], elements[ELEMENTS];
//     static uint8_t sends[SENDS], board[BOARD], outcome[CODED_OUTCOME];
//
//     static void must(int yes) {
//         if (!yes) abort();
//     }
//
//     // Takes the sends to all servers, and their answers to the client, till the operation has ended.
//     static void carry(void) {
//         uint8_t sent[SENDS], answer[CODED_RECORD];
//         outcome[0] = CODED_OPEN;
//         while (outcome[0] == CODED_OPEN) {
//             memcpy(sent, sends, SENDS);
//             for (int s = 0; s < N; s++) {
//                 must(coded_server_step(config, CODED_CONFIG, servers[s], CODED_SERVER_STATE, sent + CODED_RECORD * s,
//                                        CODED_RECORD, stores[s], STORE, answer, CODED_RECORD) == 0);
//                 uint8_t no = coded_client_step(config, CODED_CONFIG, client, CODED_CLIENT_STATE, answer,
//                                                CODED_RECORD, kept, BOARD, elements, ELEMENTS, sends, SENDS, board,
//                                                BOARD, outcome, CODED_OUTCOME);
//                 must(no == 0 || no == 14);    // 14: the phase was over before this answer came
//             }
//         }
//     }
//
//     int main(void) {
//         const uint8_t start[BOARD] = {0}, room[BOARD] = "Room 4";
//         uint8_t element[E];
//         for (uint8_t s = 1; s <= N; s++) {
//             must(coded_encode(config, CODED_CONFIG, start, BOARD, s, element, E) == 0);
//             must(coded_server_fresh(config, CODED_CONFIG, s, element, E, servers[s - 1], CODED_SERVER_STATE,
//                                     stores[s - 1], STORE) == 0);
//         }
//         must(coded_client_fresh(config, CODED_CONFIG, 1, client, CODED_CLIENT_STATE) == 0);
//         must(coded_client_write(config, CODED_CONFIG, client, CODED_CLIENT_STATE, 6, room, BOARD, kept, BOARD, sends,
//                                 SENDS) == 0);
//         carry();
//         must(outcome[0] == CODED_WRITTEN);
//         must(coded_client_read(config, CODED_CONFIG, client, CODED_CLIENT_STATE, sends, SENDS) == 0);
//         carry();
//         must(outcome[0] == CODED_READ && outcome[2] == 6 && memcmp(board, room, BOARD) == 0);
//         return 0;
//     }

#ifndef CODED_BOARD_H
#define CODED_BOARD_H

#include <stddef.h>
#include <stdint.h>

#ifdef __cplusplus
extern "C" {
#endif

#define CODED_CONFIG 21
#define CODED_SERVER_STATE 88
#define CODED_CLIENT_STATE 56
#define CODED_RECORD 80
#define CODED_OUTCOME 12

// Offset 0 of an outcome: the operation is open, is written, has ended spent with nothing done, has read a board.
#define CODED_OPEN 0
#define CODED_WRITTEN 1
#define CODED_SPENT 2
#define CODED_READ 3

// The lengths of a configuration's buffers: board V, store (D + 1) * E, elements N * E, sends CODED_RECORD * N.
// Numbers: 6, 1, 2, 3, 4, 5, 21.
uint8_t coded_lengths(
    const uint8_t *config, size_t config_length,
    size_t *board,
    size_t *store,
    size_t *elements,
    size_t *sends);

// A fresh server of number s: its state and its store, which holds its element of the starting board, the one that
// coded_encode gives for s. Once for each server, before anything else.
// Numbers: 6, 1, 2, 3, 4, 5, 21, 6, 8.
uint8_t coded_server_fresh(
    const uint8_t *config, size_t config_length,
    uint8_t s,
    const uint8_t *element, size_t element_length,
    uint8_t *state, size_t state_length,
    uint8_t *store, size_t store_length);

// A server takes a client's message. Its state and its store are changed in place; the answer is the one record to send
// back to the message's client.
// Numbers: 6, 1, 2, 3, 4, 5, 21, 6, 12, 16.
uint8_t coded_server_step(
    const uint8_t *config, size_t config_length,
    uint8_t *state, size_t state_length,
    const uint8_t *message, size_t message_length,
    uint8_t *store, size_t store_length,
    uint8_t *answer, size_t answer_length);

// Where in its store a server has the element of the tag (number, client): E bytes from place on. If the tag is not
// stored, place is the store's length.
// Numbers: 6, 1, 2, 3, 4, 5, 21, 6.
uint8_t coded_server_element(
    const uint8_t *config, size_t config_length,
    const uint8_t *state, size_t state_length,
    uint32_t number,
    uint8_t client,
    const uint8_t *store, size_t store_length,
    size_t *place);

// A fresh client of number c: its state. Once for each client, before anything else.
// Numbers: 6, 1, 2, 3, 4, 5, 21, 6, 8.
uint8_t coded_client_fresh(
    const uint8_t *config, size_t config_length,
    uint8_t c,
    uint8_t *state, size_t state_length);

// A client begins to write the first `length` bytes of the board. They go into kept, zeros after them, and a record for
// each server into sends.
// Numbers: 6, 1, 2, 3, 4, 5, 21, 6, 19, 9, 10, 11.
uint8_t coded_client_write(
    const uint8_t *config, size_t config_length,
    uint8_t *state, size_t state_length,
    uint16_t length,
    const uint8_t *board, size_t board_length,
    uint8_t *kept, size_t kept_length,
    uint8_t *sends, size_t sends_length);

// A client begins to read. A record for each server goes into sends.
// Numbers: 6, 1, 2, 3, 4, 5, 21, 6, 9, 10, 11.
uint8_t coded_client_read(
    const uint8_t *config, size_t config_length,
    uint8_t *state, size_t state_length,
    uint8_t *sends, size_t sends_length);

// A client takes a server's message. Its state and its elements are changed in place. outcome says whether there are
// records to send, in sends, and whether the operation has ended: with a read, its bytes are in board, zeros after its
// length. Where nothing is sent, sends is as it was; where nothing is read, board is.
// Numbers: 6, 1, 2, 3, 4, 5, 21, 6, 12, 16, 14.
uint8_t coded_client_step(
    const uint8_t *config, size_t config_length,
    uint8_t *state, size_t state_length,
    const uint8_t *message, size_t message_length,
    const uint8_t *kept, size_t kept_length,
    uint8_t *elements, size_t elements_length,
    uint8_t *sends, size_t sends_length,
    uint8_t *board, size_t board_length,
    uint8_t *outcome, size_t outcome_length);

// Server s's element of a board.
// Numbers: 6, 1, 2, 3, 4, 5, 21, 6, 18.
uint8_t coded_encode(
    const uint8_t *config, size_t config_length,
    const uint8_t *board, size_t board_length,
    uint8_t s,
    uint8_t *element, size_t element_length);

// All servers' elements of a board, each in its record of buffer: that of server s in E bytes from
// offset + (s - 1) * distance on. All other bytes of buffer are as they were. offset + E is at most distance, or the
// number is 6. Offset 16 and distance CODED_RECORD are for records as sends has them; offset 0 and distance E join the
// elements.
// Numbers: 6, 1, 2, 3, 4, 5, 21, 6.
uint8_t coded_encode_all(
    const uint8_t *config, size_t config_length,
    const uint8_t *board, size_t board_length,
    size_t offset,
    size_t distance,
    uint8_t *buffer, size_t buffer_length);

// The board of some servers' elements. servers is their numbers, a byte each, rising; elements their elements, E bytes
// each, joined in the same order. The first k are used.
// Numbers: 6, 1, 2, 3, 4, 5, 21, 6, 17, 18.
uint8_t coded_decode(
    const uint8_t *config, size_t config_length,
    const uint8_t *servers, size_t servers_length,
    const uint8_t *elements, size_t elements_length,
    uint8_t *board, size_t board_length);

#ifdef __cplusplus
}
#endif

#endif
