// Compares the proved encoder and decoder with the textbook method (tables of logarithms and powers, looked up for each byte), with another
// commit's (`before`) where one is given and, where they are installed, with Jerasure and ISA-L, in one run: rounds of all take turns, and
// the least time of each counts. `proved` encodes all elements by one call, `proved each` and `before` each element by a call of its own. All
// elements are compared with the textbook's, all decoded boards with the board, and the bytes around the elements in records are watched.
#include <immintrin.h>
#include <stdalign.h>
#include <stdint.h>
#include <stdio.h>
#include <stdlib.h>
#include <string.h>
#include <time.h>
#include "../package/coded_board.h"
#ifdef WITH_JERASURE
#include <jerasure.h>
#endif
#ifdef WITH_ISAL
#include <isa-l.h>
#endif

// The archives' calls, with a number other than 0 for a refusal
typedef __typeof__(coded_encode) Encode;
typedef __typeof__(coded_encode_all) EncodeAll;
typedef __typeof__(coded_decode) Decode;
#ifdef WITH_EXPORTS
#include "exports.h"
#else
Encode before_encode;
Decode before_decode;
#endif

enum { N = 16, E = 64, V = N * E };
enum { RECORD = 80, PLACE = 16, GUARD = 64 }; // a record's bytes, where its element begins, the bytes before and behind all records

// ---- the textbook method
static uint8_t exps[510], logs[256];

static void tables(void) {
    unsigned x = 1;
    for (int i = 0; i < 510; i++) {
        exps[i] = x;
        if (i < 255) logs[x] = i;
        x <<= 1;
        if (x & 256) x ^= 0x11D;
    }
}

static inline uint8_t mul(uint8_t a, uint8_t b) { return a && b ? exps[logs[a] + logs[b]] : 0; }
static inline uint8_t inv(uint8_t a) { return exps[255 - logs[a]]; }

static uint8_t power(uint8_t s, int i) {
    uint8_t p = 1;
    while (i--) p = mul(p, s);
    return p;
}

__attribute__((noinline)) static void text_encode(int k, int e, const uint8_t *board, uint8_t s, uint8_t *element) {
    uint8_t p = 1;
    memset(element, 0, e);
    for (int i = 0; i < k; i++, p = mul(p, s))
        for (int j = 0; j < e; j++) element[j] ^= mul(board[i * e + j], p);
}

// Gauss and Jordan on the square of powers
static int text_invert(int k, const uint8_t *servers, uint8_t *out) {
    uint8_t a[N * N];
    for (int r = 0; r < k; r++) {
        uint8_t p = 1;
        for (int i = 0; i < k; i++, p = mul(p, servers[r])) a[r * k + i] = p, out[r * k + i] = r == i;
    }
    for (int c = 0; c < k; c++) {
        int p = c;
        while (p < k && !a[p * k + c]) p++;
        if (p == k) return 0;
        for (int i = 0; p != c && i < k; i++) {
            uint8_t t = a[p * k + i]; a[p * k + i] = a[c * k + i]; a[c * k + i] = t;
            t = out[p * k + i]; out[p * k + i] = out[c * k + i]; out[c * k + i] = t;
        }
        uint8_t f = inv(a[c * k + c]);
        for (int i = 0; i < k; i++) a[c * k + i] = mul(a[c * k + i], f), out[c * k + i] = mul(out[c * k + i], f);
        for (int r = 0; r < k; r++) {
            uint8_t g = a[r * k + c];
            if (r == c || !g) continue;
            for (int i = 0; i < k; i++) a[r * k + i] ^= mul(g, a[c * k + i]), out[r * k + i] ^= mul(g, out[c * k + i]);
        }
    }
    return 1;
}

__attribute__((noinline)) static void text_decode(int k, int e, const uint8_t *servers, const uint8_t *elements, uint8_t *board) {
    uint8_t m[N * N];
    text_invert(k, servers, m);
    memset(board, 0, k * e);
    for (int i = 0; i < k; i++)
        for (int r = 0; r < k; r++)
            for (int j = 0; j < e; j++) board[i * e + j] ^= mul(m[i * k + r], elements[r * e + j]);
}

// ---- a job: encode all N elements of the board; decode from the k highest servers, the inversion counted
typedef struct {
    int n, k, e;
    uint8_t config[CODED_CONFIG];         // with D 0, and a client of rank 0
    uint8_t board[V], all[V], decoded[V]; // all: the textbook's elements of all servers
    uint8_t servers[N], *elements;        // the k highest servers, and theirs among all
    alignas(64) uint8_t records[GUARD + N * RECORD + GUARD];
    // Jerasure and ISA-L read and write rows in slots of 64 bytes, zero past e.
    alignas(64) uint8_t board_slots[N][E], element_slots[N][E], out_slots[N][E];
    uint8_t *board_rows[N], *element_rows[N], *out_rows[N];
    // The powers of all servers, and ISA-L's tables of them, are made once for a configuration.
    int int_powers[N * N];
    uint8_t powers[N * N], once[32 * N * N];
} Job;

typedef void Run(Job *);

// where the element of server s begins in the records
static inline int place(int s) { return GUARD + (s - 1) * RECORD + PLACE; }

static inline void archive_encode_all(Job *t, EncodeAll *f, int offset, int distance) {
    if (f(t->config, CODED_CONFIG, t->board, t->k * t->e, offset, distance, t->records + GUARD, t->n * distance)) abort();
}
static inline void archive_encode_each(Job *t, Encode *f) {
    for (int s = 1; s <= t->n; s++)
        if (f(t->config, CODED_CONFIG, t->board, t->k * t->e, s, t->records + place(s), t->e)) abort();
}
static inline void archive_decode(Job *t, Decode *f) {
    if (f(t->config, CODED_CONFIG, t->servers, t->k, t->elements, t->k * t->e, t->decoded, t->k * t->e)) abort();
}

static void encode_proved(Job *t) { archive_encode_all(t, coded_encode_all, PLACE, RECORD); }
static void encode_proved_each(Job *t) { archive_encode_each(t, coded_encode); }
static void decode_proved(Job *t) { archive_decode(t, coded_decode); }

#ifdef WITH_BEFORE
static void encode_before(Job *t) { archive_encode_each(t, before_encode); }
static void decode_before(Job *t) { archive_decode(t, before_decode); }
#endif

static void encode_textbook(Job *t) {
    for (int s = 1; s <= t->n; s++) text_encode(t->k, t->e, t->board, s, t->records + place(s));
}
static void decode_textbook(Job *t) { text_decode(t->k, t->e, t->servers, t->elements, t->decoded); }

#ifdef WITH_JERASURE
// Jerasure takes whole words, and is fastest over e rounded up to 16 bytes, which it multiplies at a time.
static inline int whole(int e) { return (e + 15) / 16 * 16; }

static void encode_jerasure(Job *t) {
    jerasure_matrix_encode(t->k, t->n, 8, t->int_powers, (char **)t->board_rows, (char **)t->out_rows, whole(t->e));
}
static void decode_jerasure(Job *t) {
    int a[N * N], m[N * N], k = t->k;
    for (int r = 0; r < k; r++) memcpy(a + r * k, t->int_powers + (t->servers[r] - 1) * k, k * sizeof *a);
    if (jerasure_invert_matrix(a, m, k, 8)) abort();
    for (int i = 0; i < k; i++)
        jerasure_matrix_dotprod(k, 8, m + i * k, NULL, k + i, (char **)t->element_rows, (char **)t->out_rows, whole(t->e));
}
#endif

#ifdef WITH_ISAL
// ISA-L is fastest over the whole slot: with AVX-512 it runs plain C below 64 bytes. `once` has its tables, `each` makes them in the job.
static void encode_isal_once(Job *t) { ec_encode_data(E, t->k, t->n, t->once, t->board_rows, t->out_rows); }
static void encode_isal_each(Job *t) {
    uint8_t each[32 * N * N];
    ec_init_tables(t->k, t->n, t->powers, each);
    ec_encode_data(E, t->k, t->n, each, t->board_rows, t->out_rows);
}
static void decode_isal(Job *t) {
    uint8_t a[N * N], m[N * N], each[32 * N * N];
    for (int r = 0; r < t->k; r++) memcpy(a + r * t->k, t->powers + (t->servers[r] - 1) * t->k, t->k);
    if (gf_invert_matrix(a, m, t->k)) abort();
    ec_init_tables(t->k, t->k, m, each);
    ec_encode_data(E, t->k, t->k, each, t->element_rows, t->out_rows);
}
#endif

typedef struct {
    const char *name;
    Run *encode, *decode;
    EncodeAll *all; // an archive's, which encodes all elements
    Encode *one;    // an archive's, which encodes one element
    int slots;      // reads and writes slots
} Method;

enum { PROVED, PROVED_EACH, TEXTBOOK, BEFORE };
static const Method methods[] = {
    {"proved", encode_proved, decode_proved, coded_encode_all, NULL, 0},
    {"proved each", encode_proved_each, NULL, NULL, coded_encode, 0},
    {"textbook", encode_textbook, decode_textbook, NULL, NULL, 0},
#ifdef WITH_BEFORE
    {"before", encode_before, decode_before, NULL, before_encode, 0},
#endif
#ifdef WITH_JERASURE
    {"jerasure", encode_jerasure, decode_jerasure, NULL, NULL, 1},
#endif
#ifdef WITH_ISAL
    {"isa-l once", encode_isal_once, NULL, NULL, NULL, 1},
    {"isa-l each", encode_isal_each, decode_isal, NULL, NULL, 1},
#endif
};
enum { METHODS = sizeof methods / sizeof *methods };

static uint32_t seed = 2463534242u;
static uint8_t draw(void) {
    seed ^= seed << 13, seed ^= seed >> 17, seed ^= seed << 5;
    return seed >> 16;
}

static void configure(Job *t, const int *at) {
    t->n = at[0], t->k = at[1], t->e = at[2];
    memcpy(t->config, (uint8_t[CODED_CONFIG]){at[0], at[1], 0, at[2], 1}, CODED_CONFIG);
    t->elements = t->all + (t->n - t->k) * t->e;
    for (int r = 0; r < t->k; r++) t->servers[r] = t->n - t->k + 1 + r;
    for (int i = 0; i < N; i++)
        t->board_rows[i] = t->board_slots[i], t->element_rows[i] = t->element_slots[i], t->out_rows[i] = t->out_slots[i];
    for (int s = 0; s < t->n; s++)
        for (int i = 0; i < t->k; i++) t->int_powers[s * t->k + i] = t->powers[s * t->k + i] = power(s + 1, i);
#ifdef WITH_ISAL
    ec_init_tables(t->k, t->n, t->powers, t->once);
#endif
}

// A board, its elements and the rows in slots
static void prepare(Job *t, int kind) {
    for (int i = 0; i < t->k * t->e; i++) t->board[i] = kind == 0 ? 0 : kind == 1 ? 255 : draw();
    for (int s = 0; s < t->n; s++) text_encode(t->k, t->e, t->board, s + 1, t->all + s * t->e);
    memset(t->board_slots, 0, V);
    memset(t->element_slots, 0, V);
    for (int i = 0; i < t->k; i++) {
        memcpy(t->board_slots[i], t->board + i * t->e, t->e);
        memcpy(t->element_slots[i], t->elements + i * t->e, t->e);
    }
}

// ---- the comparison of bytes
static long compared, watched;

static void same(const Method *m, const char *what, const uint8_t *got, const uint8_t *want, int len) {
    if (memcmp(got, want, len)) { printf("%s: %s differ\n", m->name, what); exit(1); }
    compared += len;
}

// a byte that differs by position and by board
static uint8_t pattern(int i, int b) { return i * 37 + b; }

static void fill(uint8_t *buffer, int len, int b) {
    for (int i = 0; i < len; i++) buffer[i] = pattern(i, b);
}

// The bytes of a filled buffer, from one place to another, are as they were.
static void unchanged(const Method *m, const uint8_t *buffer, int from, int to, int b) {
    for (int i = from; i < to; i++)
        if (buffer[i] != pattern(i, b)) { printf("%s: byte %d, beside an element, is changed\n", m->name, i); exit(1); }
    watched += to - from;
}

// Filled before, the records have the elements in their places, and all other bytes as they were.
static void compare_filled(const Job *t, const Method *m, int offset, int distance, int b) {
    int end = 0;
    for (int s = 1; s <= t->n; s++) {
        int start = GUARD + (s - 1) * distance + offset;
        unchanged(m, t->records, end, start, b);
        same(m, "elements", t->records + start, t->all + (s - 1) * t->e, t->e);
        end = start + t->e;
    }
    unchanged(m, t->records, end, sizeof t->records, b);
}

static void compare_records(Job *t, const Method *m, int b) {
    fill(t->records, sizeof t->records, b);
    m->encode(t);
    compare_filled(t, m, PLACE, RECORD, b);
}

// all elements, at every distance from e to a record's; over the boards the offset goes through all that fit
static void compare_distances(Job *t, const Method *m, int b) {
    for (int distance = t->e; distance <= RECORD; distance++) {
        int offset = (distance + b) % (distance - t->e + 1);
        fill(t->records, sizeof t->records, b);
        archive_encode_all(t, m->all, offset, distance);
        compare_filled(t, m, offset, distance, b);
    }
}

// one element, at every start at which it fits a buffer of two records
static void compare_starts(Job *t, const Method *m, int b) {
    alignas(64) uint8_t buffer[2 * RECORD];
    for (int start = 0; start + t->e <= (int)sizeof buffer; start++) {
        int s = 1 + (start + b) % t->n;
        fill(buffer, sizeof buffer, b);
        if (m->one(t->config, CODED_CONFIG, t->board, t->k * t->e, s, buffer + start, t->e)) abort();
        unchanged(m, buffer, 0, start, b);
        same(m, "elements", buffer + start, t->all + (s - 1) * t->e, t->e);
        unchanged(m, buffer, start + t->e, sizeof buffer, b);
    }
}

static void compare_slots(Job *t, const Method *m, Run *f, const char *what, const uint8_t *want, int rows) {
    memset(t->out_slots, 170, V);
    f(t);
    for (int i = 0; i < rows; i++) same(m, what, t->out_slots[i], want + i * t->e, t->e);
}

static void compare_decoded(Job *t, const Method *m) {
    memset(t->decoded, 170, V);
    m->decode(t);
    same(m, "boards", t->decoded, t->board, t->k * t->e);
}

static void compare(Job *t) {
    for (int b = 0; b < 1000; b++) {
        prepare(t, b);
        for (const Method *m = methods; m < methods + METHODS; m++) {
            if (m->slots) {
                compare_slots(t, m, m->encode, "elements", t->all, t->n);
                if (m->decode) compare_slots(t, m, m->decode, "boards", t->board, t->k);
                continue;
            }
            if (m != methods + TEXTBOOK) compare_records(t, m, b); // its elements are those that others are compared with
            if (m->decode) compare_decoded(t, m);
            if (m->all) compare_distances(t, m, b);
            if (m->one) compare_starts(t, m, b);
        }
    }
}

// ---- the times
static double now(void) {
    struct timespec t;
    clock_gettime(CLOCK_MONOTONIC, &t);
    return t.tv_sec * 1e9 + t.tv_nsec;
}

// ISA-L leaves the upper halves of the vector registers in use, which slows other methods; they are cleared before each.
static void clear_halves(void) {
#ifdef __AVX__
    _mm256_zeroupper();
#endif
}

static Run *run_of(int m, int decode) { return decode ? methods[m].decode : methods[m].encode; }

static void time_all(Job *t, int decode, double *least) {
    prepare(t, 2);
    for (int m = 0; m < METHODS; m++) least[m] = 1e18;
    for (int round = 0; round < 200; round++)
        for (int m = 0; m < METHODS; m++) {
            Run *f = run_of(m, decode);
            if (!f) continue;
            clear_halves();
            double start = now();
            for (int i = 0; i < 20; i++) f(t);
            double took = (now() - start) / 20;
            if (took < least[m]) least[m] = took;
        }
}

static void print_head(void) {
    printf("%-14s%-8s", "(N, k, E)", "job, ns");
    for (int m = 0; m < METHODS; m++) printf("%12s", methods[m].name);
#ifdef WITH_BEFORE
    printf("%18s", "proved / before");
#endif
    printf("%20s\n", "proved / textbook");
}

static void print_line(const Job *t, int decode, const double *least) {
    char name[32];
    snprintf(name, sizeof name, "(%d, %d, %d)", t->n, t->k, t->e);
    printf("%-14s%-8s", name, decode ? "decode" : "encode");
    for (int m = 0; m < METHODS; m++)
        if (run_of(m, decode)) printf("%12.0f", least[m]);
        else printf("%12s", "-");
#ifdef WITH_BEFORE
    printf("%18.2f", least[PROVED] / least[BEFORE]);
#endif
    printf("%20.2f\n", least[PROVED] / least[TEXTBOOK]);
}

int main(void) {
    static const int at[][3] = {{16, 16, 64}, {16, 12, 64}, {16, 8, 64}, {10, 10, 64}, {8, 8, 64},
                                {16, 16, 16}, {16, 7, 16},  {5, 3, 64},  {6, 3, 16},   {3, 1, 1}};
    static Job t;
    tables();
    print_head();
    for (unsigned c = 0; c < sizeof at / sizeof *at; c++) {
        configure(&t, at[c]);
        compare(&t);
        for (int decode = 0; decode < 2; decode++) {
            double least[METHODS];
            time_all(&t, decode, least);
            print_line(&t, decode, least);
        }
    }
    printf("%ld bytes compared, all equal; %ld bytes beside elements watched, none changed\n", compared, watched);
    return 0;
}
