/*
 * fuzz: the library from C, driven by libFuzzer, with the bus in ordinary Rust as
 * its partner. An input is a list of steps; each step is one of
 *   - a frame built of the numbers that a run knows: peers, users, IDs that were
 *     chosen or answered, and now and then one of none of these
 *   - a frame of any bytes
 *   - a recovery from a front of the journal, or from a damaged one
 *   - an answer buffer that is too short, a bus buffer of another length
 *   - a damaged copy of the bus, to which a frame is given
 * On a bus of a run number, length, answer and journal must be the partner's, and
 * nothing behind the answer and the used length may change. Over damaged contents
 * a call must return, write nothing outside its buffers, and give 5 exactly where
 * a number is out of the ranges of docs/BUFFERS.md. Guard bytes stand around every
 * buffer. tests/fuzz builds it.
 */
#include "eikelzwier.h"

#include <stdio.h>
#include <stdlib.h>
#include <string.h>

void partner_fresh(void);
EzReport partner_command(const uint8_t *frame, size_t n, uint8_t *answer, size_t m, uint8_t *journal, size_t len, size_t used);
int64_t partner_recover(const uint8_t *kept, size_t n);

#define COMMA() ,
#define NUMBER(with, name, element, length) table_##name
#define SHAPE(with, name, element, length) {length, sizeof(element)}

enum { GUARD = 64, JOURNAL = 4096, KNOWN = 16 };
enum { EZ_BUFFERS(NUMBER, COMMA, ), TABLES };

static const struct {
    size_t len, width;
} shape[TABLES] = {EZ_BUFFERS(SHAPE, COMMA, )};

/* A bus between guards: table i of bus k is at block[k][i] + GUARD. */
enum { RUN, COPY, BUSES };
static uint8_t *block[BUSES][TABLES];
static uint8_t journal[JOURNAL], other_journal[JOURNAL];
static size_t used;
static uint64_t known[KNOWN];
static size_t known_count;

/* The input, byte by byte; zeros behind its end. */
static const uint8_t *input;
static size_t left;

static uint8_t take(void)
{
    if (left == 0)
        return 0;
    left--;
    return *input++;
}

static void fail(const char *what)
{
    fprintf(stderr, "fuzz: %s\n", what);
    abort();
}

static void *at(int bus, int table)
{
    return block[bus][table] + GUARD;
}

static size_t bytes(int table)
{
    return shape[table].len * shape[table].width;
}

static void guards(int bus)
{
    static uint8_t guard[GUARD];
    memset(guard, 0xa5, GUARD);
    for (int i = 0; i < TABLES; i++)
        if (memcmp(block[bus][i], guard, GUARD) != 0 || memcmp(block[bus][i] + GUARD + bytes(i), guard, GUARD) != 0)
            fail("a write outside a bus buffer");
}

static void make_buses(void)
{
    for (int i = 0; i < BUSES * TABLES; i++) {
        uint8_t **b = &block[i / TABLES][i % TABLES];
        *b = malloc(bytes(i % TABLES) + 2 * GUARD);
        if (*b == NULL)
            exit(1);
        memset(*b, 0xa5, bytes(i % TABLES) + 2 * GUARD);
    }
}

/* The tables of a bus as arguments; table `odd` has `by` elements less. */
#define LENT_TABLE(bus, name, element, length) \
    (element *)at(bus, table_##name), length - (odd == table_##name ? by : 0)
#define LENT(bus) EZ_BUFFERS(LENT_TABLE, COMMA, bus)

static void note(uint64_t id)
{
    known[known_count++ % KNOWN] = id;
}

static size_t put(uint8_t *frame, size_t n, uint64_t x, size_t width)
{
    for (size_t i = 0; i < width; i++)
        frame[n + i] = (uint8_t)(x >> 8 * (width - 1 - i));
    return n + width;
}

static uint64_t some_id(void)
{
    uint8_t c = take();
    return c < 200 ? known[c % KNOWN] : c < 250 ? 4 * (uint64_t)(c - 200) + (c % 2 ? 3 : 0) : ~(uint64_t)(c - 250);
}

static uint8_t some_peer(void)
{
    uint8_t c = take();
    return c < 240 ? c % 4 : c % 16;
}

/* The lists and the payload of a send, or of a seed; sizes at and behind the limits too. */
static size_t send_frame(uint8_t *frame)
{
    uint8_t c = take(), nd = c % 4 == 3 ? take() % 10 : c % 4, nh = c / 4 % 4 == 3 ? take() % 10 : c / 16 % 3;
    size_t nb = c > 230 ? 8 * (size_t)take() % 520 : take() % 8, n = 2;
    n = put(frame, n, nd, 1);
    n = put(frame, n, nh, 1);
    n = put(frame, n, nb, 2);
    for (int i = 0; i < nd + nh; i++)
        n = put(frame, n, some_id(), 8);
    memset(frame + n, take(), nb);
    return n + nb;
}

/* A frame of the numbers that the run knows. */
static size_t built_frame(uint8_t *frame)
{
    uint8_t op = 1 + take() % 13;
    size_t n = put(frame, put(frame, 0, op, 1), some_peer(), 1);
    if (op == 1 || op == 9)
        return put(frame, n, take() % 5, 1);
    if (op == 3) {
        note(4 * (uint64_t)(take() % 20));
        return put(frame, n, known[(known_count - 1) % KNOWN] + (take() > 250), 8);
    }
    if (op == 4 || op == 5 || op == 10)
        return put(frame, n, some_id(), 8);
    if (op == 6)
        return put(frame, put(frame, n, some_id(), 8), some_peer(), 1);
    if (op == 8 || op == 12)
        return put(frame, n, take() > 60 ? 576 : take(), 2);
    return op == 7 ? send_frame(frame) : n;
}

/* A frame of any bytes, of up to 250 or about the longest length. A script can be
 * written as such frames, which is how tests/fuzz makes its first inputs. */
static size_t any_frame(uint8_t *frame)
{
    size_t n = take();
    n = n > 250 ? 640 + n % 10 : n;
    for (size_t i = 0; i < n; i++)
        frame[i] = take();
    return n;
}

/* IDs that an answer shows. */
static void learn(const uint8_t *a, size_t n)
{
    size_t from = n == 9 ? 1 : n > 15 ? 15 : n;
    for (; from + 8 <= n; from += 8) {
        uint64_t id = 0;
        for (int i = 0; i < 8; i++)
            id = id << 8 | a[from + (size_t)i];
        note(id);
    }
}

/* One command to both. */
static void command(const uint8_t *frame, size_t n, size_t answer_len)
{
    const int odd = -1;
    const size_t by = 0;
    static uint8_t ours[EZ_ANSWER_LEN + GUARD], theirs[EZ_ANSWER_LEN + GUARD];
    memset(ours, 0xee, sizeof ours);
    memset(theirs, 0xee, sizeof theirs);
    EzReport r = eikelzwier_command_with_journal(LENT(RUN), frame, n, ours, answer_len, journal, JOURNAL, used);
    EzReport p = partner_command(frame, n, theirs, answer_len, other_journal, JOURNAL, used);
    if (r.number != p.number || r.len != p.len || r.used != p.used)
        fail("number, length or used length differ");
    if (memcmp(ours, theirs, sizeof ours) != 0)
        fail("the answers differ");
    if (memcmp(journal, other_journal, JOURNAL) != 0)
        fail("the journals differ");
    used = r.used;
    if (r.number == 0)
        learn(ours, r.len);
}

/* The bus again from a front of the journal; or a damaged one, which may stop. */
static void recovery(void)
{
    const int odd = -1;
    const size_t by = 0, cut = used > 0 ? (size_t)(take() * 16 + take()) % (used + 1) : 0;
    const uint8_t damage = take();
    if (damage < 32 && cut > 0)
        journal[(size_t)(damage * 8) % cut] ^= (uint8_t)(1 + take() % 64);
    memcpy(other_journal, journal, JOURNAL);
    EzRecovery r = eikelzwier_recover(LENT(RUN), journal, cut);
    int64_t lines = partner_recover(journal, cut);
    if (lines != (r.number == 0 ? (int64_t)r.line : -(int64_t)r.line))
        fail("the recoveries differ");
    used = r.used;
    memset(journal + used, 0xff, JOURNAL - used);
    memset(other_journal + used, 0xff, JOURNAL - used);
}

/* A bus buffer of another length gives 5 and changes nothing. */
static void other_length(const uint8_t *frame, size_t n)
{
    const int odd = take() % TABLES;
    const size_t by = take() % 2 ? 1 : shape[odd].len;
    uint8_t answer[EZ_ANSWER_LEN];
    EzOutcome o = eikelzwier_command(LENT(RUN), frame, n, answer, sizeof answer);
    if (o.number != EZ_EIO || o.len != 1 || answer[0] != EZ_EIO)
        fail("a bus buffer of another length");
    if (eikelzwier_fresh(LENT(RUN)) != EZ_EIO)
        fail("a fresh bus in a buffer of another length");
}

/* Whether the numbers of docs/BUFFERS.md that are tested are in their ranges. */
static int in_range(int bus)
{
    const uint64_t *peers = at(bus, table_peers);
    const uint16_t *ends = at(bus, table_ends);
    int good = peers[0] < (uint64_t)1 << 40;
    for (int p = 0; p < 8; p++) {
        good = good && peers[1 + 3 * p] <= 2 && peers[2 + 3 * p] <= 3 && peers[3 + 3 * p] < (uint64_t)1 << 44;
        good = good && ends[2 * p] <= 511 && ends[2 * p + 1] <= 512;
    }
    return good;
}

/* A frame to a damaged copy of the bus: the call returns, and the guards stand. */
static void damaged(const uint8_t *frame, size_t n)
{
    const int odd = -1;
    const size_t by = 0;
    uint8_t answer[EZ_ANSWER_LEN + GUARD];
    memset(answer, 0xee, sizeof answer);
    for (int i = 0; i < TABLES; i++)
        memcpy(at(COPY, i), at(RUN, i), bytes(i));
    for (int i = take() % 16; i >= 0; i--) {
        uint8_t c = take();
        int table = c < 80 ? table_peers : c < 160 ? table_ends : c % TABLES; /* the tables with the tested numbers more often */
        size_t place = ((size_t)take() << 8 | take()) % bytes(table);
        ((uint8_t *)at(COPY, table))[place] = take();
    }
    const int sound = in_range(COPY);
    EzOutcome o = eikelzwier_command(LENT(COPY), frame, n, answer, EZ_ANSWER_LEN);
    if ((o.number == EZ_EIO) == sound)
        fail("5 over damaged contents");
    if (o.len > EZ_ANSWER_LEN || o.len == 0 || answer[0] != o.number)
        fail("the outcome over damaged contents");
    for (size_t i = o.len; i < sizeof answer; i++)
        if (answer[i] != 0xee)
            fail("a write behind the answer");
    guards(COPY);
}

static void start(void)
{
    const int odd = -1;
    const size_t by = 0;
    if (block[0][0] == NULL)
        make_buses();
    memset(journal, 0xff, JOURNAL);
    memset(other_journal, 0xff, JOURNAL);
    memset(known, 0, sizeof known);
    used = known_count = 0;
    partner_fresh();
    if (eikelzwier_version() != EZ_VERSION_NUMBER || eikelzwier_fresh(LENT(RUN)) != EZ_DONE)
        fail("no fresh bus");
}

int LLVMFuzzerTestOneInput(const uint8_t *data, size_t size)
{
    input = data;
    left = size;
    start();
    while (left > 0) {
        uint8_t frame[1024], kind = take();
        size_t n = kind < 16 ? any_frame(frame) : built_frame(frame);
        if (kind >= 250)
            recovery();
        else if (kind >= 246)
            other_length(frame, n);
        else if (kind >= 226)
            damaged(frame, n);
        else
            command(frame, n, kind >= 224 ? (size_t)(take() * 4) % EZ_ANSWER_LEN : EZ_ANSWER_LEN);
        guards(RUN);
    }
    return 0;
}
