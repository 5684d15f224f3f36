/*
 * library [SEED]: the static library called from C.
 *
 * Runs script S of the README, then uses the library in ways that it must
 * refuse or survive: bus buffers of a wrong length, an answer buffer that is
 * too short, and random contents. Around every buffer stand guard bytes, which
 * no call may change. Exit status 0, or 1 with a message.
 */
#include "eikelzwier.h"

#include <inttypes.h>
#include <stdio.h>
#include <stdlib.h>
#include <string.h>

/* SplitMix64. */
static uint64_t state;

static uint64_t draw(void)
{
    uint64_t z = state += UINT64_C(0x9e3779b97f4a7c15);
    z = (z ^ (z >> 30)) * UINT64_C(0xbf58476d1ce4e5b9);
    z = (z ^ (z >> 27)) * UINT64_C(0x94d049bb133111eb);
    return z ^ (z >> 31);
}

static size_t below(size_t n)
{
    return (size_t)(draw() % n);
}

/* What is being tested, for the message of a failure. */
static char doing[200];
static uint64_t seed;

static void check(int good, const char *what)
{
    if (good)
        return;
    printf("library: seed %" PRIu64 ": %s: %s\n", seed, doing, what);
    exit(1);
}

/* A buffer between guard bytes. */
enum { GUARD = 64 };

struct buffer {
    unsigned char *block; /* guard, contents, guard */
    unsigned char *copy;  /* the contents before the call */
    size_t len;           /* in elements */
    size_t bytes;
};

static unsigned char guard_at(size_t i)
{
    return (unsigned char)(0xa5 ^ i);
}

static void *at(const struct buffer *b)
{
    return b->block + GUARD;
}

static void fill_random(struct buffer *b)
{
    unsigned char *p = at(b);
    for (size_t i = 0; i < b->bytes; i++)
        p[i] = (unsigned char)draw();
}

static void lend(struct buffer *b, size_t len, size_t width)
{
    b->len = len;
    b->bytes = len * width;
    b->block = malloc(b->bytes + 2 * GUARD);
    b->copy = malloc(b->bytes + 1);
    check(b->block && b->copy, "no memory");
    for (size_t i = 0; i < GUARD; i++) {
        b->block[i] = guard_at(i);
        b->block[GUARD + b->bytes + i] = guard_at(i);
    }
    fill_random(b);
}

static void take_back(struct buffer *b)
{
    free(b->block);
    free(b->copy);
}

static void remember(struct buffer *b)
{
    memcpy(b->copy, at(b), b->bytes);
}

/* Are the contents from a byte on as before the call? */
static int same_from(const struct buffer *b, size_t from)
{
    return memcmp((unsigned char *)at(b) + from, b->copy + from, b->bytes - from) == 0;
}

static int guarded(const struct buffer *b)
{
    for (size_t i = 0; i < GUARD; i++)
        if (b->block[i] != guard_at(i) || b->block[GUARD + b->bytes + i] != guard_at(i))
            return 0;
    return 1;
}

/* The buffers of a call: the bus buffers, the frame, the answer. */
#define COMMA() ,
#define NUMBER(with, name, element, length) table_##name
#define SHAPE(with, name, element, length) {#name, length, sizeof(element)}

enum { EZ_BUFFERS(NUMBER, COMMA, ), TABLES };
enum { FRAME = TABLES, ANSWER, BUFFERS };

static const struct {
    const char *name;
    size_t len, width;
} shape[TABLES] = {EZ_BUFFERS(SHAPE, COMMA, )};

struct bus {
    struct buffer b[BUFFERS];
};

/* Buffers with random contents, one table of another length if odd is one. */
static void lend_bus(struct bus *bus, int odd, size_t odd_len, size_t answer_len)
{
    for (int t = 0; t < TABLES; t++)
        lend(&bus->b[t], t == odd ? odd_len : shape[t].len, shape[t].width);
    lend(&bus->b[FRAME], 0, 1);
    lend(&bus->b[ANSWER], answer_len, 1);
}

static void take_back_bus(struct bus *bus)
{
    for (int i = 0; i < BUFFERS; i++)
        take_back(&bus->b[i]);
}

static void set_frame(struct bus *bus, const unsigned char *bytes, size_t len)
{
    take_back(&bus->b[FRAME]);
    lend(&bus->b[FRAME], len, 1);
    if (len > 0)
        memcpy(at(&bus->b[FRAME]), bytes, len);
}

static int tables_same(const struct bus *bus)
{
    for (int t = 0; t < TABLES; t++)
        if (!same_from(&bus->b[t], 0))
            return 0;
    return 1;
}

static void check_guards(const struct bus *bus)
{
    for (int i = 0; i < BUFFERS; i++)
        check(guarded(&bus->b[i]), "guard bytes were written");
    check(same_from(&bus->b[FRAME], 0), "the frame was written");
}

#define LENT(bus, t) at(&(bus)->b[t]), (bus)->b[t].len
#define LENT_TABLE(bus, name, element, length) LENT(bus, table_##name)
#define ALL_TABLES(bus) EZ_BUFFERS(LENT_TABLE, COMMA, bus)

static unsigned long calls;

static uint8_t fresh(struct bus *bus)
{
    for (int i = 0; i < BUFFERS; i++)
        remember(&bus->b[i]);
    uint8_t number = eikelzwier_fresh(ALL_TABLES(bus));
    calls++;
    check_guards(bus);
    check(same_from(&bus->b[ANSWER], 0), "eikelzwier_fresh wrote the answer buffer");
    return number;
}

/* One command, and what holds of every one. */
static EzOutcome command(struct bus *bus)
{
    struct buffer *answer = &bus->b[ANSWER];
    for (int i = 0; i < BUFFERS; i++)
        remember(&bus->b[i]);
    EzOutcome o = eikelzwier_command(ALL_TABLES(bus), LENT(bus, FRAME), LENT(bus, ANSWER));
    calls++;
    check_guards(bus);
    if (answer->len < EZ_ANSWER_LEN) {
        check(o.number == EZ_EINVAL, "a short answer buffer does not give 22");
        check(o.len == 0, "a short answer buffer gives an answer");
        check(same_from(answer, 0), "a short answer buffer was written");
        check(tables_same(bus), "with a short answer buffer the bus was written");
        return o;
    }
    check(o.len >= 1 && o.len <= EZ_ANSWER_LEN, "the answer's length");
    check(*(unsigned char *)at(answer) == o.number, "the number is not the answer's first byte");
    check(same_from(answer, o.len), "the buffer behind the answer was written");
    if (o.number != EZ_DONE) {
        check(o.len == 1, "a refusal is longer than its byte");
        check(tables_same(bus), "a refusal changed the bus");
    }
    return o;
}

/* Script S of the README. */
static const char *const script[][2] = {
    {"010000", "00"},
    {"010101", "00"},
    {"03000000000000000008", "00"},
    {"0600000000000000000801", "000000000000000007"},
    {"070101000001000000000000000733", "00"},
    {"08000001", "00010000000000000008010000010033"},
    {"08000001", "0b"},
};
enum { LINES = sizeof script / sizeof script[0] };

static size_t unhex(const char *line, unsigned char *bytes)
{
    static const char digits[] = "0123456789abcdef";
    size_t n = 0;
    for (; line[2 * n]; n++)
        bytes[n] = (unsigned char)((strchr(digits, line[2 * n]) - digits) * 16 +
                                   (strchr(digits, line[2 * n + 1]) - digits));
    return n;
}

static void run_script(struct bus *bus, size_t lines)
{
    unsigned char bytes[EZ_ANSWER_LEN];
    for (size_t i = 0; i < lines; i++) {
        snprintf(doing, sizeof doing, "script S, line %zu", i + 1);
        set_frame(bus, bytes, unhex(script[i][0], bytes));
        EzOutcome o = command(bus);
        size_t len = unhex(script[i][1], bytes);
        check(o.number == bytes[0], "the number");
        check(o.len == len && memcmp(at(&bus->b[ANSWER]), bytes, len) == 0, "the answer");
    }
}

/* From any contents, twice in the same buffers, and with longer answer buffers. */
static void test_script(void)
{
    for (size_t extra = 0; extra < 3; extra++) {
        struct bus bus;
        snprintf(doing, sizeof doing, "script S");
        lend_bus(&bus, TABLES, 0, EZ_ANSWER_LEN + extra * 1000);
        for (int again = 0; again < 2; again++) {
            snprintf(doing, sizeof doing, "a fresh bus");
            check(fresh(&bus) == EZ_DONE, "eikelzwier_fresh refuses");
            run_script(&bus, LINES);
        }
        take_back_bus(&bus);
    }
}

/* A bus in the middle of script S, in buffers of which one has a wrong length:
 * the contents of the others are sound. */
static void fill_sound(struct bus *bus)
{
    struct bus sound;
    lend_bus(&sound, TABLES, 0, EZ_ANSWER_LEN);
    check(fresh(&sound) == EZ_DONE, "eikelzwier_fresh refuses");
    run_script(&sound, LINES - 2);
    for (int t = 0; t < TABLES; t++) {
        size_t a = bus->b[t].bytes, b = sound.b[t].bytes;
        memcpy(at(&bus->b[t]), at(&sound.b[t]), a < b ? a : b);
    }
    take_back_bus(&sound);
}

static void test_length(int t, size_t len, int sound)
{
    unsigned char bytes[EZ_ANSWER_LEN];
    struct bus bus;

    lend_bus(&bus, t, len, EZ_ANSWER_LEN);
    if (sound)
        fill_sound(&bus);
    snprintf(doing, sizeof doing, "%s of %zu elements, %s", shape[t].name, len,
             sound ? "sound contents" : "random contents");
    check(fresh(&bus) == EZ_EIO, "eikelzwier_fresh does not return 5");
    check(tables_same(&bus), "eikelzwier_fresh wrote");
    for (size_t i = 0; i <= LINES; i++) {
        /* The frames of S, and an empty one. */
        set_frame(&bus, bytes, i < LINES ? unhex(script[i][0], bytes) : 0);
        EzOutcome o = command(&bus);
        check(o.number == EZ_EIO && o.len == 1, "a command does not answer 5");
    }
    take_back_bus(&bus);

    /* The answer buffer comes before the bus buffers. */
    lend_bus(&bus, t, len, EZ_ANSWER_LEN - 1);
    if (sound)
        fill_sound(&bus);
    snprintf(doing, sizeof doing, "%s of %zu elements and 590 bytes of answer", shape[t].name, len);
    for (size_t i = 0; i <= LINES; i++) {
        set_frame(&bus, bytes, i < LINES ? unhex(script[i][0], bytes) : 0);
        command(&bus);
    }
    take_back_bus(&bus);
}

static void test_lengths(void)
{
    for (int t = 0; t < TABLES; t++)
        for (int sound = 0; sound < 2; sound++) {
            test_length(t, shape[t].len - 1, sound);
            test_length(t, shape[t].len + 1, sound);
            test_length(t, 0, sound);
        }
}

static void test_short_answer(void)
{
    static const size_t lens[] = {EZ_ANSWER_LEN - 1, 1, 0};
    unsigned char bytes[EZ_ANSWER_LEN];
    for (size_t n = 0; n < sizeof lens / sizeof lens[0]; n++) {
        struct bus bus;
        lend_bus(&bus, TABLES, 0, lens[n]);
        fill_sound(&bus);
        snprintf(doing, sizeof doing, "%zu bytes of answer", lens[n]);
        for (size_t i = 0; i <= LINES; i++) {
            set_frame(&bus, bytes, i < LINES ? unhex(script[i][0], bytes) : 0);
            command(&bus);
        }
        take_back_bus(&bus);
    }
}

/* A random frame, mostly of a command's length and with small numbers. */
static void random_frame(struct bus *bus)
{
    static const size_t lengths[] = {3, 2, 10, 10, 10, 11, 6, 4, 3, 10, 6, 4};
    unsigned char bytes[1400];
    size_t kind = below(12), len = lengths[kind];

    for (size_t i = 0; i < sizeof bytes; i++)
        bytes[i] = (unsigned char)draw();
    bytes[0] = (unsigned char)(kind + 1);
    bytes[1] &= 7;
    if (kind == 6) {
        size_t nd = below(9), nh = below(9), nb = below(513);
        bytes[2] = (unsigned char)nd;
        bytes[3] = (unsigned char)nh;
        bytes[4] = (unsigned char)(nb >> 8);
        bytes[5] = (unsigned char)nb;
        len = 6 + 8 * (nd + nh) + nb;
    }
    if (kind == 0 || kind == 8)
        bytes[2] &= 3;
    if (kind == 5)
        bytes[10] &= 7;
    if ((kind == 7 || kind == 11) && below(2))
        bytes[2] = 0xff;
    /* IDs that stand in the handle table. */
    if (kind != 0 && kind != 1 && kind != 7 && kind != 8 && kind < 10 && below(8)) {
        const unsigned char *handles = at(&bus->b[table_handles]);
        for (size_t i = kind == 6 ? 6 : 2; i + 8 <= len; i += 8) {
            size_t row = 128 * bytes[1] + below(128);
            if (kind == 6 && i >= 6 + 8 * ((size_t)bytes[2] + bytes[3]))
                break;
            for (size_t k = 0; k < 8; k++)
                bytes[i + k] = handles[16 * row + 7 - k];
        }
        if (kind == 2)
            bytes[9] &= 0xfc;
    }
    switch (below(12)) {
    case 0:
        len = below(sizeof bytes + 1);
        break;
    case 1:
        bytes[below(len)] = (unsigned char)draw();
        break;
    case 2:
        len = below(len + 2);
        break;
    }
    set_frame(bus, bytes, len);
}

/* Puts the numbers that a command tests into their ranges. */
static void put_in_range(struct bus *bus)
{
    uint64_t *peers = at(&bus->b[table_peers]);
    uint16_t *ends = at(&bus->b[table_ends]);
    peers[0] %= UINT64_C(1) << (below(2) ? 40 : 20);
    for (size_t p = 0; p < 8; p++) {
        peers[1 + 3 * p] = below(8) ? 1 : below(3);
        peers[2 + 3 * p] %= 4;
        peers[3 + 3 * p] %= UINT64_C(1) << 44;
        ends[2 * p] %= 512;
        ends[2 * p + 1] %= 513;
    }
}

/* Random contents and frames: a call returns and writes only its answer. */
static void test_random(unsigned long rounds)
{
    unsigned long numbers[256] = {0};
    for (unsigned long round = 0; round < rounds; round++) {
        struct bus bus;
        int kind = (int)below(4);
        snprintf(doing, sizeof doing, "random contents, round %lu", round);
        lend_bus(&bus, TABLES, 0, EZ_ANSWER_LEN + below(3));
        if (kind == 1)
            fill_sound(&bus);
        if (kind == 2)
            /* Small numbers everywhere: many hits in the tables. */
            for (int t = 0; t < TABLES; t++) {
                unsigned char *p = at(&bus.b[t]);
                for (size_t i = 0; i < bus.b[t].bytes; i++)
                    p[i] = i % shape[t].width == 0 ? p[i] & 15 : 0;
            }
        if (kind > 0)
            put_in_range(&bus);
        for (int n = 0; n < 40; n++) {
            if (below(4) == 0) {
                /* One more byte damaged, seldom where it may give 5. */
                int t = (int)below(TABLES);
                if ((t == table_peers || t == table_ends) && below(16))
                    t = table_handles;
                struct buffer *b = &bus.b[t];
                ((unsigned char *)at(b))[below(b->bytes)] = (unsigned char)draw();
            }
            snprintf(doing, sizeof doing, "random contents, round %lu, command %d", round, n);
            random_frame(&bus);
            numbers[command(&bus).number]++;
        }
        take_back_bus(&bus);
    }
    printf("library: answers to random contents:");
    for (int n = 0; n < 256; n++)
        if (numbers[n])
            printf(" %d: %lu", n, numbers[n]);
    printf("\n");
}

int main(int argc, char **argv)
{
    seed = argc > 1 ? strtoull(argv[1], NULL, 10) : 1;
    state = seed;
    test_script();
    test_lengths();
    test_short_answer();
    test_random(2000);
    printf("library: seed %" PRIu64 ", %lu calls, all as they must be\n", seed, calls);
    return 0;
}
