/*
 * layer: include/eikelzwier_bus.h, as C11 and as C++17.
 *
 * Builders and decoders are held to bytes that were written by hand from
 * docs/WIRE.md; decoders also get every shorter piece of an answer, in memory of
 * just that size, so that a sanitizer sees a read behind it. Then script S of
 * the README and the two questions on a bus, with and without a journal. Exit
 * status 0, or 1 with a message.
 */
#include "eikelzwier_bus.h"

#include <stdio.h>
#include <stdlib.h>

static int checks, failures;

static void check(int good, const char *what)
{
    checks++;
    if (good)
        return;
    failures++;
    printf("layer: %s\n", what);
}

static int digit(char c)
{
    return c >= 'a' ? c - 'a' + 10 : c - '0';
}

/* The bytes of a text of hexadecimal digits; blanks are left out. */
static size_t bytes_of(const char *text, uint8_t *bytes)
{
    size_t digits = 0;
    for (; *text; text++)
        if (*text != ' ') {
            int d = digit(*text);
            bytes[digits / 2] = (uint8_t)(digits % 2 == 0 ? 16 * d : bytes[digits / 2] + d);
            digits++;
        }
    return digits / 2;
}

static void same_frame(const EzFrame *f, const char *text)
{
    uint8_t wanted[EZ_FRAME_MAX];
    size_t n = bytes_of(text, wanted);
    check(f->len == n && memcmp(f->bytes, wanted, n) == 0, text);
}

static void builders(void)
{
    static const uint64_t to[2] = {UINT64_C(0x0102030405060708), 7}, attached[1] = {8};
    EzFrame f;
    ez_build_open(&f, 5, 3);
    same_frame(&f, "01 05 03");
    ez_build_disconnect(&f, 6);
    same_frame(&f, "02 06");
    ez_build_create(&f, 0, UINT64_C(0x0102030405060708));
    same_frame(&f, "03 00 0102030405060708");
    ez_build_destroy(&f, 1, 8);
    same_frame(&f, "04 01 0000000000000008");
    ez_build_release(&f, 2, 11);
    same_frame(&f, "05 02 000000000000000b");
    ez_build_transfer(&f, 3, EZ_INVALID_ID, 4);
    same_frame(&f, "06 03 ffffffffffffffff 04");
    check(ez_build_send(&f, 1, to, 2, attached, 1, "3!", 2) == EZ_DONE, "a send is built");
    same_frame(&f, "07 01 02 01 0002 0102030405060708 0000000000000007 0000000000000008 3321");
    check(ez_build_send(&f, 7, NULL, 0, NULL, 0, NULL, 0) == EZ_EINVAL && f.len == 0, "a send needs a destination");
    check(ez_build_set_seed(&f, 1, attached, 1, "3!", 2) == EZ_DONE, "a seed is built");
    same_frame(&f, "07 01 00 01 0002 0000000000000008 3321");
    check(ez_build_set_seed(&f, 7, NULL, 0, NULL, 0) == EZ_DONE, "a bare seed is built");
    same_frame(&f, "07 07 00 00 0000");
    ez_build_receive(&f, 0, 0x0102);
    same_frame(&f, "08 00 0102");
    ez_build_show_seed(&f, 2, 0x0102);
    same_frame(&f, "0c 02 0102");
    ez_build_quota(&f, 4, 2);
    same_frame(&f, "09 04 02");
    ez_build_holders(&f, 7, 12);
    same_frame(&f, "0a 07 000000000000000c");
}

/* A send or a seed over a limit is refused, and the memory around the frame stays. */
static void limits(void)
{
    static const size_t sizes[][3] = {{9, 0, 0}, {1, 9, 0}, {1, 0, 513}, {SIZE_MAX, 0, 0},
                                      {1, SIZE_MAX, 0}, {1, 0, SIZE_MAX}, {256, 256, 65536}};
    static uint64_t ids[EZ_MAX_DESTINATIONS];
    static uint8_t payload[EZ_MAX_PAYLOAD];
    struct {
        uint8_t before[64];
        EzFrame frame;
        uint8_t after[64];
    } at, old;
    memset(&at, 0xa5, sizeof at);
    old = at;
    for (size_t i = 0; i < sizeof sizes / sizeof sizes[0]; i++) {
        uint8_t n = ez_build_send(&at.frame, 0, ids, sizes[i][0], ids, sizes[i][1], payload, sizes[i][2]);
        check(n == EZ_EMSGSIZE && at.frame.len == 0, "a send over a limit gives 90");
        old.frame.len = 0;
        check(memcmp(&at, &old, sizeof at) == 0, "a send over a limit writes nothing");
        n = ez_build_set_seed(&at.frame, 0, ids, sizes[i][1], payload, sizes[i][2]);
        check(sizes[i][0] > 8 || (n == EZ_EMSGSIZE && at.frame.len == 0), "a seed over a limit gives 90");
        at = old;
    }
    check(ez_build_set_seed(&at.frame, 0, ids, 8, payload, 512) == EZ_DONE, "the longest seed is built");
    check(at.frame.len == 582, "the longest seed has 582 bytes");
    check(ez_build_send(&at.frame, 0, ids, 8, ids, 8, payload, 512) == EZ_DONE, "the longest send is built");
    check(at.frame.len == EZ_FRAME_MAX, "the longest send has 646 bytes");
    check(memcmp(at.before, old.before, 64) == 0 && memcmp(at.after, old.after, 64) == 0, "nothing around it");
}

/* What a decoder says of the bytes, which stand in memory of just their size. */
enum decoder { PLAIN, TRANSFER, RECEIVE, SHOW_SEED, QUOTA, HOLDERS };

static EzReceived received;
static EzQuota quota;
static uint64_t there;
static uint8_t holders;

static uint8_t decode(enum decoder d, const uint8_t *bytes, size_t n)
{
    uint8_t *own = (uint8_t *)malloc(n + (n == 0)), number;
    if (own == NULL)
        exit(1);
    if (n > 0)
        memcpy(own, bytes, n);
    switch (d) {
    case PLAIN: number = ez_decode_plain(own, n); break;
    case TRANSFER: number = ez_decode_transfer(own, n, &there); break;
    case RECEIVE: number = ez_decode_receive(own, n, &received); break;
    case SHOW_SEED: number = ez_decode_show_seed(own, n, &received); break;
    case QUOTA: number = ez_decode_quota(own, n, &quota); break;
    default: number = ez_decode_holders(own, n, &holders); break;
    }
    received.payload = NULL;
    free(own);
    return number;
}

/* The whole answer is read; no shorter piece and no longer text is. */
static void whole_only(enum decoder d, const char *text)
{
    uint8_t a[EZ_ANSWER_LEN];
    size_t n = bytes_of(text, a);
    a[n] = 0;
    for (size_t cut = 0; cut < n; cut++)
        check(decode(d, a, cut) == EZ_UNREADABLE, "a piece of an answer is read");
    check(decode(d, a, n + 1) == EZ_UNREADABLE, "more than an answer is read");
    check(decode(d, a, n) == EZ_DONE, text);
}

static void decoders(void)
{
    const uint8_t refusal[1] = {EZ_EDQUOT};
    whole_only(PLAIN, "00");
    whole_only(TRANSFER, "00 0102030405060708");
    check(there == UINT64_C(0x0102030405060708), "the ID of a transfer");
    whole_only(QUOTA, "00 0020 0200 0003 fff4 0100 8000");
    check(quota.messages == 32 && quota.bytes == 512 && quota.handles == 3, "what is queued");
    check(quota.messages_left == -12 && quota.bytes_left == 256 && quota.handles_left == -32768, "what is left");
    whole_only(HOLDERS, "00 83 03");
    check(holders == 0x83, "the holders");
    whole_only(RECEIVE, "00 02 0000000000000007");
    check(received.kind == EZ_NODE_DESTROYED && received.id == 7, "a destroyed node");
    whole_only(RECEIVE, "00 03 0000000000000008");
    check(received.kind == EZ_NODE_RELEASED && received.id == 8, "a released node");
    whole_only(RECEIVE, "00 01 0000000000000008 02 01 0003 02 000000000000000b ffffffffffffffff 333821");
    check(received.kind == EZ_MESSAGE && received.id == 8 && received.user == 2 && received.more == 1, "a message");
    check(received.nb == 3 && received.nh == 2 && received.handles[0] == 11 && received.handles[1] == EZ_INVALID_ID,
          "the handles of a message");
    whole_only(SHOW_SEED, "00 04 ffffffffffffffff 02 00 0003 02 000000000000000b ffffffffffffffff 333821");
    check(received.kind == EZ_SEED && received.id == EZ_INVALID_ID && received.user == 2 && received.more == 0, "a seed");
    check(received.nb == 3 && received.nh == 2 && received.handles[0] == 11 && received.handles[1] == EZ_INVALID_ID,
          "the handles of a seed");
    for (int d = PLAIN; d <= HOLDERS; d++)
        check(decode((enum decoder)d, refusal, 1) == EZ_EDQUOT, "a refusal");
}

/* Bytes that are no answer. */
static void strangers(void)
{
    static const char *const texts[] = {
        "00 04 0000000000000008", "00 00 0000000000000008", "01 01 0000000000000008 02 00 0000 00",
        "00 01 0000000000000008 02 00 0001 00", "00 01 0000000000000008 02 00 ffff 09",
        "00 05 ffffffffffffffff 02 00 0000 00",
    };
    uint8_t a[EZ_ANSWER_LEN];
    for (size_t i = 0; i < sizeof texts / sizeof texts[0]; i++) {
        size_t n = bytes_of(texts[i], a);
        check(decode(RECEIVE, a, n) == EZ_UNREADABLE && decode(SHOW_SEED, a, n) == EZ_UNREADABLE, texts[i]);
    }
    /* A receive takes out no seed, and 0c shows nothing else. */
    check(decode(RECEIVE, a, bytes_of("00 04 ffffffffffffffff 02 00 0000 00", a)) == EZ_UNREADABLE, "a seed received");
    check(decode(SHOW_SEED, a, bytes_of("00 01 0000000000000008 02 00 0000 00", a)) == EZ_UNREADABLE, "a message shown");
    check(decode(SHOW_SEED, a, bytes_of("00 02 0000000000000008", a)) == EZ_UNREADABLE, "a notice shown");
}

static EzBus bus;

/* Script S of the README, in words. */
static void script(void)
{
    static EzReceived r;
    uint64_t seven = 0;
    check(ez_open(&bus, 0, 0) == EZ_DONE && ez_open(&bus, 1, 1) == EZ_DONE, "two peers open");
    check(ez_create(&bus, 0, 8) == EZ_DONE, "a node is created");
    check(ez_transfer(&bus, 0, 8, 1, &seven) == EZ_DONE && seven == 7, "it is 7 at peer 1");
    check(ez_send(&bus, 1, &seven, 1, NULL, 0, "3", 1) == EZ_DONE, "peer 1 sends");
    check(ez_receive(&bus, 0, 1, &r) == EZ_DONE && r.kind == EZ_MESSAGE && r.id == 8, "peer 0 receives");
    check(r.user == 1 && r.more == 0 && r.nb == 1 && r.nh == 0 && r.payload[0] == '3', "what was sent");
    check(ez_receive(&bus, 0, 1, &r) == EZ_EAGAIN, "there is nothing more");
}

/* The rest on the bus that S left. */
static void questions(void)
{
    static EzQuota q;
    static EzReceived r;
    uint64_t seven = 7;
    uint8_t who = 0;
    check(ez_holders(&bus, 0, 8, &who) == EZ_DONE && who == 3, "both hold it");
    check(ez_holders(&bus, 1, 7, &who) == EZ_EPERM && who == 3, "only the owner may ask");
    check(ez_send(&bus, 1, &seven, 1, &seven, 1, "draw", 4) == EZ_DONE, "a send with a handle");
    check(ez_quota(&bus, 0, 1, &q) == EZ_DONE && q.messages == 1 && q.bytes == 4 && q.handles == 1, "it is charged");
    check(q.messages_left == 31 && q.bytes_left == 2044 && q.handles_left == 31, "half less what is queued");
    check(ez_receive(&bus, 0, 11, &r) == EZ_ERANGE, "4 and 8 bytes are over 11");
    check(ez_receive(&bus, 0, EZ_MAX_ROOM, &r) == EZ_DONE && r.nh == 1 && r.handles[0] == 8, "the owner's own ID");
    check(ez_release(&bus, 0, 8) == EZ_DONE && ez_release(&bus, 0, 8) == EZ_EPERM, "the last one stays");
    check(ez_destroy(&bus, 0, 8) == EZ_DONE && ez_send(&bus, 1, &seven, 1, NULL, 0, "", 0) == EZ_EHOSTUNREACH, "it is gone");
    check(ez_receive(&bus, 1, 0, &r) == EZ_DONE && r.kind == EZ_NODE_DESTROYED && r.id == 7, "its holder is told");
    check(ez_disconnect(&bus, 1) == EZ_DONE && ez_open(&bus, 1, 1) == EZ_ESHUTDOWN, "gone for good");
    check(ez_send(&bus, 0, &seven, 9, NULL, 0, "", 0) == EZ_EMSGSIZE, "too many destinations");
}

/* A seed is kept, shown and replaced; it is no message and charged to nobody. */
static void seeds(void)
{
    static EzReceived r;
    static EzQuota q;
    uint64_t ids[2] = {8, 12};
    check(ez_init(&bus) == EZ_DONE && ez_open(&bus, 0, 2) == EZ_DONE, "a peer opens");
    check(ez_show_seed(&bus, 0, EZ_MAX_ROOM, &r) == EZ_EAGAIN, "no seed is set");
    check(ez_create(&bus, 0, 8) == EZ_DONE && ez_create(&bus, 0, 12) == EZ_DONE, "two nodes are created");
    check(ez_set_seed(&bus, 0, ids, 2, "lamp", 4) == EZ_DONE, "a seed is set");
    check(ez_destroy(&bus, 0, 12) == EZ_DONE, "one of its nodes is destroyed");
    check(ez_show_seed(&bus, 0, 19, &r) == EZ_ERANGE, "4 and 16 bytes are over 19");
    for (int again = 0; again < 2; again++) {
        check(ez_show_seed(&bus, 0, 20, &r) == EZ_DONE && r.kind == EZ_SEED && r.id == EZ_INVALID_ID, "the seed is shown");
        check(r.user == 2 && r.more == 0 && r.nb == 4 && memcmp(r.payload, "lamp", 4) == 0, "what was set");
        check(r.nh == 2 && r.handles[0] == 8 && r.handles[1] == EZ_INVALID_ID, "the handles of the seed");
    }
    check(ez_quota(&bus, 0, 2, &q) == EZ_DONE && q.messages == 0 && q.bytes_left == 2048, "nothing is charged");
    check(ez_release(&bus, 0, 8) == EZ_DONE && ez_release(&bus, 0, 8) == EZ_DONE, "each showing added a reference");
    check(ez_release(&bus, 0, 8) == EZ_EPERM, "the last one stays");
    check(ez_set_seed(&bus, 0, ids, 9, "", 0) == EZ_EMSGSIZE, "too many handles");
    check(ez_set_seed(&bus, 0, NULL, 0, NULL, 0) == EZ_DONE, "an empty seed");
    check(ez_show_seed(&bus, 0, 0, &r) == EZ_DONE && r.nb == 0 && r.nh == 0, "is a set one");
}

static void journals(void)
{
    static const char lines[] = "010000\n010101\n03000000000000000008\n0600000000000000000801\n"
                                "070101000001000000000000000733\n08000001\n";
    static uint8_t journal[sizeof lines];
    EzReceived r;
    check(ez_init(&bus) == EZ_DONE, "a fresh bus");
    ez_lend_journal(&bus, journal, sizeof lines - 1);
    script();
    check(bus.used == sizeof lines - 1 && memcmp(journal, lines, bus.used) == 0, "what is kept");
    check(ez_create(&bus, 0, 16) == EZ_EFBIG && bus.used == sizeof lines - 1, "a full journal");
    EzRecovery whole = ez_recover(&bus, journal, sizeof lines - 1, sizeof lines - 1 - 9 - 1);
    check(whole.number == EZ_DONE && whole.line == 4 && bus.used == 58, "a cut in the send's line");
    check(ez_receive(&bus, 0, 1, &r) == EZ_EAGAIN, "the send is not there");
    EzRecovery over = ez_recover(&bus, journal, 4, 5);
    check(over.number == EZ_EIO && over.line == 0 && bus.used == 0, "more kept than there is");
    journal[0] = 'x';
    EzRecovery stopped = ez_recover(&bus, journal, sizeof lines - 1, 7);
    check(stopped.number == EZ_EIO && stopped.line == 1 && stopped.place == 0, "a bad line");
}

static void names(void)
{
    check(strcmp(ez_name(0), "done") == 0 && strcmp(ez_name(27), "EFBIG") == 0, "names of numbers");
    check(strcmp(ez_name(122), "EDQUOT") == 0 && strcmp(ez_name(2), "unknown") == 0, "names of numbers");
    check(strcmp(ez_command_name(7), "send") == 0 && strcmp(ez_command_name(11), "unknown") == 0, "names of commands");
    check(strcmp(ez_command_name(12), "show seed") == 0 && strcmp(ez_command_name(13), "unknown") == 0, "names of commands");
    check(strcmp(ez_kind_name(2), "node destroyed") == 0 && strcmp(ez_kind_name(4), "seed") == 0 && strcmp(ez_kind_name(5), "unknown") == 0, "names of kinds");
}

int main(void)
{
    builders();
    limits();
    decoders();
    strangers();
    names();
    check(ez_init(&bus) == EZ_DONE, "a fresh bus");
    script();
    questions();
    seeds();
    journals();
    printf("layer: %d checks, %d failed\n", checks, failures);
    return failures > 0;
}
