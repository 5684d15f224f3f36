/*
 * A bus as one object, for C and C++: a function for each command, and under
 * them a builder for each frame and a decoder for each answer (docs/WIRE.md).
 * All of it is static inline over the functions of eikelzwier.h; nothing is
 * allocated. Link libeikelzwier.a. C11 or C++17.
 *
 *     static EzBus bus;
 *     uint64_t there;
 *     if (ez_init(&bus) != EZ_DONE)
 *         ..
 *     ez_open(&bus, 0, 0);
 *     ez_open(&bus, 1, 1);
 *     ez_create(&bus, 0, 8);
 *     ez_transfer(&bus, 0, 8, 1, &there);
 *
 * With EZ_NO_JOURNAL defined before it is included, nothing here speaks of a
 * journal, and the linker takes only the part of the archive without one.
 *
 * Peers are 0 to 7, users 0 to 3; IDs are uint64_t. Every call on a bus returns
 * EZ_DONE or the number of the refusal, and writes through its pointers only
 * where it returns EZ_DONE. A call builds its frame on the stack, 656 bytes.
 * Calls on one bus may not run at the same time.
 *
 * To look into a bus there are two questions, ez_quota and ez_holders, and
 * nothing else: what the buffers hold is the library's own.
 */
#ifndef EIKELZWIER_BUS_H
#define EIKELZWIER_BUS_H

#include "eikelzwier.h"

#include <string.h>

#ifdef __cplusplus
extern "C" {
#endif

/* Commands: byte 0 of a frame. */
#define EZ_OPEN 0x01
#define EZ_DISCONNECT 0x02
#define EZ_CREATE 0x03
#define EZ_DESTROY 0x04
#define EZ_RELEASE 0x05
#define EZ_TRANSFER 0x06
#define EZ_SEND 0x07
#define EZ_RECEIVE 0x08
#define EZ_QUOTA 0x09
#define EZ_HOLDERS 0x0a
#define EZ_SHOW_SEED 0x0c

/* What a receive takes out, and what 0c shows: byte 1 of its answer. */
#define EZ_MESSAGE 1
#define EZ_NODE_DESTROYED 2
#define EZ_NODE_RELEASED 3
#define EZ_SEED 4

/* Limits. */
#define EZ_PEERS 8
#define EZ_USERS 4
#define EZ_MAX_NODES 16 /* of one owner */
#define EZ_MAX_DESTINATIONS 8
#define EZ_MAX_HANDLES 8
#define EZ_MAX_PAYLOAD 512
#define EZ_MAX_ROOM (EZ_MAX_PAYLOAD + 8 * EZ_MAX_HANDLES) /* every message and seed fits */

/* An attached handle whose node was destroyed before the message was sent, or
 * is the receiver's own, destroyed and let go; of a seed, destroyed before now. */
#define EZ_INVALID_ID UINT64_MAX

/* What a decoder says to bytes that are no such answer; no bus answers it. */
#define EZ_UNREADABLE 255

/* A frame as the builders make it. */
typedef struct EzFrame {
    size_t len;
    uint8_t bytes[EZ_FRAME_MAX];
} EzFrame;

/* What a receive took out, or the seed that 0c showed. Of a notice only kind and
 * id have a meaning. The payload stands in the answer: on a bus it holds until the
 * next command. */
typedef struct EzReceived {
    uint8_t kind; /* EZ_MESSAGE, EZ_NODE_DESTROYED, EZ_NODE_RELEASED or EZ_SEED */
    uint8_t user; /* the sender's; of a seed the peer's own */
    uint8_t more; /* 1: another message of the same send waits behind it here */
    uint8_t nh;
    uint16_t nb;
    uint64_t id; /* the node, by the receiver's ID; of a seed EZ_INVALID_ID */
    uint64_t handles[EZ_MAX_HANDLES];
    const uint8_t *payload;
} EzReceived;

/* What a user has queued at a peer, and what is left; that may be below 0. */
typedef struct EzQuota {
    uint16_t messages, bytes, handles;
    int16_t messages_left, bytes_left, handles_left;
} EzQuota;

#define EZ_NOTHING_()
#define EZ_COMMA_() ,
#define EZ_FIELD_(with, name, element, length) element name[length];
#define EZ_ARGUMENTS_(bus, name, element, length) (bus)->name, length

/* A bus: its buffers, each under its name in EZ_BUFFERS; the answer of the last
 * command; and the journal where one is lent. Put it into static memory, copy it,
 * have several: the library has no other state. */
typedef struct EzBus {
    EZ_BUFFERS(EZ_FIELD_, EZ_NOTHING_, )
    uint8_t answer[EZ_ANSWER_LEN];
#ifndef EZ_NO_JOURNAL
    uint8_t *journal; /* NULL: none */
    size_t journal_len, used;
#endif
} EzBus;

/* The buffers of a bus as the arguments of a function of eikelzwier.h. */
#define EZ_LENT(bus) EZ_BUFFERS(EZ_ARGUMENTS_, EZ_COMMA_, bus)

/* ---- Names, for logs ---- */

static inline const char *ez_name(uint8_t number)
{
    switch (number) {
    case EZ_DONE: return "done";
    case EZ_EPERM: return "EPERM";
    case EZ_EIO: return "EIO";
    case EZ_ENXIO: return "ENXIO";
    case EZ_EBADF: return "EBADF";
    case EZ_EAGAIN: return "EAGAIN";
    case EZ_EEXIST: return "EEXIST";
    case EZ_EINVAL: return "EINVAL";
    case EZ_ENOTTY: return "ENOTTY";
    case EZ_EFBIG: return "EFBIG";
    case EZ_ENOSPC: return "ENOSPC";
    case EZ_ERANGE: return "ERANGE";
    case EZ_EOVERFLOW: return "EOVERFLOW";
    case EZ_EMSGSIZE: return "EMSGSIZE";
    case EZ_ESHUTDOWN: return "ESHUTDOWN";
    case EZ_EHOSTUNREACH: return "EHOSTUNREACH";
    case EZ_EDQUOT: return "EDQUOT";
    default: return "unknown";
    }
}

static inline const char *ez_command_name(uint8_t command)
{
    static const char *const names[] = {"unknown", "open",     "disconnect", "create",
                                        "destroy", "release",  "transfer",   "send",
                                        "receive", "quota",    "holders",    "unknown",
                                        "show seed"};
    return names[command <= EZ_SHOW_SEED ? command : 0];
}

static inline const char *ez_kind_name(uint8_t kind)
{
    static const char *const names[] = {"unknown", "message", "node destroyed", "node released", "seed"};
    return names[kind <= EZ_SEED ? kind : 0];
}

/* ---- Numbers, big-endian ---- */

static inline void ez_put_id(uint8_t *at, uint64_t id)
{
    for (int i = 7; i >= 0; i--, id >>= 8)
        at[i] = (uint8_t)id;
}

static inline uint64_t ez_get_id(const uint8_t *at)
{
    uint64_t id = 0;
    for (int i = 0; i < 8; i++)
        id = id << 8 | at[i];
    return id;
}

static inline uint16_t ez_get_short(const uint8_t *at)
{
    return (uint16_t)(at[0] << 8 | at[1]);
}

/* ---- A builder for each frame ---- */

static inline void ez_build_short_(EzFrame *f, uint8_t command, uint8_t peer, uint8_t last, size_t len)
{
    f->bytes[0] = command;
    f->bytes[1] = peer;
    f->bytes[2] = last;
    f->len = len;
}

static inline void ez_build_id_(EzFrame *f, uint8_t command, uint8_t peer, uint64_t id)
{
    ez_build_short_(f, command, peer, 0, 10);
    ez_put_id(f->bytes + 2, id);
}

static inline void ez_build_open(EzFrame *f, uint8_t peer, uint8_t user)
{
    ez_build_short_(f, EZ_OPEN, peer, user, 3);
}

static inline void ez_build_disconnect(EzFrame *f, uint8_t peer)
{
    ez_build_short_(f, EZ_DISCONNECT, peer, 0, 2);
}

static inline void ez_build_create(EzFrame *f, uint8_t peer, uint64_t id)
{
    ez_build_id_(f, EZ_CREATE, peer, id);
}

static inline void ez_build_destroy(EzFrame *f, uint8_t peer, uint64_t id)
{
    ez_build_id_(f, EZ_DESTROY, peer, id);
}

static inline void ez_build_release(EzFrame *f, uint8_t peer, uint64_t id)
{
    ez_build_id_(f, EZ_RELEASE, peer, id);
}

static inline void ez_build_transfer(EzFrame *f, uint8_t peer, uint64_t id, uint8_t to)
{
    ez_build_id_(f, EZ_TRANSFER, peer, id);
    f->bytes[10] = to;
    f->len = 11;
}

static inline size_t ez_put_ids_(uint8_t *at, const uint64_t *ids, size_t n)
{
    for (size_t i = 0; i < n; i++)
        ez_put_id(at + 8 * i, ids[i]);
    return 8 * n;
}

/* A send, or with no destination a seed. */
static inline uint8_t ez_build_lists_(EzFrame *f, uint8_t peer, const uint64_t *to, size_t nd,
                                      const uint64_t *handles, size_t nh, const void *payload, size_t nb)
{
    size_t at = 6;
    f->len = 0;
    if (nd > EZ_MAX_DESTINATIONS || nh > EZ_MAX_HANDLES || nb > EZ_MAX_PAYLOAD)
        return EZ_EMSGSIZE;
    f->bytes[0] = EZ_SEND;
    f->bytes[1] = peer;
    f->bytes[2] = (uint8_t)nd;
    f->bytes[3] = (uint8_t)nh;
    f->bytes[4] = (uint8_t)(nb >> 8);
    f->bytes[5] = (uint8_t)nb;
    at += ez_put_ids_(f->bytes + at, to, nd);
    at += ez_put_ids_(f->bytes + at, handles, nh);
    if (nb > 0)
        memcpy(f->bytes + at, payload, nb);
    f->len = at + nb;
    return EZ_DONE;
}

/* EZ_DONE; EZ_EINVAL without destination, since that frame would set the peer's
 * seed; or EZ_EMSGSIZE where a list or the payload is over its limit. Where it is
 * not EZ_DONE, nothing is written but f->len, which is 0. A list without elements
 * may be NULL. The sizes are tested here before the bus tests anything. */
static inline uint8_t ez_build_send(EzFrame *f, uint8_t peer, const uint64_t *to, size_t nd,
                                    const uint64_t *handles, size_t nh, const void *payload, size_t nb)
{
    f->len = 0;
    return nd == 0 ? EZ_EINVAL : ez_build_lists_(f, peer, to, nd, handles, nh, payload, nb);
}

/* The seed, a send with no destinations. The sizes are tested as in a send. */
static inline uint8_t ez_build_set_seed(EzFrame *f, uint8_t peer, const uint64_t *handles, size_t nh,
                                        const void *payload, size_t nb)
{
    return ez_build_lists_(f, peer, NULL, 0, handles, nh, payload, nb);
}

static inline void ez_build_room_(EzFrame *f, uint8_t command, uint8_t peer, uint16_t room)
{
    ez_build_short_(f, command, peer, (uint8_t)(room >> 8), 4);
    f->bytes[3] = (uint8_t)room;
}

static inline void ez_build_receive(EzFrame *f, uint8_t peer, uint16_t room)
{
    ez_build_room_(f, EZ_RECEIVE, peer, room);
}

static inline void ez_build_show_seed(EzFrame *f, uint8_t peer, uint16_t room)
{
    ez_build_room_(f, EZ_SHOW_SEED, peer, room);
}

static inline void ez_build_quota(EzFrame *f, uint8_t peer, uint8_t user)
{
    ez_build_short_(f, EZ_QUOTA, peer, user, 3);
}

static inline void ez_build_holders(EzFrame *f, uint8_t peer, uint64_t id)
{
    ez_build_id_(f, EZ_HOLDERS, peer, id);
}

/* ---- A decoder for each answer ----
 *
 * Each returns the answer's number, and reads the rest where it is EZ_DONE;
 * EZ_UNREADABLE where the bytes are no answer to such a command. Nothing is
 * read behind len. */

/* Of open, disconnect, create, destroy, release, send and set seed. */
static inline uint8_t ez_decode_plain(const uint8_t *a, size_t len)
{
    return len == 1 ? a[0] : EZ_UNREADABLE;
}

/* The number, where it is a refusal or the answer has the length wanted. */
static inline uint8_t ez_decode_number_(const uint8_t *a, size_t len, size_t wanted)
{
    if (len == 1 && a[0] != EZ_DONE)
        return a[0];
    return len == wanted && a[0] == EZ_DONE ? EZ_DONE : EZ_UNREADABLE;
}

static inline uint8_t ez_decode_transfer(const uint8_t *a, size_t len, uint64_t *there)
{
    uint8_t number = ez_decode_number_(a, len, 9);
    if (number == EZ_DONE)
        *there = ez_get_id(a + 1);
    return number;
}

static inline uint8_t ez_decode_message_(const uint8_t *a, size_t len, EzReceived *r)
{
    if (len < 15 || a[14] > EZ_MAX_HANDLES || len != 15 + 8 * (size_t)a[14] + ez_get_short(a + 12))
        return EZ_UNREADABLE;
    r->user = a[10];
    r->more = a[11];
    r->nb = ez_get_short(a + 12);
    r->nh = a[14];
    for (size_t i = 0; i < a[14]; i++)
        r->handles[i] = ez_get_id(a + 15 + 8 * i);
    r->payload = a + 15 + 8 * (size_t)a[14];
    return EZ_DONE;
}

/* The kind and the ID, of a receive and of 0c. */
static inline uint8_t ez_decode_kind_(const uint8_t *a, size_t len, EzReceived *r)
{
    if (len == 1 && a[0] != EZ_DONE)
        return a[0];
    if (len < 10 || a[0] != EZ_DONE)
        return EZ_UNREADABLE;
    memset(r, 0, sizeof *r);
    r->kind = a[1];
    r->id = ez_get_id(a + 2);
    return EZ_DONE;
}

static inline uint8_t ez_decode_receive(const uint8_t *a, size_t len, EzReceived *r)
{
    uint8_t number = ez_decode_kind_(a, len, r);
    if (number != EZ_DONE)
        return number;
    if (r->kind == EZ_MESSAGE)
        return ez_decode_message_(a, len, r);
    return len == 10 && (a[1] == EZ_NODE_DESTROYED || a[1] == EZ_NODE_RELEASED) ? EZ_DONE : EZ_UNREADABLE;
}

static inline uint8_t ez_decode_show_seed(const uint8_t *a, size_t len, EzReceived *r)
{
    uint8_t number = ez_decode_kind_(a, len, r);
    if (number != EZ_DONE)
        return number;
    return r->kind == EZ_SEED ? ez_decode_message_(a, len, r) : EZ_UNREADABLE;
}

static inline uint8_t ez_decode_quota(const uint8_t *a, size_t len, EzQuota *q)
{
    uint8_t number = ez_decode_number_(a, len, 13);
    if (number != EZ_DONE)
        return number;
    q->messages = ez_get_short(a + 1);
    q->bytes = ez_get_short(a + 3);
    q->handles = ez_get_short(a + 5);
    q->messages_left = (int16_t)ez_get_short(a + 7);
    q->bytes_left = (int16_t)ez_get_short(a + 9);
    q->handles_left = (int16_t)ez_get_short(a + 11);
    return EZ_DONE;
}

/* Bit p of *holders is set where peer p holds a handle. */
static inline uint8_t ez_decode_holders(const uint8_t *a, size_t len, uint8_t *holders)
{
    uint8_t number = ez_decode_number_(a, len, 3);
    if (number == EZ_DONE)
        *holders = a[1];
    return number;
}

/* ---- The bus ---- */

/* Whether this header is the archive's. */
static inline int ez_matches(void)
{
    return eikelzwier_version() == EZ_VERSION_NUMBER;
}

#ifndef EZ_NO_JOURNAL

/* Lends a journal, of which nothing is used: before the first command of a fresh
 * bus. After each command b->journal has what is to be durable, up to b->used
 * (docs/RECOVERY.md). */
static inline void ez_lend_journal(EzBus *b, uint8_t *journal, size_t len)
{
    b->journal = journal;
    b->journal_len = len;
    b->used = 0;
}

/* The bus of the first `kept` bytes of a journal of `len` bytes, which is then
 * lent to go on with. What comes back is as of eikelzwier_recover; EZ_EIO and
 * line 0 also where kept is over len or the versions differ, and then the bus is
 * not written. */
static inline EzRecovery ez_recover(EzBus *b, uint8_t *journal, size_t len, size_t kept)
{
    EzRecovery r = {EZ_EIO, 0, EZ_NO_PLACE, 0};
    ez_lend_journal(b, journal, len);
    if (ez_matches() && kept <= len)
        r = eikelzwier_recover(EZ_LENT(b), journal, kept);
    b->used = r.used;
    return r;
}

static inline EzOutcome ez_command_kept_(EzBus *b, const uint8_t *frame, size_t len)
{
    EzReport r = eikelzwier_command_with_journal(EZ_LENT(b), frame, len, b->answer, sizeof b->answer,
                                                 b->journal, b->journal_len, b->used);
    EzOutcome o = {r.number, r.len};
    b->used = r.used;
    return o;
}

#endif

/* A fresh bus without a journal, whatever was there before. EZ_EIO where the
 * archive is of another version than this header: then every call on the bus is
 * refused with EZ_EIO, and nothing of the archive is called but its version. */
static inline uint8_t ez_init(EzBus *b)
{
#ifndef EZ_NO_JOURNAL
    ez_lend_journal(b, NULL, 0);
#endif
    return ez_matches() ? eikelzwier_fresh(EZ_LENT(b)) : EZ_EIO;
}

/* Any frame. The answer is b->answer, of the length that comes back. */
static inline EzOutcome ez_command(EzBus *b, const uint8_t *frame, size_t len)
{
    if (!ez_matches()) {
        EzOutcome o = {EZ_EIO, 0};
        return o;
    }
#ifndef EZ_NO_JOURNAL
    if (b->journal != NULL)
        return ez_command_kept_(b, frame, len);
#endif
    return eikelzwier_command(EZ_LENT(b), frame, len, b->answer, sizeof b->answer);
}

/* A frame of a builder; the number. */
static inline uint8_t ez_run(EzBus *b, const EzFrame *f)
{
    return ez_command(b, f->bytes, f->len).number;
}

static inline uint8_t ez_open(EzBus *b, uint8_t peer, uint8_t user)
{
    EzFrame f;
    ez_build_open(&f, peer, user);
    return ez_run(b, &f);
}

static inline uint8_t ez_disconnect(EzBus *b, uint8_t peer)
{
    EzFrame f;
    ez_build_disconnect(&f, peer);
    return ez_run(b, &f);
}

/* A node under an ID of the peer's choice, its two lowest bits clear. */
static inline uint8_t ez_create(EzBus *b, uint8_t peer, uint64_t id)
{
    EzFrame f;
    ez_build_create(&f, peer, id);
    return ez_run(b, &f);
}

static inline uint8_t ez_destroy(EzBus *b, uint8_t peer, uint64_t id)
{
    EzFrame f;
    ez_build_destroy(&f, peer, id);
    return ez_run(b, &f);
}

static inline uint8_t ez_release(EzBus *b, uint8_t peer, uint64_t id)
{
    EzFrame f;
    ez_build_release(&f, peer, id);
    return ez_run(b, &f);
}

/* *there: the ID by which the peer `to` knows the node. */
static inline uint8_t ez_transfer(EzBus *b, uint8_t peer, uint64_t id, uint8_t to, uint64_t *there)
{
    EzFrame f;
    ez_build_transfer(&f, peer, id, to);
    EzOutcome o = ez_command(b, f.bytes, f.len);
    return o.number == EZ_DONE ? ez_decode_transfer(b->answer, o.len, there) : o.number;
}

/* A message to each of nd nodes, at least one, with nh handles attached and nb
 * bytes; as ez_build_send tests it. */
static inline uint8_t ez_send(EzBus *b, uint8_t peer, const uint64_t *to, size_t nd,
                              const uint64_t *handles, size_t nh, const void *payload, size_t nb)
{
    EzFrame f;
    uint8_t number = ez_build_send(&f, peer, to, nd, handles, nh, payload, nb);
    return number == EZ_DONE ? ez_run(b, &f) : number;
}

/* The oldest entry of the peer's queue; with EZ_MAX_ROOM every message fits. */
static inline uint8_t ez_receive(EzBus *b, uint8_t peer, uint16_t room, EzReceived *r)
{
    EzFrame f;
    ez_build_receive(&f, peer, room);
    EzOutcome o = ez_command(b, f.bytes, f.len);
    return o.number == EZ_DONE ? ez_decode_receive(b->answer, o.len, r) : o.number;
}

/* Replaces the peer's seed: a message that it keeps for itself, with nh handles
 * attached and nb bytes. It is charged to nobody and stays until it is replaced
 * or the peer disconnects. */
static inline uint8_t ez_set_seed(EzBus *b, uint8_t peer, const uint64_t *handles, size_t nh,
                                  const void *payload, size_t nb)
{
    EzFrame f;
    uint8_t number = ez_build_set_seed(&f, peer, handles, nh, payload, nb);
    return number == EZ_DONE ? ez_run(b, &f) : number;
}

/* Shows the peer's seed without taking it out; EZ_EAGAIN where none is set. Each
 * time it adds a reference for each handle shown, as a receive does. */
static inline uint8_t ez_show_seed(EzBus *b, uint8_t peer, uint16_t room, EzReceived *r)
{
    EzFrame f;
    ez_build_show_seed(&f, peer, room);
    EzOutcome o = ez_command(b, f.bytes, f.len);
    return o.number == EZ_DONE ? ez_decode_show_seed(b->answer, o.len, r) : o.number;
}

/* What a user has queued at the peer. */
static inline uint8_t ez_quota(EzBus *b, uint8_t peer, uint8_t user, EzQuota *q)
{
    EzFrame f;
    ez_build_quota(&f, peer, user);
    EzOutcome o = ez_command(b, f.bytes, f.len);
    return o.number == EZ_DONE ? ez_decode_quota(b->answer, o.len, q) : o.number;
}

/* Who holds a handle to a node of the peer's own, bit p for peer p. */
static inline uint8_t ez_holders(EzBus *b, uint8_t peer, uint64_t id, uint8_t *holders)
{
    EzFrame f;
    ez_build_holders(&f, peer, id);
    EzOutcome o = ez_command(b, f.bytes, f.len);
    return o.number == EZ_DONE ? ez_decode_holders(b->answer, o.len, holders) : o.number;
}

#ifdef __cplusplus
}
#endif

#endif
