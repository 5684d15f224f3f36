/*
 * The message bus core, for C: the functions of libeikelzwier.a, which
 * tools/build-library writes. eikelzwier_bus.h has a bus as one object, with
 * a function for each command; docs/WIRE.md has the frames and the answers by
 * bytes.
 *
 * A bus lives in ten buffers that the caller lends to each call. The library
 * has no state of its own, allocates nothing and calls nothing of the host but
 * memset, and in recovery memcpy. Calls on different buses may run at the same
 * time, calls on one bus may not.
 *
 * Every buffer is passed as a pointer and its number of elements (not bytes).
 * Duties of the caller:
 *   - A pointer is not null, also at length 0, and aligned for its type.
 *   - All elements of the length passed may be read, and written where the
 *     parameter is not const. Nobody else writes them during the call.
 *   - No two buffers of a call overlap, frame, answer and journal included. The library
 *     cannot test this; overlapping buffers are forbidden.
 * All else is tested. Any length and any contents are safe: a call returns, and
 * writes only where this file says.
 *
 * The archive is for x86-64 and its System V calling convention.
 */
#ifndef EIKELZWIER_H
#define EIKELZWIER_H

#include <stddef.h>
#include <stdint.h>

#ifdef __cplusplus
extern "C" {
#endif

/* The version of this header, as a text and as the number that the archive of
 * the same version returns: 10,000 times the first part, 100 times the second,
 * and the third. A later version may have other rules, and a journal belongs to
 * the version that wrote it (docs/RECOVERY.md). */
#define EZ_VERSION "0.6.0"
#define EZ_VERSION_NUMBER 600

/* The version of the archive. Where it is not EZ_VERSION_NUMBER, this header is
 * not the archive's: its functions may have other parameters, and calling them
 * is undefined. eikelzwier_bus.h compares the two before each of its calls. */
uint32_t eikelzwier_version(void);

/* The exact length of each bus buffer, in elements. docs/BUFFERS.md says what
 * stands in each. Together they have 178,824 bytes. */
#define EZ_PEERS_LEN 25      /* uint64_t,    200 bytes */
#define EZ_NODES_LEN 256     /* uint64_t,  2,048 bytes */
#define EZ_HANDLES_LEN 4112  /* uint64_t, 32,896 bytes */
#define EZ_CHARGES_LEN 96    /* uint16_t,    192 bytes */
#define EZ_ENDS_LEN 16       /* uint16_t,     32 bytes */
#define EZ_ENTRIES_LEN 20480 /* uint16_t, 40,960 bytes */
#define EZ_CARRIED_LEN 32768 /* uint8_t,  32,768 bytes */
#define EZ_NUMBERS_LEN 4096  /* uint64_t, 32,768 bytes */
#define EZ_POOL_LEN 32768    /* uint8_t,  32,768 bytes */
#define EZ_SEEDS_LEN 4192    /* uint8_t,   4,192 bytes */

/* The bus buffers in the order in which each function takes them, for code that
 * treats them alike: EACH(with, name, element type, length) of each, and
 * BETWEEN() between two. eikelzwier_bus.h makes a structure and the arguments of
 * a call from it. */
#define EZ_BUFFERS(EACH, BETWEEN, with)                     \
    EACH(with, peers, uint64_t, EZ_PEERS_LEN) BETWEEN()     \
    EACH(with, nodes, uint64_t, EZ_NODES_LEN) BETWEEN()     \
    EACH(with, handles, uint64_t, EZ_HANDLES_LEN) BETWEEN() \
    EACH(with, charges, uint16_t, EZ_CHARGES_LEN) BETWEEN() \
    EACH(with, ends, uint16_t, EZ_ENDS_LEN) BETWEEN()       \
    EACH(with, entries, uint16_t, EZ_ENTRIES_LEN) BETWEEN() \
    EACH(with, carried, uint8_t, EZ_CARRIED_LEN) BETWEEN()  \
    EACH(with, numbers, uint64_t, EZ_NUMBERS_LEN) BETWEEN() \
    EACH(with, pool, uint8_t, EZ_POOL_LEN) BETWEEN()        \
    EACH(with, seeds, uint8_t, EZ_SEEDS_LEN)

/* The least length of an answer buffer, which is that of the longest answer,
 * and the length of the longest frame that is not refused; both in bytes. */
#define EZ_ANSWER_LEN 591
#define EZ_FRAME_MAX 646

/* The numbers that a call returns. A refused command leaves the bus alone. */
#define EZ_DONE 0           /* carried out, or the question answered */
#define EZ_EPERM 1          /* destroy or holders question by a peer not the owner;
                                release of a live node's owner handle at count 1 */
#define EZ_EIO 5            /* a bus buffer lacks its exact length, or a number stored
                                there is out of its range (docs/BUFFERS.md); never in a
                                run from a fresh bus. With a journal also: its used length
                                is over its length; never where both are handed on */
#define EZ_ENXIO 6          /* an ID that the acting peer does not hold */
#define EZ_EBADF 9          /* peer never opened */
#define EZ_EAGAIN 11        /* receive, nothing queued; 0c, no seed set */
#define EZ_EEXIST 17        /* open of an open peer; create with an ID the peer holds */
#define EZ_EINVAL 22        /* answer buffer under 591 bytes; empty frame; wrong length;
                                peer over 7; user over 3; create with ID bit 0 or 1 set */
#define EZ_ENOTTY 25        /* command byte unknown */
#define EZ_EFBIG 27         /* with a journal alone: all else accepts the command, and
                                its line has no room there */
#define EZ_ENOSPC 28        /* create with 16 nodes counted */
#define EZ_ERANGE 34        /* the next message is over the room of the receive, or the
                                seed over that of 0c */
#define EZ_EOVERFLOW 75     /* 2^40 - 1 commands accepted already; not for questions */
#define EZ_EMSGSIZE 90      /* send or seed with over 8 destinations, 8 handles or 512
                                bytes */
#define EZ_ESHUTDOWN 108    /* peer disconnected */
#define EZ_EHOSTUNREACH 113 /* destroy of, transfer of, or send to a destroyed node */
#define EZ_EDQUOT 122       /* quota */

/* What comes back of a command. */
typedef struct EzOutcome {
    uint8_t number; /* EZ_DONE or the refusal */
    size_t len;     /* the answer's length: how many bytes of the answer buffer were
                       written; the bytes behind it are not touched */
} EzOutcome;

/*
 * Makes a fresh bus, no peer opened, whatever the buffers held before.
 *
 * Returns EZ_DONE; or EZ_EIO where a buffer lacks its exact length: then
 * nothing is written.
 */
uint8_t eikelzwier_fresh(
    uint64_t *peers, size_t peers_len,
    uint64_t *nodes, size_t nodes_len,
    uint64_t *handles, size_t handles_len,
    uint16_t *charges, size_t charges_len,
    uint16_t *ends, size_t ends_len,
    uint16_t *entries, size_t entries_len,
    uint8_t *carried, size_t carried_len,
    uint64_t *numbers, size_t numbers_len,
    uint8_t *pool, size_t pool_len,
    uint8_t *seeds, size_t seeds_len);

/*
 * Carries out one command on a bus that eikelzwier_fresh made and other commands left.
 *
 * The frame is the command in bytes, of any length. The answer is written to
 * the front of the answer buffer. Its first byte is the number returned; a
 * refusal writes that byte alone and changes nothing else.
 *
 * Two refusals come before all others, in this order:
 *   - answer_len under EZ_ANSWER_LEN: EZ_EINVAL and length 0, nothing is
 *     written.
 *   - a bus buffer of another length, or a stored number out of its range:
 *     EZ_EIO and length 1.
 *
 * On buffers that no run from a fresh bus left, the call is as safe, but what
 * its answer means is not said here.
 */
EzOutcome eikelzwier_command(
    uint64_t *peers, size_t peers_len,
    uint64_t *nodes, size_t nodes_len,
    uint64_t *handles, size_t handles_len,
    uint16_t *charges, size_t charges_len,
    uint16_t *ends, size_t ends_len,
    uint16_t *entries, size_t entries_len,
    uint8_t *carried, size_t carried_len,
    uint64_t *numbers, size_t numbers_len,
    uint8_t *pool, size_t pool_len,
    uint8_t *seeds, size_t seeds_len,
    const uint8_t *frame, size_t frame_len,
    uint8_t *answer, size_t answer_len);

/* What comes back of a command with a journal. */
typedef struct EzReport {
    uint8_t number; /* EZ_DONE or the refusal */
    size_t len;     /* the answer's length, as in EzOutcome */
    size_t used;    /* the journal's used length, to be passed with the next command */
} EzReport;

/*
 * Carries out one command as eikelzwier_command does, with a journal of which `used`
 * bytes are used, 0 at first.
 *
 * An accepted command that is no question (09, 0a) is appended to the journal
 * as its frame line, two lowercase digits for each byte and LF, before the bus
 * is changed and the answer written. `used` comes back behind the LF. A refusal
 * and a question leave the journal and `used` as they are, and no call writes
 * any other byte of the journal.
 *
 * Beside the refusals of eikelzwier_command:
 *   - used over journal_len: EZ_EIO, beside the other tests for it, behind
 *     the one of the answer buffer.
 *   - the line has no room between used and journal_len: EZ_EFBIG, the last
 *     of all checks. Receives, releases and disconnects are refused by it too;
 *     questions never are.
 *
 * What the caller owes (docs/RECOVERY.md):
 *   - The bus, the journal and `used` go together: each call gets them as the
 *     call before left them.
 *   - The bytes from the old to the new `used` are durable before anybody else
 *     sees the answer.
 *   - Behind `used` there is no LF where recovery may read later.
 */
EzReport eikelzwier_command_with_journal(
    uint64_t *peers, size_t peers_len,
    uint64_t *nodes, size_t nodes_len,
    uint64_t *handles, size_t handles_len,
    uint16_t *charges, size_t charges_len,
    uint16_t *ends, size_t ends_len,
    uint16_t *entries, size_t entries_len,
    uint8_t *carried, size_t carried_len,
    uint64_t *numbers, size_t numbers_len,
    uint8_t *pool, size_t pool_len,
    uint8_t *seeds, size_t seeds_len,
    const uint8_t *frame, size_t frame_len,
    uint8_t *answer, size_t answer_len,
    uint8_t *journal, size_t journal_len,
    size_t used);

/* The place in a recovery that the line reader did not stop. */
#define EZ_NO_PLACE SIZE_MAX

/* What comes back of a recovery. */
typedef struct EzRecovery {
    uint8_t number; /* EZ_DONE or EZ_EIO */
    size_t line;    /* EZ_DONE: how many lines were carried out. EZ_EIO: the line
                       that stopped it, from 1; 0 where a bus buffer lacks its length */
    size_t place;   /* where the line reader refused that line: the place, from 0, of
                       the first fault in it; else EZ_NO_PLACE */
    size_t used;    /* the journal's used length, behind the last LF; 0 with EZ_EIO */
} EzRecovery;

/*
 * Makes the bus again from the bytes kept of a journal, whatever the bus
 * buffers held before: a fresh bus, and on it each whole line carried out. What
 * stands behind the last LF is ignored.
 *
 * A line that is no frame, that is refused or that is a question stops it:
 * EZ_EIO, the line, and a fresh bus. A bus buffer of another length: EZ_EIO
 * and line 0, and nothing is written. The bytes kept may be any, of any number;
 * they are only read.
 *
 * A journal of another version than EZ_VERSION is not for this function: what
 * it makes of one is not said here.
 *
 * To go on, the caller lends a journal that begins with the first `used` of the
 * bytes kept, and has cut off or erased what stands behind them.
 */
EzRecovery eikelzwier_recover(
    uint64_t *peers, size_t peers_len,
    uint64_t *nodes, size_t nodes_len,
    uint64_t *handles, size_t handles_len,
    uint16_t *charges, size_t charges_len,
    uint16_t *ends, size_t ends_len,
    uint16_t *entries, size_t entries_len,
    uint8_t *carried, size_t carried_len,
    uint64_t *numbers, size_t numbers_len,
    uint8_t *pool, size_t pool_len,
    uint8_t *seeds, size_t seeds_len,
    const uint8_t *kept, size_t kept_len);

#ifdef __cplusplus
}
#endif

#endif
