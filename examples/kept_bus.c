/*
 * kept_bus FOLDER [PIECE]: a bus that comes back after a power cut.
 *
 * Reads lines of lowercase hexadecimal and writes one answer line each, as the
 * line program does. FOLDER/journal has the journal, FOLDER/version the version
 * of the library that wrote it. At the start the bus is recovered from the
 * journal; then each accepted command is written there and synced before its
 * answer is handed on.
 *
 * With PIECE a line is written so many bytes at a time, each piece synced, as
 * some memories do it; the end of a cut line then shows in the file.
 *
 * Exit status: 0 at the end of the input; 1 if the journal is not of this
 * version, or recovery stops, or does not fit: then nothing of it was touched;
 * 2 if a file cannot be read or written.
 */
#define _POSIX_C_SOURCE 200809L

#include "eikelzwier_bus.h"

#include <errno.h>
#include <fcntl.h>
#include <stdio.h>
#include <stdlib.h>
#include <string.h>
#include <sys/types.h>
#include <unistd.h>

/* docs/RECOVERY.md works out how long a journal must be. */
#define JOURNAL_LEN ((size_t)1 << 20)

static EzBus bus;
static uint8_t journal[JOURNAL_LEN];
static size_t used;

/* The system failed: nothing more is answered. */
static void fail(const char *what)
{
    fprintf(stderr, "kept_bus: %s: %s\n", what, strerror(errno));
    exit(2);
}

static void write_all(int fd, const void *bytes, size_t n, const char *what)
{
    const uint8_t *at = bytes;
    while (n > 0) {
        ssize_t done = write(fd, at, n);
        if (done < 0 && errno != EINTR)
            fail(what);
        if (done > 0) {
            at += done;
            n -= (size_t)done;
        }
    }
}

/* The bytes of a file, at most `most` and one more; -1 if there is none. */
static ssize_t read_file(int folder, const char *name, uint8_t *bytes, size_t most)
{
    int fd = openat(folder, name, O_RDONLY);
    size_t n = 0;
    ssize_t done = 1;
    if (fd < 0 && errno == ENOENT)
        return -1;
    if (fd < 0)
        fail(name);
    while (done != 0 && n <= most) {
        uint8_t one;
        done = n < most ? read(fd, bytes + n, most - n) : read(fd, &one, 1);
        if (done < 0 && errno != EINTR)
            fail(name);
        n += done > 0 ? (size_t)done : 0;
    }
    close(fd);
    return (ssize_t)n;
}

/* The version is durable before the first byte of the journal. */
static void write_version(int folder)
{
    static const char text[] = EZ_VERSION "\n";
    int fd = openat(folder, "version.new", O_WRONLY | O_CREAT | O_TRUNC, 0600);
    if (fd < 0)
        fail("version.new");
    write_all(fd, text, sizeof text - 1, "version.new");
    if (fsync(fd) != 0 || close(fd) != 0)
        fail("version.new");
    if (renameat(folder, "version.new", folder, "version") != 0 || fsync(folder) != 0)
        fail("version");
}

/* A journal of other rules is not recovered. `kept` is -1 where there is none. */
static void check_version(int folder, ssize_t kept)
{
    static const char text[] = EZ_VERSION "\n";
    uint8_t found[64];
    ssize_t n = read_file(folder, "version", found, sizeof found);
    if (n < 0 && kept <= 0) {
        write_version(folder);
        return;
    }
    if (n == sizeof text - 1 && memcmp(found, text, sizeof text - 1) == 0)
        return;
    fprintf(stderr, "kept_bus: the journal is not of version " EZ_VERSION "\n");
    exit(1);
}

/* The bus of the bytes kept. */
static void recover(size_t kept)
{
    EzRecovery r = eikelzwier_recover(EZ_LENT(&bus), journal, kept);
    if (r.number != EZ_DONE) {
        fprintf(stderr, "kept_bus: recovery stops at line %zu\n", r.line);
        exit(1);
    }
    used = r.used;
    fprintf(stderr, "kept_bus: %zu commands recovered, %zu bytes\n", r.line, r.used);
    /* What stands behind may have been a line's front: it must not become one. */
    memset(journal + used, 0xff, JOURNAL_LEN - used);
}

/* The journal's file, cut behind its last whole line; the bus is recovered. */
static int open_journal(const char *name)
{
    int folder = open(name, O_RDONLY | O_DIRECTORY);
    if (folder < 0)
        fail(name);
    ssize_t kept = read_file(folder, "journal", journal, JOURNAL_LEN);
    check_version(folder, kept);
    if (kept > (ssize_t)JOURNAL_LEN) {
        fprintf(stderr, "kept_bus: the journal is over %zu bytes\n", JOURNAL_LEN);
        exit(1);
    }
    recover(kept < 0 ? 0 : (size_t)kept);
    int fd = openat(folder, "journal", O_WRONLY | O_CREAT, 0600);
    if (fd < 0 || ftruncate(fd, (off_t)used) != 0 || lseek(fd, 0, SEEK_END) != (off_t)used)
        fail("journal");
    if (fsync(fd) != 0 || fsync(folder) != 0)
        fail("journal");
    close(folder);
    return fd;
}

/* A line of the journal, durable when this returns. Its LF is written last, when
 * all before it is durable: some memories do not keep the order of two blocks
 * between two syncs, and an LF makes a line of what stands before it. */
static void keep(int fd, const uint8_t *bytes, size_t n, size_t piece)
{
    while (n > 0) {
        size_t rest = n > 1 ? n - 1 : 1;
        size_t now = rest < piece ? rest : piece;
        write_all(fd, bytes, now, "journal");
        if (fdatasync(fd) != 0)
            fail("journal");
        bytes += now;
        n -= now;
    }
}

static int digit(int c)
{
    if (c >= '0' && c <= '9')
        return c - '0';
    return c >= 'a' && c <= 'f' ? c - 'a' + 10 : -1;
}

/* The frame of a line, or -1 where it is none. */
static ssize_t decode(const char *line, size_t n, uint8_t *frame)
{
    if (n == 0 || line[n - 1] != '\n' || n % 2 == 0 || n - 1 > 2 * EZ_FRAME_MAX)
        return -1;
    for (size_t i = 0; i + 1 < n; i += 2) {
        int high = digit(line[i]), low = digit(line[i + 1]);
        if (high < 0 || low < 0)
            return -1;
        frame[i / 2] = (uint8_t)(16 * high + low);
    }
    return (ssize_t)(n / 2);
}

/* Hands an answer on, as one line in one write. */
static void hand_on(const uint8_t *answer, size_t n)
{
    char line[2 * EZ_ANSWER_LEN + 1];
    for (size_t i = 0; i < n; i++) {
        line[2 * i] = "0123456789abcdef"[answer[i] / 16];
        line[2 * i + 1] = "0123456789abcdef"[answer[i] % 16];
    }
    line[2 * n] = '\n';
    write_all(STDOUT_FILENO, line, 2 * n + 1, "output");
}

/* One line: the command, its line in the journal made durable, its answer. */
static void obey(int fd, size_t piece, const char *line, size_t n)
{
    uint8_t frame[EZ_FRAME_MAX], answer[EZ_ANSWER_LEN] = {EZ_EINVAL};
    ssize_t len = decode(line, n, frame);
    if (len < 0) {
        hand_on(answer, 1);
        return;
    }
    EzReport r = eikelzwier_command_with_journal(
        EZ_LENT(&bus), frame, (size_t)len, answer, sizeof answer, journal, JOURNAL_LEN, used);
    keep(fd, journal + used, r.used - used, piece);
    used = r.used;
    hand_on(answer, r.len);
}

int main(int argc, char **argv)
{
    if (argc < 2) {
        fprintf(stderr, "usage: kept_bus FOLDER [PIECE]\n");
        return 2;
    }
    size_t piece = argc > 2 ? strtoul(argv[2], NULL, 10) : 0;
    int fd = open_journal(argv[1]);
    char *line = NULL;
    size_t room = 0;
    ssize_t n;
    while ((n = getline(&line, &room, stdin)) >= 0)
        obey(fd, piece > 0 ? piece : JOURNAL_LEN, line, (size_t)n);
    free(line);
    return ferror(stdin) ? 2 : 0;
}
