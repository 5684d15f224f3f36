/*
 * kills PROGRAM FOLDER SCRIPT KILLS [SEED]: examples/kept_bus killed again and
 * again while it carries out a script, started again each time on what its
 * files hold, and compared with a run that was never cut.
 *
 * The run that was never cut is made here, with the library alone. PROGRAM is a
 * process of its own that writes its journal in pieces; it is killed at least
 * KILLS times, wherever it stands, after a random number of answers and a random
 * wait or when its file has grown. After each kill:
 *   - each answer that it handed on is the one of the run that was never cut;
 *   - the file is the front of that run's journal, to the byte, and no command
 *     whose answer was handed on is missing in it;
 *   - recovery, into buffers of other contents, gives every bus buffer to the
 *     byte as that run had it after as many commands as the file has LFs.
 * Where PROGRAM came to the end of the script, the file is that run's journal,
 * and the next round begins with no files. Kills are added, at most twenty
 * times as many, until one in five fell inside a line and each other kind of
 * cut was seen. No time is compared.
 *
 * Exit status 0, or 1 with a message.
 */
#define _POSIX_C_SOURCE 200809L

#include "eikelzwier_bus.h"

#include <fcntl.h>
#include <inttypes.h>
#include <signal.h>
#include <stdio.h>
#include <stdlib.h>
#include <string.h>
#include <sys/stat.h>
#include <sys/wait.h>
#include <time.h>
#include <unistd.h>

enum { MOST = 4096 };
#define ROOM ((size_t)1 << 20)

/* SplitMix64. */
static uint64_t seed, state;

static size_t below(size_t n)
{
    uint64_t z = state += UINT64_C(0x9e3779b97f4a7c15);
    z = (z ^ (z >> 30)) * UINT64_C(0xbf58476d1ce4e5b9);
    z = (z ^ (z >> 27)) * UINT64_C(0x94d049bb133111eb);
    return (size_t)((z ^ (z >> 31)) % n);
}

static size_t starts;

static void check(int good, const char *what)
{
    if (good)
        return;
    printf("kills: seed %" PRIu64 ", start %zu: %s\n", seed, starts, what);
    exit(1);
}

/* The script: its lines, and where each starts in the file of them. */
static char lines[MOST][2 * EZ_FRAME_MAX + 2];
static size_t line_at[MOST + 1], count;

/* The run that was never cut. After k lines of the script `used_after[k]` bytes
 * were used and `kept_after[k]` commands kept; after n commands kept the bus was
 * *after[n], and `next[n]` lines of the script were done. */
static uint8_t whole[ROOM];
static char *expected[MOST];
static size_t used_after[MOST + 1], kept_after[MOST + 1], next[MOST + 1];
static EzBus bus, *after[MOST + 1];

static int digit(int c)
{
    if (c >= '0' && c <= '9')
        return c - '0';
    return c >= 'a' && c <= 'f' ? c - 'a' + 10 : -1;
}

/* Whether a line is a frame's: pairs of digits and LF. */
static int is_frame(const char *line)
{
    size_t n = strcspn(line, "\n");
    for (size_t i = 0; i < n; i++)
        if (digit(line[i]) < 0)
            return 0;
    return line[n] == '\n' && n % 2 == 0 && n <= 2 * EZ_FRAME_MAX;
}

static void read_script(const char *name, const char *copy)
{
    static char line[1 << 17];
    FILE *from = fopen(name, "r"), *to = fopen(copy, "w");
    check(from && to, "no script, or no copy of it");
    while (count < MOST && fgets(line, sizeof line, from)) {
        if (!is_frame(line))
            continue;
        strcpy(lines[count], line);
        line_at[count + 1] = line_at[count] + strlen(line);
        fputs(line, to);
        count++;
    }
    fclose(from);
    check(fclose(to) == 0, "no copy of the script");
}

static void remember(size_t n, size_t k)
{
    after[n] = malloc(sizeof bus);
    check(after[n] != NULL, "no memory");
    memcpy(after[n], &bus, sizeof bus);
    next[n] = k;
}

static void run_never_cut(void)
{
    uint8_t frame[EZ_FRAME_MAX], answer[EZ_ANSWER_LEN];
    size_t used = 0, kept = 0;
    check(eikelzwier_fresh(EZ_LENT(&bus)) == EZ_DONE, "fresh");
    remember(0, 0);
    for (size_t k = 0; k < count; k++) {
        size_t n = strlen(lines[k]) / 2;
        for (size_t i = 0; i < n; i++)
            frame[i] = (uint8_t)(16 * digit(lines[k][2 * i]) + digit(lines[k][2 * i + 1]));
        EzReport r = eikelzwier_command_with_journal(
            EZ_LENT(&bus), frame, n, answer, sizeof answer, whole, ROOM, used);
        expected[k] = malloc(2 * r.len + 2);
        check(expected[k] != NULL && r.number != EZ_EFBIG, "the script is too long");
        for (size_t i = 0; i < r.len; i++)
            sprintf(expected[k] + 2 * i, "%02x", answer[i]);
        strcat(expected[k], "\n");
        if (r.used > used)
            remember(++kept, k + 1);
        used = used_after[k + 1] = r.used;
        kept_after[k + 1] = kept;
    }
}

static size_t read_journal(const char *name, uint8_t *bytes)
{
    FILE *f = fopen(name, "r");
    size_t n = f ? fread(bytes, 1, ROOM, f) : 0;
    if (f)
        fclose(f);
    return n;
}

static size_t lfs(const uint8_t *bytes, size_t n)
{
    size_t k = 0;
    for (size_t i = 0; i < n; i++)
        k += bytes[i] == '\n';
    return k;
}

/* The program on the lines from `from` on; *out reads what it answers. */
static pid_t start(const char *program, const char *folder, const char *script, size_t from, const char *piece, int *out)
{
    int ends[2], in = open(script, O_RDONLY);
    check(in >= 0 && lseek(in, (off_t)line_at[from], SEEK_SET) >= 0 && pipe(ends) == 0, "no pipe");
    starts++;
    fflush(stdout);
    pid_t child = fork();
    check(child >= 0, "no process");
    if (child == 0) {
        int quiet = open("/dev/null", O_WRONLY);
        dup2(in, 0);
        dup2(ends[1], 1);
        dup2(quiet, 2);
        close(ends[0]);
        execl(program, program, folder, piece, (char *)NULL);
        _exit(127);
    }
    close(in);
    close(ends[1]);
    *out = ends[0];
    return child;
}

/* Looks at the file until it has so many bytes, or often enough. */
static void await_size(const char *name, size_t least)
{
    struct stat found;
    for (int looks = 0; looks < 100000; looks++)
        if (stat(name, &found) == 0 && (size_t)found.st_size >= least)
            return;
}

/* What is waited for before a kill, where so many lines of the script were
 * answered: nothing, a little work, up to twenty milliseconds, the next line
 * begun, or the next line whole. */
static void dawdle(const char *name, size_t answered)
{
    size_t kind = below(8), kept = kept_after[answered];
    if (kind == 3)
        for (volatile size_t i = below(60000); i > 0; i--)
            ;
    else if (kind == 4) {
        struct timespec wait = {0, (long)below(20000) * 1000};
        nanosleep(&wait, NULL);
    } else if (kind == 5)
        await_size(name, used_after[answered] + 1 + below(20));
    else if (kind > 5 && kept < kept_after[count])
        await_size(name, used_after[next[kept + 1]]);
}

/* Reads answers, `most` lines of them, or up to the end; what was read so far is
 * in `text`, of which *n bytes are used. */
static void read_answers(int out, char *text, size_t *n, size_t most)
{
    ssize_t done = 1;
    while (done > 0 && lfs((uint8_t *)text, *n) < most) {
        check(*n + 4096 <= ROOM, "too many answers");
        done = read(out, text + *n, 4096);
        *n += done > 0 ? (size_t)done : 0;
    }
}

/* Each answer is the one of the run that was never cut; how many there are. */
static size_t check_answers(const char *text, size_t n, size_t from)
{
    size_t at = 0, k = 0;
    for (; at < n; k++) {
        check(from + k < count, "more answers than lines");
        size_t len = strlen(expected[from + k]);
        check(n - at >= len && memcmp(text + at, expected[from + k], len) == 0, "another answer");
        at += len;
    }
    return k;
}

/* The file against the run that was never cut, where so many lines of the
 * script were answered; how many whole lines it has. */
static size_t check_file(const uint8_t *kept, size_t n, size_t answered)
{
    static EzBus again;
    check(n <= used_after[count] && memcmp(kept, whole, n) == 0, "another journal");
    check(n >= used_after[answered], "a command whose answer was handed on is lost");
    size_t found = lfs(kept, n);
    memset(&again, 0xaa, sizeof again);
    EzRecovery r = eikelzwier_recover(EZ_LENT(&again), kept, n);
    check(r.number == EZ_DONE && r.line == found && r.place == EZ_NO_PLACE, "recovery");
    check(r.used == used_after[next[found]], "the used length");
    /* The bus buffers stand first in an EzBus. */
    check(memcmp(&again, after[found], offsetof(EzBus, answer)) == 0, "another bus");
    return found;
}

static size_t killed, inside, at_lf, before_answer, at_start, finished, handed_on;

/* `before` is the file's length at the start: a piece that it had then is not
 * of this cut. */
static void count_cut(const uint8_t *kept, size_t n, size_t answered, size_t before)
{
    killed++;
    if (n > 0 && kept[n - 1] != '\n' && n == before)
        at_start++;
    else if (n > 0 && kept[n - 1] != '\n')
        inside++;
    else if (lfs(kept, n) == kept_after[answered])
        at_lf++;
    else
        before_answer++;
}

/* One start and its end, by a kill where `kill_it`; the next start's line. */
static size_t one_start(const char *program, const char *folder, size_t from, int kill_it)
{
    static const char *const pieces[] = {"3", "8", "32", "100", "0"};
    static char text[ROOM], script[4096], name[4096];
    static uint8_t kept[ROOM];
    size_t n = 0;
    int out, status;
    snprintf(script, sizeof script, "%s/script", folder);
    snprintf(name, sizeof name, "%s/journal", folder);
    size_t before = read_journal(name, kept);
    pid_t child = start(program, folder, script, from, kill_it ? pieces[below(5)] : "0", &out);
    read_answers(out, text, &n, kill_it ? below(12) : SIZE_MAX);
    if (kill_it) {
        size_t answers = lfs((uint8_t *)text, n);
        check(from + answers <= count, "more answers than lines");
        dawdle(name, from + answers);
        kill(child, SIGKILL);
        read_answers(out, text, &n, SIZE_MAX);
    }
    close(out);
    check(waitpid(child, &status, 0) == child, "no child");
    size_t answered = from + check_answers(text, n, from);
    handed_on += answered - from;
    size_t length = read_journal(name, kept);
    size_t found = check_file(kept, length, answered);
    if (WIFSIGNALED(status)) {
        count_cut(kept, length, answered, before);
        return next[found];
    }
    check(WEXITSTATUS(status) == 0, "the program failed");
    check(answered == count && length == used_after[count], "the end is another");
    finished++;
    check(unlink(name) == 0, "no file");
    return 0;
}

int main(int argc, char **argv)
{
    char copy[4096];
    check(argc >= 5, "usage: kills PROGRAM FOLDER SCRIPT KILLS [SEED]");
    size_t kills = strtoul(argv[4], NULL, 10), from = 0;
    seed = state = argc > 5 ? strtoull(argv[5], NULL, 10) : (uint64_t)time(NULL);
    snprintf(copy, sizeof copy, "%s/script", argv[2]);
    read_script(argv[3], copy);
    run_never_cut();
    while (killed < 20 * kills && (killed < kills || 5 * inside < kills || !at_lf || !before_answer)) {
        alarm(60);
        from = one_start(argv[1], argv[2], from, 1);
    }
    one_start(argv[1], argv[2], from, 0);
    printf("kills: seed %" PRIu64 ", %zu commands, %zu of them kept in %zu bytes: killed %zu times: %zu inside a line, "
           "%zu at an LF, %zu between write and answer, %zu before recovery; %zu times at the end; %zu answers handed on, "
           "none lost\n",
           seed, count, kept_after[count], used_after[count], killed, inside, at_lf, before_answer, at_start, finished, handed_on);
    check(5 * inside >= kills && at_lf && before_answer, "a kind of cut was not seen often enough");
    return 0;
}
