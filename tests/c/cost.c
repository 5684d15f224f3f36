/*
 * cost plain|kept|recover SCRIPT ROUNDS: what a command costs without a journal
 * and with one, and how fast recovery is. Each round is a script on a fresh bus.
 *
 * For the instructions of a command, run it under callgrind and count one
 * function: valgrind --tool=callgrind --toggle-collect=eikelzwier_command (or
 * eikelzwier_command_with_journal, eikelzwier_recover) cost plain SCRIPT 1. Without valgrind it
 * says nanoseconds a command, and for recover lines a second.
 */
#define _POSIX_C_SOURCE 200809L

#include "eikelzwier_bus.h"

#include <stdio.h>
#include <stdlib.h>
#include <string.h>
#include <time.h>

enum { MOST = 1 << 20 };
#define ROOM ((size_t)64 << 20)

static uint8_t *frames[MOST], *journal;
static size_t lens[MOST], count, kept, used;
static EzBus bus;

static int digit(int c)
{
    return c >= 'a' && c <= 'f' ? c - 'a' + 10 : c >= '0' && c <= '9' ? c - '0' : -1;
}

static void read_script(const char *name)
{
    static char line[1 << 17];
    FILE *f = fopen(name, "r");
    while (f && count < MOST && fgets(line, sizeof line, f)) {
        size_t n = strspn(line, "0123456789abcdef");
        if (line[n] != '\n' || n % 2 != 0 || n > 2 * EZ_FRAME_MAX)
            continue;
        frames[count] = malloc(n / 2 + 1);
        for (size_t i = 0; i < n / 2; i++)
            frames[count][i] = (uint8_t)(16 * digit(line[2 * i]) + digit(line[2 * i + 1]));
        lens[count++] = n / 2;
    }
    if (f)
        fclose(f);
}

static void plain(void)
{
    uint8_t answer[EZ_ANSWER_LEN];
    for (size_t k = 0; k < count; k++)
        eikelzwier_command(EZ_LENT(&bus), frames[k], lens[k], answer, sizeof answer);
}

static void with_journal(void)
{
    uint8_t answer[EZ_ANSWER_LEN];
    used = kept = 0;
    for (size_t k = 0; k < count; k++) {
        size_t before = used;
        used = eikelzwier_command_with_journal(
            EZ_LENT(&bus), frames[k], lens[k], answer, sizeof answer, journal, ROOM, used).used;
        kept += used > before;
    }
}

static double now(void)
{
    struct timespec t;
    clock_gettime(CLOCK_MONOTONIC, &t);
    return (double)t.tv_sec + 1e-9 * (double)t.tv_nsec;
}

int main(int argc, char **argv)
{
    if (argc != 4) {
        fprintf(stderr, "usage: cost plain|kept|recover SCRIPT ROUNDS\n");
        return 2;
    }
    size_t rounds = strtoul(argv[3], NULL, 10);
    double spent = 0;
    journal = malloc(ROOM);
    read_script(argv[2]);
    eikelzwier_fresh(EZ_LENT(&bus));
    if (argv[1][0] == 'r')
        with_journal();
    for (size_t i = 0; i < rounds; i++) {
        if (argv[1][0] != 'r')
            eikelzwier_fresh(EZ_LENT(&bus));
        double start = now();
        if (argv[1][0] == 'p')
            plain();
        else if (argv[1][0] == 'k')
            with_journal();
        else if (eikelzwier_recover(EZ_LENT(&bus), journal, used).line != kept)
            return 1;
        spent += now() - start;
    }
    printf("%zu commands, %zu kept, %zu bytes; ", count, kept, used);
    if (argv[1][0] == 'r')
        printf("%.0f lines a second\n", (double)(rounds * kept) / spent);
    else
        printf("%.1f ns a command\n", 1e9 * spent / (double)(rounds * count));
    return 0;
}
