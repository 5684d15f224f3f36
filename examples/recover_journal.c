/*
 * recover_journal FILE: recovers the bytes of a journal, and says what came of
 * it: the number, the line, the place and the used length; and of the line that
 * stopped it the text, and why it did. The file is only read.
 *
 * Exit status: 0 if every whole line was carried out, 1 if a line stopped it,
 * 2 if the file cannot be read.
 */
#include "eikelzwier_bus.h"

#include <stdio.h>
#include <stdlib.h>
#include <string.h>

static EzBus bus;

/* The bytes of a file, in memory that it allocates. */
static uint8_t *read_file(const char *name, size_t *n)
{
    FILE *f = fopen(name, "rb");
    uint8_t *bytes = NULL;
    size_t room = 1 << 16, done = 1;
    *n = 0;
    if (f == NULL)
        return NULL;
    while (done > 0) {
        uint8_t *more = realloc(bytes, room);
        if (more == NULL)
            break;
        bytes = more;
        done = fread(bytes + *n, 1, room - *n, f);
        *n += done;
        room += *n == room ? room : 0;
    }
    int bad = ferror(f) || done > 0;
    fclose(f);
    if (bad) {
        free(bytes);
        return NULL;
    }
    return bytes;
}

/* Where a line starts, from 1; there are at least so many. */
static const uint8_t *line_start(const uint8_t *bytes, size_t n, size_t line)
{
    const uint8_t *at = bytes;
    for (size_t k = 1; k < line; k++)
        at = (const uint8_t *)memchr(at, '\n', n - (size_t)(at - bytes)) + 1;
    return at;
}

/* The text of a line, what is no printable character as \xNN. */
static void say_text(const uint8_t *at, const uint8_t *end)
{
    printf("text   ");
    for (; at < end; at++)
        if (*at >= ' ' && *at <= '~' && *at != '\\')
            putchar(*at);
        else
            printf("\\x%02x", *at);
    putchar('\n');
}

/* Why a line that is a frame stopped it: what the bus after the lines before it
 * says to the frame. A question is one that the bus answers. */
static void say_why(const uint8_t *bytes, const uint8_t *at, const uint8_t *end)
{
    uint8_t frame[EZ_FRAME_MAX], answer[EZ_ANSWER_LEN];
    size_t n = (size_t)(end - at) / 2;
    for (size_t i = 0; i < n; i++) {
        char pair[3] = {(char)at[2 * i], (char)at[2 * i + 1], 0};
        frame[i] = (uint8_t)strtoul(pair, NULL, 16);
    }
    eikelzwier_recover(EZ_LENT(&bus), bytes, (size_t)(at - bytes));
    EzOutcome o = eikelzwier_command(EZ_LENT(&bus), frame, n, answer, sizeof answer);
    if (o.number == EZ_DONE)
        printf("why    a question\n");
    else
        printf("why    refused with %u\n", o.number);
}

/* The line that stopped it. */
static void say_line(const uint8_t *bytes, size_t n, EzRecovery r)
{
    const uint8_t *at = line_start(bytes, n, r.line);
    const uint8_t *end = memchr(at, '\n', n - (size_t)(at - bytes));
    say_text(at, end);
    if (r.place == EZ_NO_PLACE)
        say_why(bytes, at, end);
    else
        printf("why    no frame\n");
}

int main(int argc, char **argv)
{
    size_t n;
    if (argc != 2) {
        fprintf(stderr, "usage: recover_journal FILE\n");
        return 2;
    }
    uint8_t *bytes = read_file(argv[1], &n);
    if (bytes == NULL) {
        perror(argv[1]);
        return 2;
    }
    EzRecovery r = eikelzwier_recover(EZ_LENT(&bus), bytes, n);
    printf("number %u\nline   %zu\n", r.number, r.line);
    if (r.place == EZ_NO_PLACE)
        printf("place  -\n");
    else
        printf("place  %zu\n", r.place);
    printf("used   %zu of %zu bytes\n", r.used, n);
    if (r.number != EZ_DONE)
        say_line(bytes, n, r);
    free(bytes);
    return r.number == EZ_DONE ? 0 : 1;
}
