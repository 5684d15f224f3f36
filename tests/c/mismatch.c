/*
 * mismatch: an archive of another version than the header. The functions of the
 * archive are here; all but the version end the program with status 2, so a call
 * that is made in spite of the version shows. Exit status 0, or 1 with a message.
 */
#include "eikelzwier_bus.h"

#include <stdio.h>
#include <stdlib.h>

uint32_t eikelzwier_version(void)
{
    return EZ_VERSION_NUMBER + 1;
}

#define NEVER(type, name, ...) \
    type name(__VA_ARGS__)     \
    {                          \
        exit(2);               \
    }

#define COMMA() ,
#define PARAMETERS(with, name, element, length) element *name, size_t name##_len
#define TABLES EZ_BUFFERS(PARAMETERS, COMMA, )

NEVER(uint8_t, eikelzwier_fresh, TABLES)
NEVER(EzOutcome, eikelzwier_command, TABLES, const uint8_t *j, size_t jl, uint8_t *k, size_t kl)
NEVER(EzReport, eikelzwier_command_with_journal, TABLES, const uint8_t *j, size_t jl, uint8_t *k, size_t kl, uint8_t *l,
      size_t ll, size_t used)
NEVER(EzRecovery, eikelzwier_recover, TABLES, const uint8_t *j, size_t jl)

static EzBus bus;

int main(void)
{
    static uint8_t journal[64];
    static const uint8_t open[3] = {1, 0, 0};
    int good = ez_init(&bus) == EZ_EIO;
    good = good && ez_open(&bus, 0, 0) == EZ_EIO && ez_command(&bus, open, 3).len == 0;
    good = good && ez_recover(&bus, journal, sizeof journal, 0).number == EZ_EIO;
    good = good && ez_open(&bus, 0, 0) == EZ_EIO;
    printf(good ? "mismatch: refused\n" : "mismatch: a call was not refused\n");
    return !good;
}
