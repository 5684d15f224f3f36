/*
 * lamp: the lamp program of a dashboard restarts and must find its nodes. It has
 * put handles to them into its seed, a message that the bus keeps for it. Then it
 * lets go of one, and one is destroyed while it is away. After its restart it
 * knows nothing but its peer number, and reads its seed.
 * The comments say by which rule of docs/WIRE.md each line of lamp.out is so.
 */
#include "eikelzwier_bus.h"

#include <stdio.h>
#include <stdlib.h>

enum { ATLAS, LAMP };
enum { OIL, FUEL, BELT, LAMPS }; /* the warning lamps: one node of the lamp's own, two slots of the atlas */
static const char *const what[LAMPS] = {"oil", "fuel", "belt"};
static EzBus bus;

static void must(uint8_t number) {
    if (number != EZ_DONE) {
        fprintf(stderr, "lamp: %s\n", ez_name(number));
        exit(1);
    }
}
/* The first start: the lamp keeps its handles in its seed, in a known order. */
static void first_start(uint64_t *name) {
    name[OIL] = 4; /* of its own choice */
    must(ez_create(&bus, LAMP, name[OIL]));
    for (int i = FUEL; i < LAMPS; i++) {
        must(ez_create(&bus, ATLAS, 8u * (uint64_t)i));
        must(ez_transfer(&bus, ATLAS, 8u * (uint64_t)i, LAMP, &name[i]));
    }
    must(ez_set_seed(&bus, LAMP, name, LAMPS, "v1", 2));
    for (int i = 0; i < LAMPS; i++)
        printf("the lamp knows %s as %u\n", what[i], (unsigned)name[i]);
}
/* A restart: the nodes are found again by the seed alone. */
static void restart(void) {
    EzReceived seed;
    must(ez_show_seed(&bus, LAMP, EZ_MAX_ROOM, &seed));
    printf("the lamp restarts and reads its seed, %.*s\n", seed.nb, (const char *)seed.payload);
    for (int i = 0; i < seed.nh; i++)
        if (seed.handles[i] == EZ_INVALID_ID)
            printf("%s is destroyed\n", what[i]);
        else
            printf("%s is %u: %s\n", what[i], (unsigned)seed.handles[i],
                   ez_name(ez_send(&bus, LAMP, &seed.handles[i], 1, NULL, 0, "on", 2)));
}
int main(void) {
    uint64_t name[LAMPS];
    must(ez_init(&bus));
    must(ez_open(&bus, ATLAS, 0));
    must(ez_open(&bus, LAMP, 1));
    first_start(name);                        /* 4 of its own choice; 7 and 11, the first that the bus gives it */
    must(ez_release(&bus, LAMP, name[FUEL])); /* this handle is gone, the slot lives: the seed holds no reference */
    must(ez_destroy(&bus, ATLAS, 8 * BELT));  /* destroyed: the seed will show the invalid ID for it */
    restart(); /* oil by the handle it still holds, fuel under a new ID, belt as destroyed */
    restart(); /* the same again: showing the seed leaves it there */
}
