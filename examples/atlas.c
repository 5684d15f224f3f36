/*
 * atlas: the glyph atlas of a dashboard. Each slot is a node of the atlas; gauge,
 * map and lamp hold handles to it. A slot is evicted while a draw for it is still
 * queued, and another glyph takes the slot and its ID: the draw never reaches it.
 * The comments say by which rule of docs/WIRE.md each line of atlas.out is so.
 */
#include "eikelzwier_bus.h"

#include <stdio.h>
#include <stdlib.h>

enum { ATLAS, GAUGE, MAP, LAMP, PROGRAMS };
static const char *const who[PROGRAMS] = {"atlas", "gauge", "map", "lamp"};
static const uint64_t slot = 8; /* its ID at the atlas: of our choice, two lowest bits clear */
static EzBus bus;

static void must(uint8_t number) {
    if (number != EZ_DONE) {
        fprintf(stderr, "atlas: %s\n", ez_name(number));
        exit(1);
    }
}
/* A new glyph in the slot; each program gets its own name for it. */
static void load(uint64_t *name) {
    must(ez_create(&bus, ATLAS, slot));
    for (uint8_t p = GAUGE; p < PROGRAMS; p++) {
        must(ez_transfer(&bus, ATLAS, slot, p, &name[p]));
        printf("%s knows the slot as %u\n", who[p], (unsigned)name[p]);
    }
}
static void draw(uint8_t p, uint64_t name, const char *glyph) {
    uint8_t number = ez_send(&bus, p, &name, 1, NULL, 0, glyph, 1);
    printf("%s draws %s in %u: %s\n", who[p], glyph, (unsigned)name, ez_name(number));
}
static void receive_all(uint8_t p) {
    EzReceived r;
    while (ez_receive(&bus, p, EZ_MAX_ROOM, &r) == EZ_DONE)
        printf("%s receives: %s, %u%s%.*s\n", who[p], ez_kind_name(r.kind), (unsigned)r.id, r.nb > 0 ? ", draw " : "",
               r.nb, r.nb > 0 ? (const char *)r.payload : "");
}
int main(void) {
    uint64_t eight[PROGRAMS], three[PROGRAMS];
    must(ez_init(&bus));
    for (uint8_t p = 0; p < PROGRAMS; p++)
        must(ez_open(&bus, p, p % EZ_USERS));
    load(eight);                    /* 7, three times: the first ID that the bus gives to a peer */
    draw(GAUGE, eight[GAUGE], "8"); /* done: the node lives */
    receive_all(ATLAS);             /* the message, for 8: the destination by its owner's ID */
    draw(MAP, eight[MAP], "8");     /* done: queued, and now the slot is evicted */
    must(ez_destroy(&bus, ATLAS, slot));
    must(ez_release(&bus, ATLAS, slot)); /* with the owner's handle go the messages that are queued for the node */
    load(three);                    /* the owner's ID is free again; the others get 11: no ID is given twice */
    draw(MAP, eight[MAP], "8");     /* EHOSTUNREACH: the map's 7 is the old node still, and that is destroyed */
    draw(LAMP, three[LAMP], "3");   /* done */
    receive_all(ATLAS);             /* the 3 alone: the map's 8 was dropped and reached nothing */
    for (uint8_t p = GAUGE; p < PROGRAMS; p++)
        receive_all(p);             /* destroyed: every holder is told, by its own ID, 7 */
}
