/* One player joins above a floor, runs to the right and falls; each step's record is printed. */
#include <ponguriena.h>

#include <stdio.h>

enum { WIDTH = 8, HEIGHT = 4, STEPS = 20, ID = 7 };

static const uint8_t TILES[WIDTH * HEIGHT] = {
    0, 0, 0, 0, 0, 0, 0, 0, /* 0 is open */
    0, 0, 0, 0, 0, 0, 0, 0, /* */
    0, 0, 0, 0, 0, 0, 0, 0, /* */
    1, 1, 1, 1, 1, 1, 1, 1  /* 1 is solid */
};

static int32_t world[PONGURIENA_WORLD];
static int32_t records[PONGURIENA_RECORDS];
static int32_t removed[PONGURIENA_SEATS];

/* Ends the program where a call was refused. */
static int accepted(const char *call, uint32_t answer) {
    if (answer != PONGURIENA_ACCEPTED) {
        fprintf(stderr, "%s is refused with %u\n", call, (unsigned)answer);
    }
    return answer == PONGURIENA_ACCEPTED;
}

int main(void) {
    if (ponguriena_layout() != PONGURIENA_LAYOUT) {
        fprintf(stderr, "this library is not the one of the header\n");
        return 1;
    }
    if (!accepted("fresh", ponguriena_fresh(world, PONGURIENA_WORLD)) ||
        !accepted("join", ponguriena_join(PONGURIENA_REFEREE, world, PONGURIENA_WORLD, WIDTH,
                                          HEIGHT, TILES, sizeof TILES, ID, 20, 40)) ||
        !accepted("input", ponguriena_input(ID, world, PONGURIENA_WORLD, ID, 1, 0, -1, 0, 0))) {
        return 1;
    }
    for (int step = 1; step <= STEPS; step++) {
        size_t count = 0;
        if (!accepted("step", ponguriena_step(PONGURIENA_REFEREE, world, PONGURIENA_WORLD, WIDTH,
                                              HEIGHT, TILES, sizeof TILES, records,
                                              PONGURIENA_RECORDS, removed, PONGURIENA_SEATS,
                                              &count))) {
            return 1;
        }
        /* Of each seat 1 where somebody was there, then the record. */
        const int32_t *seat = records + ID * PONGURIENA_PUBLISHED;
        printf("step %d: x %d, y %d\n", step, (int)seat[2], (int)seat[3]);
    }
    return 0;
}
