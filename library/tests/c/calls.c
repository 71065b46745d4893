/* Plays a few calls of every kind through the C interface. Says what differs from
 * what is known of each, and ends with 1 if anything does. */
#include "ponguriena.h"

#include <inttypes.h>
#include <stdio.h>
#include <string.h>

#define LENGTH(array) (sizeof(array) / sizeof(array)[0])

enum { REFEREE = PONGURIENA_REFEREE };

/* The last id, and one that no seat has. */
enum { LAST = PONGURIENA_SEATS - 1, NO_SEAT = PONGURIENA_SEATS, NO_TUNING = PONGURIENA_TUNINGS };

typedef struct {
    uint32_t width, height;
    const uint8_t *tiles;
    size_t length;
} Map;

static const uint8_t OPEN_TILES[9] = {0};
static const uint8_t FLOOR_TILES[9] = {0, 0, 0, 0, 0, 0, 1, 1, 3};
static const uint8_t SPIKED_TILES[9] = {0, 0, 2, 0, 0, 2, 0, 0, 2};

static const Map OPEN = {3, 3, OPEN_TILES, 9};
static const Map FLOOR = {3, 3, FLOOR_TILES, 9};
static const Map SPIKED = {3, 3, SPIKED_TILES, 9};
static const Map NO_MAP = {4, 3, OPEN_TILES, 9};

static int32_t world[PONGURIENA_WORLD];
static int32_t records[PONGURIENA_RECORDS];
static int32_t removed[PONGURIENA_SEATS];
static size_t removed_count = 77;
static int32_t sender[PONGURIENA_SENDER];
static int32_t screen[PONGURIENA_SCREEN];
static int32_t passed[PONGURIENA_PASSED];
static size_t passed_count = 77;
static int differences = 0;

static void same(const char *what, int64_t is, int64_t expected) {
    if (is != expected) {
        printf("%s: %" PRId64 ", not %" PRId64 "\n", what, is, expected);
        differences++;
    }
}

static void same_numbers(const char *what, const int32_t *is, const int32_t *expected,
                         size_t count) {
    for (size_t k = 0; k < count; k++) {
        if (is[k] != expected[k]) {
            printf("%s, number %zu: %" PRId32 ", not %" PRId32 "\n", what, k, is[k], expected[k]);
            differences++;
        }
    }
}

static uint32_t fresh(void) { return ponguriena_fresh(world, LENGTH(world)); }

static uint32_t join(Map map, int32_t id, int32_t x, int32_t y) {
    return ponguriena_join(REFEREE, world, LENGTH(world), map.width, map.height, map.tiles,
                           map.length, id, x, y);
}

static uint32_t step(Map map) {
    return ponguriena_step(REFEREE, world, LENGTH(world), map.width, map.height, map.tiles,
                           map.length, records, LENGTH(records), removed, LENGTH(removed),
                           &removed_count);
}

static uint32_t input(int32_t id, const int32_t *n) {
    return ponguriena_input(REFEREE, world, LENGTH(world), id, n[0], n[1], n[2], n[3], n[4]);
}

static uint32_t tune(int32_t index, int32_t value) {
    return ponguriena_tune(REFEREE, world, LENGTH(world), index, value);
}

static uint32_t send_step(Map map) {
    return ponguriena_send_step(REFEREE, world, LENGTH(world), sender, LENGTH(sender), map.width,
                                map.height, map.tiles, map.length, records, LENGTH(records),
                                removed, LENGTH(removed), &removed_count, passed, LENGTH(passed),
                                &passed_count);
}

static uint32_t send_leave(int32_t id) {
    return ponguriena_send_leave(REFEREE, world, LENGTH(world), sender, LENGTH(sender), id, passed,
                                 LENGTH(passed), &passed_count);
}

static uint32_t send_tune(int32_t index, int32_t value) {
    return ponguriena_send_tune(REFEREE, world, LENGTH(world), sender, LENGTH(sender), index,
                                value, passed, LENGTH(passed), &passed_count);
}

static uint32_t shown(int32_t id, int32_t *record) {
    return ponguriena_shown(screen, LENGTH(screen), id, record, PONGURIENA_RECORD);
}

/* All that is passed along arrives. */
static void receive_all(Map map) {
    size_t at = 0;
    while (at < passed_count) {
        size_t used = 0;
        same("receive",
             ponguriena_receive(screen, LENGTH(screen), map.width, map.height, map.tiles,
                                map.length, passed + at, passed_count - at, &used),
             PONGURIENA_ACCEPTED);
        at += used > 0 ? used : 1;
    }
}

/* This header is for this library. */
static void layout(void) { same("layout", ponguriena_layout(), PONGURIENA_LAYOUT); }

/* Angles, and how many entries are read for each. */
static void aims(void) {
    uint32_t read = 77;
    same("aim at nothing", ponguriena_aim(0, 0, &read), 0);
    same("read for it", read, 0);
    same("aim to the right", ponguriena_aim(1, 0, &read), 0);
    same("read for it", read, 403);
    same("aim to the left", ponguriena_aim(-1, 0, &read), 804);
    same("read for it", read, 1);
    same("aim to the lower right", ponguriena_aim(30, -30, &read), -201);
    same("read for it", read, 202);
}

/* The header's names with their numbers, which compiled programs contain. */
#define NUMBER(name, number) same(#name, PONGURIENA_##name, number)

static void numbered_answers(void) {
    NUMBER(ACCEPTED, 0);
    NUMBER(BAD_MAP, 1);
    NUMBER(BAD_ID, 2);
    NUMBER(BAD_TUNING, 3);
    NUMBER(OUT_OF_REACH, 4);
    NUMBER(NOT_CLEAR, 5);
    NUMBER(PRESENT, 7);
    NUMBER(ABSENT, 8);
    NUMBER(TOO_FAR, 9);
    NUMBER(BYTES_END, 11);
    NUMBER(BAD_BYTES, 12);
    NUMBER(NOT_ALLOWED, 13);
    NUMBER(BAD_AREA, 14);
    NUMBER(BAD_TRIAL, 15);
    NUMBER(BAD_HOLD, 16);
    NUMBER(BAD_LENGTH, 17);
}

static void numbered_tunings(void) {
    NUMBER(TUNING_GROUND_CONTROL_SPEED, 0);
    NUMBER(TUNING_GROUND_CONTROL_ACCEL, 1);
    NUMBER(TUNING_GROUND_FRICTION, 2);
    NUMBER(TUNING_GROUND_JUMP_IMPULSE, 3);
    NUMBER(TUNING_AIR_JUMP_IMPULSE, 4);
    NUMBER(TUNING_AIR_CONTROL_SPEED, 5);
    NUMBER(TUNING_AIR_CONTROL_ACCEL, 6);
    NUMBER(TUNING_AIR_FRICTION, 7);
    NUMBER(TUNING_HOOK_LENGTH, 8);
    NUMBER(TUNING_HOOK_FIRE_SPEED, 9);
    NUMBER(TUNING_HOOK_DRAG_ACCEL, 10);
    NUMBER(TUNING_HOOK_DRAG_SPEED, 11);
    NUMBER(TUNING_GRAVITY, 12);
    NUMBER(TUNING_VELRAMP_START, 13);
    NUMBER(TUNING_VELRAMP_RANGE, 14);
    NUMBER(TUNING_VELRAMP_CURVATURE, 15);
    NUMBER(TUNING_PLAYER_COLLISION, 16);
    NUMBER(TUNING_PLAYER_HOOKING, 17);
    NUMBER(TUNING_HOOK_HOLD, 18);
}

static void numbered_lengths(void) {
    NUMBER(SEATS, 64);
    NUMBER(TUNINGS, 19);
    NUMBER(RECORD, 15);
    NUMBER(INPUT, 5);
    NUMBER(SEAT, 22);
    NUMBER(WORLD, 1427);
    NUMBER(PUBLISHED, 16);
    NUMBER(RECORDS, 1024);
    NUMBER(PACKED, 75);
    NUMBER(SEARCH_STEPS, 3);
    NUMBER(WAY, 7);
    NUMBER(COPY, 24);
    NUMBER(SENDER, 1536);
    NUMBER(SCREEN, 1555);
    NUMBER(MESSAGE, 22);
    NUMBER(PASSED, 2838);
    NUMBER(TRIAL_TUNINGS, 8);
    NUMBER(TRIAL_STEPS, 3000);
    NUMBER(TRIAL_JOIN, 3);
    NUMBER(TRIAL_TARGET, 2);
    NUMBER(TRIAL_NEAREST, 3);
    NUMBER(TRIAL_ROW, 193);
}

/* The layout, roles, holds, kinds of what is passed along, and hook states as libtw2 has them. */
static void other_numbers(void) {
    NUMBER(LAYOUT, 1);
    NUMBER(REFEREE, -1);
    NUMBER(BOARD, -2);
    NUMBER(SHORTEST_HOLD, 1);
    NUMBER(LONGEST_HOLD, 60);
    NUMBER(PASSED_MARK, 0);
    NUMBER(PASSED_MESSAGE, 1);
    NUMBER(PASSED_REMOVAL, 2);
    NUMBER(PASSED_LEAVE, 3);
    NUMBER(PASSED_TUNE, 4);
    NUMBER(HOOK_RETRACTED, -1);
    NUMBER(HOOK_IDLE, 0);
    NUMBER(HOOK_RETRACTING0, 1);
    NUMBER(HOOK_RETRACTING1, 2);
    NUMBER(HOOK_RETRACTING2, 3);
    NUMBER(HOOK_FLYING, 4);
    NUMBER(HOOK_ATTACHED_GRABBED, 5);
}

/* One player falls by half a unit in a step. */
static void a_fall(void) {
    static const int32_t fallen[] = {0, 48, 49, 0, 128, 0, 0, 0, -1, 0, 0, 0, 0, 0, 0};
    int32_t record[PONGURIENA_RECORD];
    same("fresh", fresh(), PONGURIENA_ACCEPTED);
    same("join", join(OPEN, 3, 48, 48), PONGURIENA_ACCEPTED);
    same("step", step(OPEN), PONGURIENA_ACCEPTED);
    same("how many are removed", (int64_t)removed_count, 0);
    for (int32_t id = 0; id < PONGURIENA_SEATS; id++) {
        same("presence", records[id * PONGURIENA_PUBLISHED], id == 3);
        same("removed", removed[id], 0);
    }
    same_numbers("published", records + 3 * PONGURIENA_PUBLISHED + 1, fallen, LENGTH(fallen));
    same_numbers("in the world", world + PONGURIENA_TUNINGS + 3 * PONGURIENA_SEAT + 1, fallen,
                 LENGTH(fallen));
    same("record", ponguriena_record(REFEREE, world, LENGTH(world), 3, record, LENGTH(record)),
         PONGURIENA_ACCEPTED);
    same_numbers("record", record, fallen, LENGTH(fallen));
}

/* Every argument of an input comes back from its place. */
static void an_input(void) {
    static const int32_t told[] = {-1, 30, -40, 1, 2};
    int32_t read[PONGURIENA_INPUT];
    same("input", input(3, told), PONGURIENA_ACCEPTED);
    same("player_input",
         ponguriena_player_input(REFEREE, world, LENGTH(world), 3, read, LENGTH(read)),
         PONGURIENA_ACCEPTED);
    same_numbers("player_input", read, told, LENGTH(told));
}

static uint32_t tuning(int32_t index, int32_t *value) {
    return ponguriena_tuning(REFEREE, world, LENGTH(world), index, value);
}

static void tunings(void) {
    int32_t value = 0;
    same("tuning", tuning(PONGURIENA_TUNING_HOOK_LENGTH, &value), PONGURIENA_ACCEPTED);
    same("hook length", value, 38000);
    same("tune", tune(PONGURIENA_TUNING_HOOK_LENGTH, -5), PONGURIENA_ACCEPTED);
    same("tuning", tuning(PONGURIENA_TUNING_HOOK_LENGTH, &value), PONGURIENA_ACCEPTED);
    same("hook length after", value, -5);
    same("tuning 19", tuning(NO_TUNING, &value), PONGURIENA_BAD_TUNING);
    same("tune -1", tune(-1, 0), PONGURIENA_BAD_TUNING);
}

/* Who holds somebody lets go after two steps; a hold that no call wrote counts as the nearest. */
static void holds(void) {
    static const int32_t told[] = {0, 1, 0, 0, 1};
    const int32_t *record = records + PONGURIENA_PUBLISHED + 1;
    int32_t value = 0;
    same("fresh", fresh(), PONGURIENA_ACCEPTED);
    same("the last tuning", PONGURIENA_TUNING_HOOK_HOLD + 1, PONGURIENA_TUNINGS);
    same("a fresh hold", world[PONGURIENA_TUNING_HOOK_HOLD], PONGURIENA_LONGEST_HOLD);
    same("too short", tune(PONGURIENA_TUNING_HOOK_HOLD, PONGURIENA_SHORTEST_HOLD - 1),
         PONGURIENA_BAD_HOLD);
    same("too long", tune(PONGURIENA_TUNING_HOOK_HOLD, PONGURIENA_LONGEST_HOLD + 1),
         PONGURIENA_BAD_HOLD);
    same("no tuning", tune(NO_TUNING, PONGURIENA_SHORTEST_HOLD - 1),
         PONGURIENA_BAD_TUNING);
    same("join", join(OPEN, 1, 0, 0), PONGURIENA_ACCEPTED);
    same("join", join(OPEN, 2, 100, 0), PONGURIENA_ACCEPTED);
    same("input", input(1, told), PONGURIENA_ACCEPTED);
    same("tune", tune(PONGURIENA_TUNING_HOOK_HOLD, 2), PONGURIENA_ACCEPTED);
    for (int32_t tick = 1; tick <= 2; tick++) {
        same("step", step(OPEN), PONGURIENA_ACCEPTED);
        same("held", record[8], 2);
        same("grabbed", record[9], PONGURIENA_HOOK_ATTACHED_GRABBED);
        same("tick", record[10], tick);
    }
    same("step", step(OPEN), PONGURIENA_ACCEPTED);
    same("retracted", record[9], PONGURIENA_HOOK_RETRACTED);
    world[PONGURIENA_TUNING_HOOK_HOLD] = -7;
    same("tuning", tuning(PONGURIENA_TUNING_HOOK_HOLD, &value), PONGURIENA_ACCEPTED);
    same("the nearest hold", value, PONGURIENA_SHORTEST_HOLD);
    same("step", step(OPEN), PONGURIENA_ACCEPTED);
    same("as it was", world[PONGURIENA_TUNING_HOOK_HOLD], -7);
}

/* With id 3 present. A refused call leaves the world as it was. */
static void refusals(void) {
    int32_t before[PONGURIENA_WORLD];
    int32_t record[PONGURIENA_RECORD];
    static const int32_t nothing[PONGURIENA_INPUT] = {0};
    memcpy(before, world, sizeof world);
    same("join without a map", join(NO_MAP, NO_SEAT, 0, 0), PONGURIENA_BAD_MAP);
    same("step without a map", step(NO_MAP), PONGURIENA_BAD_MAP);
    same("join of no seat", join(FLOOR, NO_SEAT, 100001, 0), PONGURIENA_BAD_ID);
    same("leave of -1", ponguriena_leave(REFEREE, world, LENGTH(world), -1), PONGURIENA_BAD_ID);
    same("join far away", join(FLOOR, 3, 48, -100001), PONGURIENA_OUT_OF_REACH);
    same("join in the floor", join(FLOOR, 3, 48, 64), PONGURIENA_NOT_CLEAR);
    same("join again", join(FLOOR, 3, 48, 48), PONGURIENA_PRESENT);
    same("leave of 4", ponguriena_leave(REFEREE, world, LENGTH(world), 4), PONGURIENA_ABSENT);
    same("input of 4", input(4, nothing), PONGURIENA_ABSENT);
    same("record of 4", ponguriena_record(REFEREE, world, LENGTH(world), 4, record, LENGTH(record)),
         PONGURIENA_ABSENT);
    same_numbers("world after refusals", world, before, LENGTH(before));
}

/* One number less is a wrong length, and is found before all but the role. */
static void lengths(void) {
    const size_t less = LENGTH(world) - 1;
    int32_t number = 0;
    same("fresh", ponguriena_fresh(world, less), PONGURIENA_BAD_LENGTH);
    same("join", ponguriena_join(REFEREE, world, less, 0, 0, OPEN_TILES, 9, NO_SEAT, 0, 0),
         PONGURIENA_BAD_LENGTH);
    same("leave", ponguriena_leave(REFEREE, world, less, NO_SEAT), PONGURIENA_BAD_LENGTH);
    same("input", ponguriena_input(REFEREE, world, less, NO_SEAT, 0, 0, 0, 0, 0),
         PONGURIENA_BAD_LENGTH);
    same("tune", ponguriena_tune(REFEREE, world, less, NO_TUNING, 0), PONGURIENA_BAD_LENGTH);
    same("step",
         ponguriena_step(REFEREE, world, LENGTH(world), 0, 0, OPEN_TILES, 9, records,
                         LENGTH(records) - 1, removed, LENGTH(removed), &removed_count),
         PONGURIENA_BAD_LENGTH);
    same("step with few to remove",
         ponguriena_step(REFEREE, world, LENGTH(world), 0, 0, OPEN_TILES, 9, records,
                         LENGTH(records), removed, LENGTH(removed) - 1, &removed_count),
         PONGURIENA_BAD_LENGTH);
    same("record", ponguriena_record(REFEREE, world, LENGTH(world), NO_SEAT, &number, 1),
         PONGURIENA_BAD_LENGTH);
    same("player_input",
         ponguriena_player_input(REFEREE, world, LENGTH(world), NO_SEAT, &number, 1),
         PONGURIENA_BAD_LENGTH);
    same("tuning", ponguriena_tuning(REFEREE, world, less, NO_TUNING, &number), PONGURIENA_BAD_LENGTH);
    same("mark", ponguriena_floor_mark(REFEREE, world, less, NO_SEAT, &number),
         PONGURIENA_BAD_LENGTH);
}

/* A hook that would fly too far refuses the step. */
static void a_step_too_far(void) {
    static const int32_t hook[] = {0, 1, 0, 0, 1};
    int32_t before[PONGURIENA_WORLD];
    same("hook length", tune(8, INT32_MAX), PONGURIENA_ACCEPTED);
    same("hook fire speed", tune(9, INT32_MAX), PONGURIENA_ACCEPTED);
    same("input", input(3, hook), PONGURIENA_ACCEPTED);
    memcpy(before, world, sizeof world);
    same("step too far", step(OPEN), PONGURIENA_TOO_FAR);
    same_numbers("world after it", world, before, LENGTH(before));
}

/* Who leaves is as if never there. */
static void a_leave(void) {
    int32_t left[PONGURIENA_WORLD];
    same("leave", ponguriena_leave(REFEREE, world, LENGTH(world), 3), PONGURIENA_ACCEPTED);
    memcpy(left, world, sizeof world);
    same("fresh", fresh(), PONGURIENA_ACCEPTED);
    same_numbers("seats", left + PONGURIENA_TUNINGS, world + PONGURIENA_TUNINGS,
                 PONGURIENA_WORLD - PONGURIENA_TUNINGS);
}

/* Who joins has no mark, also on a floor. A refused call leaves what was there. */
static void a_floor(void) {
    int32_t mark = -7;
    same("fresh", fresh(), PONGURIENA_ACCEPTED);
    same("mark of 3", ponguriena_floor_mark(REFEREE, world, LENGTH(world), 3, &mark),
         PONGURIENA_ABSENT);
    same("mark of no seat", ponguriena_floor_mark(REFEREE, world, LENGTH(world), NO_SEAT, &mark),
         PONGURIENA_BAD_ID);
    same("mark after refusals", mark, -7);
    same("join", join(FLOOR, 3, 48, 49), PONGURIENA_ACCEPTED);
    same("mark", ponguriena_floor_mark(REFEREE, world, LENGTH(world), 3, &mark),
         PONGURIENA_ACCEPTED);
    same("mark after the join", mark, 0);
    same("step", step(FLOOR), PONGURIENA_ACCEPTED);
    same("mark", ponguriena_floor_mark(REFEREE, world, LENGTH(world), 3, &mark),
         PONGURIENA_ACCEPTED);
    same("mark on the floor", mark, 1);
    same("in the world", world[PONGURIENA_TUNINGS + 4 * PONGURIENA_SEAT - 1], 1);
}

/* The records are those of all; of the buffers a refused step writes none. */
static void spikes(void) {
    static const int32_t dead[PONGURIENA_SEATS] = {2, 7};
    same("fresh", fresh(), PONGURIENA_ACCEPTED);
    same("join of 7", join(SPIKED, 7, 80, 20), PONGURIENA_ACCEPTED);
    same("join of 2", join(SPIKED, 2, 50, 80), PONGURIENA_ACCEPTED);
    same("join of 4", join(SPIKED, 4, 10, 20), PONGURIENA_ACCEPTED);
    removed_count = 77;
    same("step without a map", step(NO_MAP), PONGURIENA_BAD_MAP);
    same("count after a refusal", (int64_t)removed_count, 77);
    same("step", step(SPIKED), PONGURIENA_ACCEPTED);
    same("how many are removed", (int64_t)removed_count, 2);
    same_numbers("removed", removed, dead, LENGTH(dead));
    for (int32_t id = 0; id < PONGURIENA_SEATS; id++) {
        same("record", records[id * PONGURIENA_PUBLISHED], id == 2 || id == 4 || id == 7);
        same("seat", world[PONGURIENA_TUNINGS + id * PONGURIENA_SEAT], id == 4);
    }
    same("leave of 7", ponguriena_leave(REFEREE, world, LENGTH(world), 7), PONGURIENA_ABSENT);
}

/* The first holds the last, who leaves. */
static void the_last_seat(void) {
    static const int32_t hook[] = {0, 1, 0, 0, 1};
    int32_t record[PONGURIENA_RECORD];
    same("seats", PONGURIENA_SEATS, 64);
    same("fresh", fresh(), PONGURIENA_ACCEPTED);
    same("join of 0", join(OPEN, 0, 0, 0), PONGURIENA_ACCEPTED);
    same("join of the last", join(OPEN, LAST, 110, 0), PONGURIENA_ACCEPTED);
    same("input", input(0, hook), PONGURIENA_ACCEPTED);
    same("step", step(OPEN), PONGURIENA_ACCEPTED);
    for (int32_t id = 0; id < PONGURIENA_SEATS; id++) {
        same("record", records[id * PONGURIENA_PUBLISHED], id == 0 || id == LAST);
    }
    same("held", records[1 + 8], LAST);
    same("leave of the last", ponguriena_leave(REFEREE, world, LENGTH(world), LAST),
         PONGURIENA_ACCEPTED);
    same("record of 0", ponguriena_record(REFEREE, world, LENGTH(world), 0, record, LENGTH(record)),
         PONGURIENA_ACCEPTED);
    same("held after the leave", record[8], -1);
    same("leave again", ponguriena_leave(REFEREE, world, LENGTH(world), LAST), PONGURIENA_ABSENT);
}

/* A step is passed along: how many numbers, and what the screen shows of id 3. */
static void sent(Map map, size_t count, int32_t y) {
    int32_t record[PONGURIENA_RECORD];
    same("send_step", send_step(map), PONGURIENA_ACCEPTED);
    same("numbers passed along", (int64_t)passed_count, (int64_t)count);
    same("the mark", passed[0], PONGURIENA_PASSED_MARK);
    receive_all(map);
    same("shown", shown(3, record), PONGURIENA_ACCEPTED);
    same("the y that is shown", record[2], y);
    same_numbers("shown", record, records + 3 * PONGURIENA_PUBLISHED + 1, LENGTH(record));
}

/* Who falls alone is sent once; who is told something is sent again, and so is who joins anew. */
static void surprises(void) {
    static const int32_t right[] = {1, 0, 0, 0, 0};
    int32_t record[PONGURIENA_RECORD];
    same("fresh", fresh(), PONGURIENA_ACCEPTED);
    same("sender_fresh", ponguriena_sender_fresh(sender, LENGTH(sender)), PONGURIENA_ACCEPTED);
    same("screen_fresh", ponguriena_screen_fresh(screen, LENGTH(screen)), PONGURIENA_ACCEPTED);
    same("join", join(OPEN, 3, 48, 48), PONGURIENA_ACCEPTED);
    same("nothing is shown", shown(3, record), PONGURIENA_ABSENT);
    sent(OPEN, 1 + PONGURIENA_MESSAGE, 49);
    same("the message", passed[1], PONGURIENA_PASSED_MESSAGE);
    same("of whom", passed[2], 3);
    sent(OPEN, 1, 50);
    same("input", input(3, right), PONGURIENA_ACCEPTED);
    sent(OPEN, 1 + PONGURIENA_MESSAGE, 52);
    same("its input", passed[3 + PONGURIENA_RECORD], 1);
    same("send_tune", send_tune(12, 0), PONGURIENA_ACCEPTED);
    same("numbers of a tuning", (int64_t)passed_count, 3);
    receive_all(OPEN);
    same("the tuning on the screen", screen[12], 0);
    sent(OPEN, 1, 54);
    same("send_leave", send_leave(3), PONGURIENA_ACCEPTED);
    same("numbers of a leave", (int64_t)passed_count, 2);
    same("the leave", passed[0], PONGURIENA_PASSED_LEAVE);
    receive_all(OPEN);
    same("nothing is shown any more", shown(3, record), PONGURIENA_ABSENT);
    same("nobody is there", send_leave(3), PONGURIENA_ABSENT);
    same("count after a refusal", (int64_t)passed_count, 2);
}

/* What is refused leaves every number. */
static void refused_sending(void) {
    static const int32_t no_seat[] = {PONGURIENA_PASSED_REMOVAL, NO_SEAT};
    static const int32_t no_tuning[] = {PONGURIENA_PASSED_TUNE, -1, 0};
    int32_t before[PONGURIENA_SCREEN];
    int32_t record[PONGURIENA_RECORD];
    size_t used = 77;
    memcpy(before, screen, sizeof screen);
    same("leave of no seat", send_leave(NO_SEAT), PONGURIENA_BAD_ID);
    same("tune 19", send_tune(NO_TUNING, 0), PONGURIENA_BAD_TUNING);
    same("hold 61", send_tune(PONGURIENA_TUNING_HOOK_HOLD, 61), PONGURIENA_BAD_HOLD);
    same("step without a map", send_step(NO_MAP), PONGURIENA_BAD_MAP);
    same("removal of no seat",
         ponguriena_receive(screen, LENGTH(screen), 3, 3, OPEN_TILES, 9, no_seat, 2, &used),
         PONGURIENA_BAD_ID);
    same("tuning of -1",
         ponguriena_receive(screen, LENGTH(screen), 3, 3, OPEN_TILES, 9, no_tuning, 3, &used),
         PONGURIENA_BAD_TUNING);
    same("half a tuning",
         ponguriena_receive(screen, LENGTH(screen), 3, 3, OPEN_TILES, 9, no_tuning, 2, &used),
         PONGURIENA_BAD_LENGTH);
    same("used after refusals", (int64_t)used, 77);
    same("shown of -1", shown(-1, record), PONGURIENA_BAD_ID);
    same("sender_fresh", ponguriena_sender_fresh(sender, LENGTH(sender) - 1),
         PONGURIENA_BAD_LENGTH);
    same("screen_fresh", ponguriena_screen_fresh(screen, LENGTH(screen) + 1),
         PONGURIENA_BAD_LENGTH);
    same_numbers("screen after refusals", screen, before, LENGTH(before));
}

/* A message and a removal of the same id, in one step. */
static void sent_from_spikes(void) {
    int32_t record[PONGURIENA_RECORD];
    same("join", join(SPIKED, 7, 80, 20), PONGURIENA_ACCEPTED);
    same("send_step", send_step(SPIKED), PONGURIENA_ACCEPTED);
    same("how many are removed", (int64_t)removed_count, 1);
    same("numbers passed along", (int64_t)passed_count, 1 + PONGURIENA_MESSAGE + 2);
    same("the removal", passed[1 + PONGURIENA_MESSAGE], PONGURIENA_PASSED_REMOVAL);
    same("of whom", passed[2 + PONGURIENA_MESSAGE], 7);
    receive_all(SPIKED);
    same("nothing is shown of the dead", shown(7, record), PONGURIENA_ABSENT);
}

/* Every call that takes a world, with lengths, ids and a map that would be refused too. */
static void not_allowed(const char *who, int32_t role) {
    const size_t less = LENGTH(world) - 1;
    const uint32_t no = PONGURIENA_NOT_ALLOWED;
    same(who, ponguriena_join(role, world, less, 0, 0, OPEN_TILES, 9, NO_SEAT, 0, 0), no);
    same(who, ponguriena_leave(role, world, less, NO_SEAT), no);
    same(who, ponguriena_input(role, world, less, -1, 0, 0, 0, 0, 0), no);
    same(who, ponguriena_tune(role, world, less, NO_TUNING, 0), no);
    same(who,
         ponguriena_step(role, world, less, 0, 0, OPEN_TILES, 9, records, 1, removed, 1,
                         &removed_count),
         no);
    same(who, ponguriena_player_input(role, world, less, -1, records, 1), no);
    same(who, ponguriena_tuning(role, world, less, NO_TUNING, records), no);
    same(who,
         ponguriena_search(role, world, less, 0, 0, OPEN_TILES, 9, NO_SEAT, 0, 0, records, 1), no);
    same(who, ponguriena_send_leave(role, world, less, sender, 1, -1, passed, 1, &passed_count),
         no);
    same(who, ponguriena_send_tune(role, world, less, sender, 1, NO_TUNING, 0, passed, 1, &passed_count),
         no);
    same(who,
         ponguriena_send_step(role, world, less, sender, 1, 0, 0, OPEN_TILES, 9, records, 1,
                              removed, 1, &removed_count, passed, 1, &passed_count),
         no);
}

/* Records and floor marks, which boards may read. */
static void not_allowed_to_read(const char *who, int32_t role) {
    same(who, ponguriena_record(role, world, 0, -1, records, 1), PONGURIENA_NOT_ALLOWED);
    same(who, ponguriena_floor_mark(role, world, 0, -1, records), PONGURIENA_NOT_ALLOWED);
}

/* With id 3 present. What is beyond a role leaves every number. */
static void roles(void) {
    int32_t before[PONGURIENA_WORLD];
    int32_t record[PONGURIENA_RECORD];
    int32_t mark = -7;
    same("fresh", fresh(), PONGURIENA_ACCEPTED);
    same("join", join(OPEN, 3, 48, 48), PONGURIENA_ACCEPTED);
    memcpy(before, world, sizeof world);
    memset(records, 0, sizeof records);
    removed_count = passed_count = 77;
    not_allowed("seat 3", 3);
    not_allowed("seat 64", NO_SEAT);
    not_allowed("board", PONGURIENA_BOARD);
    not_allowed("no role", -3);
    not_allowed("no role at the end", INT32_MIN);
    not_allowed_to_read("seat 3", 3);
    not_allowed_to_read("no role", -3);
    same_numbers("world after it", world, before, LENGTH(before));
    same("records after it", records[0], 0);
    same("counts after it", (int64_t)(removed_count + passed_count), 2 * 77);
    same("own input", ponguriena_input(3, world, LENGTH(world), 3, 1, 2, 3, 4, 5), 0);
    same("in the world", world[PONGURIENA_TUNINGS + 4 * PONGURIENA_SEAT - 6], 1);
    same("input of 4", ponguriena_input(4, world, LENGTH(world), 4, 1, 2, 3, 4, 5),
         PONGURIENA_ABSENT);
    same("input of no seat",
         ponguriena_input(NO_SEAT, world, LENGTH(world), NO_SEAT, 0, 0, 0, 0, 0),
         PONGURIENA_BAD_ID);
    same("board reads",
         ponguriena_record(PONGURIENA_BOARD, world, LENGTH(world), 3, record, LENGTH(record)), 0);
    same("the y that is read", record[2], 48);
    same("board reads", ponguriena_floor_mark(PONGURIENA_BOARD, world, LENGTH(world), 3, &mark), 0);
    same("the mark that is read", mark, 0);
}

static void packing(void) {
    int32_t record[PONGURIENA_RECORD] = {0, 64, -1};
    int32_t back[PONGURIENA_RECORD] = {0};
    uint8_t bytes[PONGURIENA_PACKED];
    size_t count = 0;
    size_t used = 0;
    same("pack", ponguriena_pack(record, PONGURIENA_RECORD, bytes, PONGURIENA_PACKED, &count), 0);
    same("count", (int32_t)count, 16);
    same("the sign", bytes[3], 0x40);
    same("unpack", ponguriena_unpack(bytes, count, back, PONGURIENA_RECORD, &used), 0);
    same("used", (int32_t)used, 16);
    same("x comes back", back[1], 64);
    same("y comes back", back[2], -1);
    same("cut off", ponguriena_unpack(bytes, 15, back, PONGURIENA_RECORD, &used),
         PONGURIENA_BYTES_END);
    same("short record", ponguriena_unpack(bytes, count, back, 14, &used), PONGURIENA_BAD_LENGTH);
}

/* Three solid tiles in the last row; one above becomes solid. What is refused writes nothing. */
static void areas(void) {
    uint8_t tiles[9];
    uint32_t totals[9] = {0};
    uint32_t count = 77;
    memcpy(tiles, FLOOR_TILES, sizeof tiles);
    same("build", ponguriena_area_build(3, 3, tiles, 9, totals, 9), 0);
    same("all", totals[8], 3);
    same("above", ponguriena_area_count(3, 3, tiles, 9, totals, 9, 0, 0, 3, 2, &count), 0);
    same("clear", count, 0);
    same("below", ponguriena_area_count(3, 3, tiles, 9, totals, 9, 1, 1, 2, 2, &count), 0);
    same("not clear", count, 2);
    same("change", ponguriena_area_change(3, 3, tiles, 9, totals, 9, 2, 1, 3), 0);
    same("the byte", tiles[5], 3);
    same("above", ponguriena_area_count(3, 3, tiles, 9, totals, 9, 0, 0, 3, 2, &count), 0);
    same("no more clear", count, 1);
    same("no map", ponguriena_area_count(4, 3, tiles, 9, totals, 8, 0, 0, 0, 1, &count),
         PONGURIENA_BAD_MAP);
    same("no tiles", ponguriena_area_count(3, 3, tiles, 9, totals, 9, 0, 0, 0, 1, &count),
         PONGURIENA_BAD_AREA);
    same("count after refusals", count, 1);
    same("few totals", ponguriena_area_build(3, 3, tiles, 9, totals, 8), PONGURIENA_BAD_AREA);
    same("outside", ponguriena_area_change(3, 3, tiles, 9, totals, 9, 3, 1, 0),
         PONGURIENA_BAD_AREA);
}

/* Under the game's tunings, and under those with the players' speed on the ground a tenth of it. */
static int32_t trial_tunings[2 * PONGURIENA_TUNINGS];
static int32_t trial_result[2 * PONGURIENA_TRIAL_ROW];

static uint32_t trial(Map map, const int32_t *joins, size_t players, const int32_t *targets,
                      size_t target_count, int32_t steps) {
    return ponguriena_trial(map.width, map.height, map.tiles, map.length, joins,
                            players * PONGURIENA_TRIAL_JOIN, targets,
                            target_count * PONGURIENA_TRIAL_TARGET, trial_tunings,
                            LENGTH(trial_tunings), steps, trial_result, LENGTH(trial_result));
}

/* Steps done, distance and step of the last seat. */
static void same_row(const char *what, const int32_t *row, int32_t steps, int32_t distance,
                     int32_t step) {
    same(what, row[0], steps);
    same(what, row[1], 0);
    same(what, row[PONGURIENA_TRIAL_ROW - 3], 1);
    same(what, row[PONGURIENA_TRIAL_ROW - 2], distance);
    same(what, row[PONGURIENA_TRIAL_ROW - 1], step);
}

/* One runs to the right; what is refused writes nothing. */
static void trials(void) {
    static const int32_t joins[] = {LAST, 20, 49, LAST, 20, 49};
    static const int32_t targets[] = {PONGURIENA_SEATS, 1, 0, 0};
    const size_t tunings = PONGURIENA_TUNINGS * sizeof *world;
    same("fresh", fresh(), PONGURIENA_ACCEPTED);
    memcpy(trial_tunings, world, tunings);
    memcpy(trial_tunings + PONGURIENA_TUNINGS, world, tunings);
    trial_tunings[PONGURIENA_TUNINGS + PONGURIENA_TUNING_GROUND_CONTROL_SPEED] /= 10;
    same("trial", trial(FLOOR, joins, 1, targets, 1, 30), PONGURIENA_ACCEPTED);
    same_row("under the game's tunings", trial_result, 30, 0, 7);
    same_row("under slow ones", trial_result + PONGURIENA_TRIAL_ROW, 30, 1, 12);
    same("no map", trial(NO_MAP, joins, 1, targets, 1, -1), PONGURIENA_BAD_MAP);
    same("too many steps", trial(FLOOR, joins, 2, targets, 2, PONGURIENA_TRIAL_STEPS + 1),
         PONGURIENA_BAD_TRIAL);
    same("joined twice", trial(FLOOR, joins, 2, targets, 2, 1), PONGURIENA_PRESENT);
    trial_tunings[PONGURIENA_TUNINGS + PONGURIENA_TUNING_HOOK_HOLD] = 0;
    same("a hold of 0", trial(FLOOR, joins, 2, targets, 2, 1), PONGURIENA_BAD_HOLD);
    same("one target", trial(NO_MAP, joins, 2, targets, 1, 1), PONGURIENA_BAD_LENGTH);
    same_row("after refusals", trial_result, 30, 0, 7);
}

static uint32_t search(int32_t role, Map map, int32_t id, int32_t x, int32_t way[PONGURIENA_WAY]) {
    return ponguriena_search(role, world, LENGTH(world), map.width, map.height, map.tiles,
                             map.length, id, x, 49, way, PONGURIENA_WAY);
}

/* Two steps to the right; the world stays, and what is refused writes nothing. */
static void searches(void) {
    static const int32_t right_twice[PONGURIENA_WAY] = {2, 1, 0, 1, 0, 0, 0};
    static const int32_t nowhere[PONGURIENA_WAY] = {0};
    int32_t before[PONGURIENA_WORLD];
    int32_t way[PONGURIENA_WAY];
    same("fresh", fresh(), PONGURIENA_ACCEPTED);
    same("join", join(FLOOR, 7, 40, 49), PONGURIENA_ACCEPTED);
    memcpy(before, world, sizeof world);
    memset(way, -1, sizeof way);
    same("search", search(REFEREE, FLOOR, 7, 46, way), PONGURIENA_ACCEPTED);
    same_numbers("way", way, right_twice, LENGTH(way));
    same("search", search(REFEREE, FLOOR, 7, 90, way), PONGURIENA_ACCEPTED);
    same_numbers("no way", way, nowhere, LENGTH(way));
    same("search", search(REFEREE, FLOOR, 7, 46, way), PONGURIENA_ACCEPTED);
    same("board", search(PONGURIENA_BOARD, NO_MAP, NO_SEAT, 46, way), PONGURIENA_NOT_ALLOWED);
    same("seat 7", search(7, FLOOR, 7, 46, way), PONGURIENA_NOT_ALLOWED);
    same("no map", search(REFEREE, NO_MAP, NO_SEAT, 46, way), PONGURIENA_BAD_MAP);
    same("no seat", search(REFEREE, FLOOR, NO_SEAT, 46, way), PONGURIENA_BAD_ID);
    same("nobody", search(REFEREE, FLOOR, 8, 46, way), PONGURIENA_ABSENT);
    same("short way",
         ponguriena_search(REFEREE, world, LENGTH(world), 4, 3, FLOOR_TILES, 9, 7, 46, 49, way,
                           PONGURIENA_WAY - 1),
         PONGURIENA_BAD_LENGTH);
    same_numbers("way after refusals", way, right_twice, LENGTH(way));
    same_numbers("world after searches", world, before, LENGTH(before));
}

int main(void) {
    layout();
    numbered_answers();
    numbered_tunings();
    numbered_lengths();
    other_numbers();
    aims();
    a_fall();
    an_input();
    tunings();
    refusals();
    lengths();
    a_step_too_far();
    a_leave();
    a_floor();
    spikes();
    the_last_seat();
    surprises();
    refused_sending();
    sent_from_spikes();
    roles();
    packing();
    areas();
    trials();
    searches();
    holds();
    return differences != 0;
}
