/* The C interface of Ponguriena: the character physics of Teeworlds 0.6, proved. Link
 * libponguriena.a, for x86-64 Linux alone; of the C library it needs memcpy and memset.
 *
 * A call that may be refused answers 0 where it did its work, and else the number
 * of the refusal; then it has written nothing. No numbers stop a call. A pointer
 * that comes with a length points to so many elements; one without points to one.
 * What a call writes must not overlap what else it is lent.
 *
 * A call reads and writes what it is lent and keeps nothing, so any thread may make any call
 * at any time, as long as no two at once are lent what one of them writes. It allocates nothing.
 * Of the stack a step needs 14 KB at most, a receive 43 KB, a search and a trial 37 KB, a call
 * through a sender 165 KB, every other call 12 KB.
 *
 * Time, measured before the compiler changed: a step of 64 players takes 30 microseconds in play.
 * The slowest found by legal calls, which is no bound, takes 12 to 17 ms, also through a sender, a
 * mark 3.9 ms. A search makes up to 306 steps (slowest found 1.6 s), a trial up to 24,000 (about
 * 90 s at the slowest step found): they belong on another thread than the one that steps the
 * world.
 *
 * Numbers are int32_t in the machine's byte order, lowest byte first: who sends or keeps them
 * for other machines says in which order. PONGURIENA_LAYOUT tells which numbers stand where.
 *
 * A game makes a step 50 times a second: for each, the inputs that came (ponguriena_input), one
 * ponguriena_step, and the records that it wrote to the players. All else is now and then. */
#ifndef PONGURIENA_H
#define PONGURIENA_H

#include <stddef.h>
#include <stdint.h>

#ifdef __cplusplus
extern "C" {
#endif

/* Which numbers a world, a sender, a screen and what is passed along consist of. It changes
 * when one of them gets another place or meaning: numbers that were kept under another layout
 * are not for this library. A program compares PONGURIENA_LAYOUT with ponguriena_layout() once,
 * when it starts, so that it never runs with another library than this header is for. */
enum { PONGURIENA_LAYOUT = 1 };

uint32_t ponguriena_layout(void);

/* Answers. */
enum {
    PONGURIENA_ACCEPTED = 0,
    PONGURIENA_BAD_MAP = 1,       /* a side not 1 to 1,024, or tiles not width times height */
    PONGURIENA_BAD_ID = 2,        /* no seat has this id */
    PONGURIENA_BAD_TUNING = 3,    /* no tuning has this index */
    PONGURIENA_OUT_OF_REACH = 4,  /* a join outside -100,000 to 100,000 */
    PONGURIENA_NOT_CLEAR = 5,     /* a join whose box is not clear of solid tiles */
    PONGURIENA_PRESENT = 7,       /* a join of an id that is present */
    PONGURIENA_ABSENT = 8,        /* an id that is absent */
    PONGURIENA_TOO_FAR = 9,       /* a walk of 65,537 turns or more */
    PONGURIENA_BYTES_END = 11,    /* packed bytes end before the last number is complete */
    PONGURIENA_BAD_BYTES = 12,    /* a packed number is not in its shortest form, or too large */
    PONGURIENA_NOT_ALLOWED = 13,  /* the role does not allow it; comes before the others: who may
                                     not call is told nothing of what was lent */
    PONGURIENA_BAD_AREA = 14,     /* a rectangle has no tiles, it or a tile reaches outside the map,
                                     or the totals are not one for each tile */
    PONGURIENA_BAD_TRIAL = 15,    /* a trial with no tunings or more than 8, or with steps outside
                                     0 to 3,000 */
    PONGURIENA_BAD_HOLD = 16,     /* a hold outside PONGURIENA_SHORTEST_HOLD to
                                     PONGURIENA_LONGEST_HOLD */
    PONGURIENA_BAD_LENGTH = 17    /* a buffer of the wrong length; comes before the others but 13:
                                     without a world there is no call to decline */
};

/* Roles: every call that takes a world names one, as a number. 0 and above is the seat with that
 * id, which may give its own input (ponguriena_input for this id) and nothing else. Any other
 * number but these is no role, and may do nothing. The server decides who calls: an id that comes
 * from a message unchecked may be -1, the referee. */
enum {
    PONGURIENA_REFEREE = -1, /* may make every call and every read */
    PONGURIENA_BOARD = -2    /* may read records and floor marks, and nothing else */
};

/* The tunings by their indexes. All but the last are in hundredths, and may be any number. */
enum {
    PONGURIENA_TUNING_GROUND_CONTROL_SPEED = 0,
    PONGURIENA_TUNING_GROUND_CONTROL_ACCEL = 1,
    PONGURIENA_TUNING_GROUND_FRICTION = 2,
    PONGURIENA_TUNING_GROUND_JUMP_IMPULSE = 3,
    PONGURIENA_TUNING_AIR_JUMP_IMPULSE = 4,
    PONGURIENA_TUNING_AIR_CONTROL_SPEED = 5,
    PONGURIENA_TUNING_AIR_CONTROL_ACCEL = 6,
    PONGURIENA_TUNING_AIR_FRICTION = 7,
    PONGURIENA_TUNING_HOOK_LENGTH = 8,
    PONGURIENA_TUNING_HOOK_FIRE_SPEED = 9,
    PONGURIENA_TUNING_HOOK_DRAG_ACCEL = 10,
    PONGURIENA_TUNING_HOOK_DRAG_SPEED = 11,
    PONGURIENA_TUNING_GRAVITY = 12,
    PONGURIENA_TUNING_VELRAMP_START = 13,
    PONGURIENA_TUNING_VELRAMP_RANGE = 14,
    PONGURIENA_TUNING_VELRAMP_CURVATURE = 15,
    PONGURIENA_TUNING_PLAYER_COLLISION = 16, /* off at 0 */
    PONGURIENA_TUNING_PLAYER_HOOKING = 17,   /* off at 0 */
    PONGURIENA_TUNING_HOOK_HOLD = 18         /* for how many steps a hook holds a player */
};

/* The limits of the hold, in steps; the longest is that of a fresh world. */
enum { PONGURIENA_SHORTEST_HOLD = 1, PONGURIENA_LONGEST_HOLD = 60 };

/* The hook_state of a record. */
enum {
    PONGURIENA_HOOK_RETRACTED = -1,      /* fires no new one until the button is let go */
    PONGURIENA_HOOK_IDLE = 0,            /* waits for the button */
    PONGURIENA_HOOK_RETRACTING0 = 1,     /* on its way back, in three steps */
    PONGURIENA_HOOK_RETRACTING1 = 2,
    PONGURIENA_HOOK_RETRACTING2 = 3,
    PONGURIENA_HOOK_FLYING = 4,          /* on its way out */
    PONGURIENA_HOOK_ATTACHED_GRABBED = 5 /* holds a tile; or somebody, where hooked_player is not
                                            -1 */
};

/* Lengths, in numbers. */
enum {
    PONGURIENA_SEATS = 64,     /* ids are 0 to 63 */
    PONGURIENA_TUNINGS = 19,   /* by their indexes */
    PONGURIENA_RECORD = 15,    /* tick, x, y, vel_x, vel_y, angle, direction, jumped, hooked_player,
                                  hook_state, hook_tick, hook_x, hook_y, hook_dx, hook_dy */
    PONGURIENA_INPUT = 5,      /* direction, target_x, target_y, jump, hook */
    PONGURIENA_SEAT = 22,      /* 1, record, input, floor mark; or zeros for nobody */
    PONGURIENA_WORLD = 1427,   /* the tunings, then each seat */
    PONGURIENA_PUBLISHED = 16, /* 1, record; or zeros for nobody */
    PONGURIENA_RECORDS = 1024  /* what is published of each seat */
};

/* Packed records, for a relay: fifteen whole numbers of one to five bytes each. */
enum { PONGURIENA_PACKED = 75 };

/* Packs a record of PONGURIENA_RECORD numbers into PONGURIENA_PACKED bytes, those past the count
 * 0. */
uint32_t ponguriena_pack(const int32_t *record, size_t record_length, uint8_t *bytes,
                         size_t bytes_length, size_t *count);

/* Reads the record that the bytes start with, and tells how many of them it used. */
uint32_t ponguriena_unpack(const uint8_t *bytes, size_t bytes_length, int32_t *record,
                           size_t record_length, size_t *used);

/* The aim angle of a target, in 256ths of a radian: the angle that a step writes into the record of
 * a player whose input has this target. It is 0 for (0, 0), and has the sign of target_y. A scan of
 * the angle tables finds it, and entries_read gets how many entries it read: 0 for (0, 0), else 403
 * or, if target_x is not above 0, 805 less the size of the angle; so 403 at most. The answer is the
 * angle itself: nothing is refused. */
int32_t ponguriena_aim(int32_t target_x, int32_t target_y, uint32_t *entries_read);

/* The world: PONGURIENA_WORLD numbers that the caller keeps. Any numbers are taken for a world;
 * a call writes those that it changes and no other. A hold outside its limits, which no call
 * writes, stays where it is and counts as the nearest one.
 *
 * A map is width times height tiles row by row, each side 1 to 1,024. Tile 1 is solid, 3 is solid
 * and holds no hook, 2 is deadly, every other is open. A deadly tile is no floor and stops neither
 * a body nor a hook nor a join. */

/* Nobody is present, and the tunings are those of the game. */
uint32_t ponguriena_fresh(int32_t *world, size_t world_length);

/* The id joins at a place; its input is all 0. */
uint32_t ponguriena_join(int32_t role, int32_t *world, size_t world_length, uint32_t width,
                         uint32_t height, const uint8_t *tiles, size_t tiles_length, int32_t id,
                         int32_t x, int32_t y);

/* The id is absent from now on; every hook that holds it is retracted. */
uint32_t ponguriena_leave(int32_t role, int32_t *world, size_t world_length, int32_t id);

/* What the id wants in every step from now on. The seat of this id may tell it too. */
uint32_t ponguriena_input(int32_t role, int32_t *world, size_t world_length, int32_t id,
                          int32_t direction, int32_t target_x, int32_t target_y, int32_t jump,
                          int32_t hook);

/* Sets a tuning; every number is taken, but for a hold outside its limits: 16. A new hold alters
 * nothing by itself: a hook that has held somebody for as long or longer is retracted in the next
 * step in which its button is still held. */
uint32_t ponguriena_tune(int32_t role, int32_t *world, size_t world_length, int32_t index,
                         int32_t value);

/* Everybody present ticks, then moves; the records are PONGURIENA_RECORDS numbers. When they are
 * taken, whoever has a corner (14 from the middle in each coordinate) on a deadly tile is removed
 * as by a leave. Removed gets PONGURIENA_SEATS numbers, these ids by rising id and zeros behind
 * them, and count how many they are. */
uint32_t ponguriena_step(int32_t role, int32_t *world, size_t world_length, uint32_t width,
                         uint32_t height, const uint8_t *tiles, size_t tiles_length,
                         int32_t *records, size_t records_length, int32_t *removed,
                         size_t removed_length, size_t *count);

/* The record of an id that is present, as its seat now stands: PONGURIENA_RECORD numbers. Since
 * the last step's records were taken, whom its hook held may have left. A board may read it too.
 * A hook that has held somebody for more than 2,147,483,647 ticks has no record and would be
 * refused with 10; no numbers stand for one, as a hook_tick below 0 reads as 0, so 10 never
 * comes. */
uint32_t ponguriena_record(int32_t role, const int32_t *world, size_t world_length, int32_t id,
                           int32_t *record, size_t record_length);

/* The last input of an id that is present: PONGURIENA_INPUT numbers. */
uint32_t ponguriena_player_input(int32_t role, const int32_t *world, size_t world_length,
                                 int32_t id, int32_t *input, size_t input_length);

/* Whether an id that is present stood on the ground when the last step since its join began:
 * 1 or 0. A board may read it too. */
uint32_t ponguriena_floor_mark(int32_t role, const int32_t *world, size_t world_length, int32_t id,
                               int32_t *mark);

/* A tuning; a hold is told as it counts, so always within its limits. */
uint32_t ponguriena_tuning(int32_t role, const int32_t *world, size_t world_length, int32_t index,
                           int32_t *value);

/* How could she get there? The longest list that is tried, and a way as numbers. */
enum {
    PONGURIENA_SEARCH_STEPS = 3,
    PONGURIENA_WAY = 7 /* how many steps, then direction and jump of each, zeros behind them; all
                          zeros where no list leads there */
};

/* Looks for inputs that lead an id to a place: lists of one, two or three steps for this id, the
 * inputs of others as stored. Each step has direction -1, 0 or 1 and jump 0 or 1, with hook 0 and
 * the id's stored target. Shorter lists come first, then direction, then jump, of the earliest
 * step in which they differ, rising. Way gets the first list whose last record has that x and y. A
 * list that meets refusal 9, or loses the id to a deadly tile before its last step, does not count.
 * The world is only read. The referee's alone. */
uint32_t ponguriena_search(int32_t role, const int32_t *world, size_t world_length, uint32_t width,
                           uint32_t height, const uint8_t *tiles, size_t tiles_length, int32_t id,
                           int32_t x, int32_t y, int32_t *way, size_t way_length);

/* What goes to the screens: only what surprises them.
 *
 * A sender keeps a copy of each seat as last sent, with the input of that time, and steps it as if
 * nobody else were there; a screen does the same with its own. A message has the record that a
 * step took and the input that it used. It is passed along where the copy's record differs, where
 * the copy was refused with 9, in the first accepted step after a join, and in the 150th after the
 * last message. Where all that is passed along arrives in order, the screen has after each accepted
 * step the record that it took of everybody who is still present.
 *
 * The caller keeps both as numbers, and any numbers are taken for one. A sender goes with its world
 * from the start: to leave, to tune and to step are the calls below. To join and to give an input
 * passes nothing along: ponguriena_join and ponguriena_input are for worlds with a sender too. The
 * calls below are the referee's, as those on the world are. What takes no world names no role. */

/* Lengths, in numbers. */
enum {
    PONGURIENA_COPY = 24,     /* 1, record, input, whether removed, whether refused with 9, accepted
                                 steps since its last message; or zeros for no copy */
    PONGURIENA_SENDER = 1536, /* a copy for each seat */
    PONGURIENA_SCREEN = 1555, /* the tunings, then a copy for each seat */
    PONGURIENA_MESSAGE = 22,  /* the longest thing that is passed along */
    PONGURIENA_PASSED = 2838  /* room for what any call passes along */
};

/* The kinds of what is passed along, each the first of its numbers. */
enum {
    PONGURIENA_PASSED_MARK = 0,    /* alone: a step was accepted */
    PONGURIENA_PASSED_MESSAGE = 1, /* id, record, input */
    PONGURIENA_PASSED_REMOVAL = 2, /* id: by a deadly tile */
    PONGURIENA_PASSED_LEAVE = 3,   /* id */
    PONGURIENA_PASSED_TUNE = 4     /* index, value */
};

/* Nothing was sent yet: for a fresh world. The sender is PONGURIENA_SENDER numbers. */
uint32_t ponguriena_sender_fresh(int32_t *sender, size_t sender_length);

/* No copies, and the tunings of the game. The screen is PONGURIENA_SCREEN numbers. */
uint32_t ponguriena_screen_fresh(int32_t *screen, size_t screen_length);

/* As ponguriena_leave. Passed has PONGURIENA_PASSED numbers, and count gets how many of them are
 * written; those behind stay as they were. */
uint32_t ponguriena_send_leave(int32_t role, int32_t *world, size_t world_length, int32_t *sender,
                               size_t sender_length, int32_t id, int32_t *passed,
                               size_t passed_length, size_t *count);

/* As ponguriena_tune; passed along also where it changes nothing. */
uint32_t ponguriena_send_tune(int32_t role, int32_t *world, size_t world_length, int32_t *sender,
                              size_t sender_length, int32_t index, int32_t value, int32_t *passed,
                              size_t passed_length, size_t *count);

/* As ponguriena_step. A mark is passed along, then the messages by rising id, then the removals. */
uint32_t ponguriena_send_step(int32_t role, int32_t *world, size_t world_length, int32_t *sender,
                              size_t sender_length, uint32_t width, uint32_t height,
                              const uint8_t *tiles, size_t tiles_length, int32_t *records,
                              size_t records_length, int32_t *removed, size_t removed_length,
                              size_t *removed_count, int32_t *passed, size_t passed_length,
                              size_t *count);

/* The screen takes the first thing that is passed along; used gets how many numbers it has, and the
 * next begins behind them. Answers 0, 2, 3, or 17 also where the numbers begin with no whole
 * thing. A hold is taken as any other tuning and counts as the nearest one. Where the map is none a
 * mark moves nobody. */
uint32_t ponguriena_receive(int32_t *screen, size_t screen_length, uint32_t width, uint32_t height,
                            const uint8_t *tiles, size_t tiles_length, const int32_t *passed,
                            size_t passed_length, size_t *used);

/* The record that the screen has of an id: PONGURIENA_RECORD numbers. Answers 8 where it has no
 * copy. */
uint32_t ponguriena_shown(const int32_t *screen, size_t screen_length, int32_t id, int32_t *record,
                          size_t record_length);

/* Is this area clear? How many tiles of a rectangle are solid, from running totals that the caller
 * keeps: one for each tile of a map as above, row by row, of the solid tiles from the map's corner
 * to there. Any numbers are taken for totals; sums and differences are modulo 2^32. A deadly tile
 * is not solid. Each call answers 0, 1 or 14. */

/* Builds the totals of a map. */
uint32_t ponguriena_area_build(uint32_t width, uint32_t height, const uint8_t *tiles,
                               size_t tiles_length, uint32_t *totals, size_t totals_length);

/* Counts the solid tiles of a rectangle from four of the totals, in the same time for each. */
uint32_t ponguriena_area_count(uint32_t width, uint32_t height, const uint8_t *tiles,
                               size_t tiles_length, const uint32_t *totals, size_t totals_length,
                               int32_t left, int32_t top, int32_t columns, int32_t rows,
                               uint32_t *count);

/* Writes a tile's byte into the map, and adds the change in its count to each of the totals whose
 * column and row are both the tile's or greater. What was right for the map before is right for it
 * afterwards. */
uint32_t ponguriena_area_change(uint32_t width, uint32_t height, uint8_t *tiles,
                                size_t tiles_length, uint32_t *totals, size_t totals_length,
                                int32_t column, int32_t row, uint8_t byte);

/* Trial players for a tuning: how near does each come to a tile of its own?
 *
 * For each tuning players join a fresh world and run, alone with each other. Before each step a
 * player's direction is where its target's column is, seen from its own: -1, 0 or 1; jump is 1
 * where its record's x stayed the same in the step before (in step 1, as at the join), and before
 * step 1 it is 0; hook and aim are 0. A step that is refused with 9 ends that tuning's run and is
 * not counted. A player's distance is columns plus rows between its record's tile and its target,
 * and its join's place counts as step 0. Who is removed by a deadly tile keeps what it had, its
 * last record included. */

/* Limits, and lengths in numbers. */
enum {
    PONGURIENA_TRIAL_TUNINGS = 8,  /* at most, and at least one */
    PONGURIENA_TRIAL_STEPS = 3000, /* at most */
    PONGURIENA_TRIAL_JOIN = 3,     /* id, x, y */
    PONGURIENA_TRIAL_TARGET = 2,   /* column, row */
    PONGURIENA_TRIAL_NEAREST = 3,  /* 1, the smallest distance, the first step that reached it; or
                                      zeros where nobody joined */
    PONGURIENA_TRIAL_ROW = 193     /* the steps that were done, then the nearest for each seat */
};

/* Joins are PONGURIENA_TRIAL_JOIN numbers each, made in their order; targets are as many times
 * PONGURIENA_TRIAL_TARGET, each clamped to the map; tunings are PONGURIENA_TUNINGS numbers each.
 * The result gets PONGURIENA_TRIAL_ROW numbers for each tuning. Answers 0, 1, 15, 16 where a
 * tuning's hold is outside its limits, or 17; else the first join that is refused refuses the trial
 * with its own number: 2, 4, 5 or 7. A tuning has the same row whatever others are tried with it,
 * so a long trial can be taken in pieces, one tuning a call. */
uint32_t ponguriena_trial(uint32_t width, uint32_t height, const uint8_t *tiles,
                          size_t tiles_length, const int32_t *joins, size_t joins_length,
                          const int32_t *targets, size_t targets_length, const int32_t *tunings,
                          size_t tunings_length, int32_t steps, int32_t *result,
                          size_t result_length);

#ifdef __cplusplus
}
#endif

#endif
