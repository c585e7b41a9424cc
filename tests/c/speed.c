/* speed: what the eleven calls cost, library and plain.c side by side in one process. scripts/measure runs it.
 *
 *   speed rows                  a line for each row: its number, call and system
 *   speed time                  a line for each row: its number, call, system, nanoseconds a call of library and plain C
 *   speed count ROW SIDE TIMES  asks a row's call TIMES times in `counted`, for a counter of instructions; side 0 library, 1 plain
 */
#define _POSIX_C_SOURCE 199309L
#include "plain.h"

#include <stdio.h>
#include <stdlib.h>
#include <string.h>
#include <time.h>

enum { LIBRARY, PLAIN, SIDES };
enum { BLOCK = 80, SEQUENCE = 12000, LONGEST = 576000, ROOM = 64, ROUNDS = 100 };

struct measured {
    uint32_t system;
    size_t frame_length, positions, macroblocks;
    uint32_t count;
};

static const struct measured systems[] = {{0, 480000, 1620, 5400, 1602}, {1, 576000, 1944, 6075, 1920}};

/* What the calls are lent. The frame is one that was written; the damaged one has some blocks zeroed, the blank one all; in the
 * marked one audio channel 4 has mode 1111. The target is the written one again, for the calls that write. */
static const struct measured *own;
static uint8_t frame[LONGEST], damaged[LONGEST], blank[LONGEST], marked[LONGEST], target[LONGEST], macroblocks[77 * 6075];
static int32_t sound[8 * 1920], samples[8 * 1944];
static uint32_t list[4 * ROOM];
static const uint8_t binary_group[4] = {1, 2, 3, 4}, time_code[4] = {0x52, 0x34, 0x45, 0x12};

/* Every answer goes in here, so that no call can be left out. */
static volatile uint32_t taken;

static void take_survey(struct dv100_survey answer)
{
    taken += answer.number + answer.total + answer.kept;
}

static void take_part(struct dv100_part answer)
{
    taken += answer.number + answer.start + answer.length;
}

static void take_id(struct dv100_id answer)
{
    taken += answer.number + answer.section + answer.channel + answer.sequence + answer.block + answer.arbitrary + answer.reserved;
}

static void take_audio(struct dv100_audio answer)
{
    taken += answer.number + answer.count;
}

static void take_time(struct dv100_time answer)
{
    taken += answer.number + answer.time_code[0] + answer.binary_group[3];
}

/* One function a call and side; both sides are called alike, from a unit of their own. */
#define ASK(side)                                                                                                                 \
    static void side##_read_id_row(void) { take_id(side##_read_id(frame, 3)); }                                                   \
    static void side##_survey_row(void) { take_survey(side##_survey(own->system, frame, own->frame_length, list, 4 * ROOM)); }     \
    static void side##_survey_damaged_row(void)                                                                                   \
    {                                                                                                                             \
        take_survey(side##_survey(own->system, damaged, own->frame_length, list, 4 * ROOM));                                      \
    }                                                                                                                             \
    static void side##_survey_blank_row(void)                                                                                     \
    {                                                                                                                             \
        take_survey(side##_survey(own->system, blank, own->frame_length, list, 4 * ROOM));                                        \
    }                                                                                                                             \
    static void side##_survey_sequence_row(void)                                                                                  \
    {                                                                                                                             \
        take_survey(side##_survey_sequence(own->system, 0, 7, frame + 7 * SEQUENCE, SEQUENCE, list, 4 * ROOM));                    \
    }                                                                                                                             \
    static void side##_view_row(void) { take_part(side##_view(own->system, frame, own->frame_length, 2, 7, 77)); }                \
    static void side##_check_row(void) { taken += side##_check(own->system, frame, own->frame_length); }                          \
    static void side##_check_damaged_row(void) { taken += side##_check(own->system, damaged, own->frame_length); }                \
    static void side##_check_blank_row(void) { taken += side##_check(own->system, blank, own->frame_length); }                    \
    static void side##_read_audio_row(void)                                                                                       \
    {                                                                                                                             \
        take_audio(side##_read_audio(own->system, frame, own->frame_length, 4, samples, own->positions));                          \
    }                                                                                                                             \
    static void side##_read_audio_marked_row(void)                                                                                \
    {                                                                                                                             \
        take_audio(side##_read_audio(own->system, marked, own->frame_length, 4, samples, own->positions));                        \
    }                                                                                                                             \
    static void side##_read_audio_refused_row(void)                                                                               \
    {                                                                                                                             \
        take_audio(side##_read_audio(own->system, frame, own->frame_length, 9, samples, own->positions));                         \
    }                                                                                                                             \
    static void side##_macroblock_row(void) { take_part(side##_macroblock(own->system, frame, own->frame_length, 1234)); }        \
    static void side##_macroblock_refused_row(void) { take_part(side##_macroblock(own->system, frame, own->frame_length, 6075)); }\
    static void side##_read_time_row(void) { take_time(side##_read_time(own->system, frame, own->frame_length)); }                \
    static void side##_salvage_row(void)                                                                                          \
    {                                                                                                                             \
        take_survey(side##_salvage(own->system, frame, own->frame_length, samples, 8 * own->positions, list, 4 * ROOM));           \
    }                                                                                                                             \
    static void side##_salvage_damaged_row(void)                                                                                  \
    {                                                                                                                             \
        take_survey(side##_salvage(own->system, damaged, own->frame_length, samples, 8 * own->positions, list, 4 * ROOM));         \
    }                                                                                                                             \
    static void side##_salvage_blank_row(void)                                                                                    \
    {                                                                                                                             \
        take_survey(side##_salvage(own->system, blank, own->frame_length, samples, 8 * own->positions, list, 4 * ROOM));          \
    }                                                                                                                             \
    static void side##_replace_audio_row(void)                                                                                    \
    {                                                                                                                             \
        taken += side##_replace_audio(own->system, target, own->frame_length, 4, sound, own->count);                              \
    }                                                                                                                             \
    static void side##_replace_audio_refused_row(void)                                                                            \
    {                                                                                                                             \
        taken += side##_replace_audio(own->system, target, own->frame_length, 4, sound, own->count - 1);                          \
    }                                                                                                                             \
    static void side##_write_row(void)                                                                                            \
    {                                                                                                                             \
        taken += side##_write(own->system, own->count, sound, 8 * (size_t)own->count, macroblocks, 77 * own->macroblocks,          \
                              time_code, 4, binary_group, 4, target, own->frame_length);                                          \
    }

ASK(dv100)
ASK(plain)

#define ROW(name, call) {name, {dv100_##call##_row, plain_##call##_row}}

static const struct {
    const char *name;
    void (*ask[SIDES])(void);
} calls[] = {
    ROW("read_id", read_id),
    ROW("survey", survey),
    ROW("survey, 28 blocks damaged", survey_damaged),
    ROW("survey, all blocks zeroed", survey_blank),
    ROW("survey_sequence", survey_sequence),
    ROW("view", view),
    ROW("check", check),
    ROW("check, block 7 damaged", check_damaged),
    ROW("check, all blocks zeroed", check_blank),
    ROW("read_audio", read_audio),
    ROW("read_audio, channel marked 1111", read_audio_marked),
    ROW("read_audio, channel 9 refused", read_audio_refused),
    ROW("macroblock", macroblock),
    ROW("macroblock, number 6,075 refused", macroblock_refused),
    ROW("read_time", read_time),
    ROW("salvage", salvage),
    ROW("salvage, 28 blocks damaged", salvage_damaged),
    ROW("salvage, all blocks zeroed", salvage_blank),
    ROW("replace_audio", replace_audio),
    ROW("replace_audio, a sample too few refused", replace_audio_refused),
    ROW("write", write),
};

enum { CALLS = sizeof calls / sizeof *calls, ROWS = 2 * CALLS };

static void fill(void)
{
    uint32_t chance = 1;
    for (size_t byte = 0; byte < sizeof macroblocks; byte++) {
        chance = chance * 1664525 + 1013904223;
        macroblocks[byte] = (uint8_t)(chance >> 24);
    }
    for (size_t sample = 0; sample < sizeof sound / sizeof *sound; sample++) {
        chance = chance * 1664525 + 1013904223;
        sound[sample] = (int32_t)(chance >> 16) - 32768;
    }
}

/* Makes the frames of a row's system; a written frame passes every read. */
static void set_row(size_t row)
{
    own = &systems[row / CALLS];
    plain_write_row();
    memcpy(frame, target, sizeof frame);
    memcpy(damaged, target, sizeof damaged);
    for (size_t block = 0; block < 28; block++)
        memset(damaged + (7 + 211 * block) * BLOCK, 0, BLOCK);
    memcpy(marked, target, sizeof marked);
    size_t sequences = own->frame_length / SEQUENCE / 4; /* audio channel 4 has the second half of DIF channel 1 */
    for (size_t sequence = sequences / 2; sequence < sequences; sequence++)
        marked[(sequences + sequence) * SEQUENCE + (sequence % 2 == 0 ? 54 : 6) * BLOCK + 5] |= 0x0F;
    if (plain_check(own->system, frame, own->frame_length) != 0) {
        fprintf(stderr, "speed: the frame was not written\n");
        exit(2);
    }
}

/* Apart, so that a counter can be switched on and off with it. */
__attribute__((noinline)) static void counted(void (*ask)(void), uint32_t times)
{
    for (; times > 0; times--)
        ask();
}

static double nanoseconds(void (*ask)(void), uint32_t times)
{
    struct timespec from, to;
    clock_gettime(CLOCK_MONOTONIC, &from);
    counted(ask, times);
    clock_gettime(CLOCK_MONOTONIC, &to);
    return ((double)(to.tv_sec - from.tv_sec) * 1e9 + (double)(to.tv_nsec - from.tv_nsec)) / times;
}

/* The best of rounds of about half a millisecond, in which the sides take turns. */
static void time_row(size_t row)
{
    void (*const *ask)(void) = calls[row % CALLS].ask;
    set_row(row);
    double best[SIDES] = {nanoseconds(ask[LIBRARY], 10), nanoseconds(ask[PLAIN], 10)};
    uint32_t times = 1 + (uint32_t)(5e5 / (best[LIBRARY] + 1));
    for (int round = 0; round < ROUNDS; round++)
        for (int side = 0; side < SIDES; side++) {
            double spent = nanoseconds(ask[side], times);
            best[side] = spent < best[side] ? spent : best[side];
        }
    printf("%zu\t%s\t%u\t%.1f\t%.1f\n", row, calls[row % CALLS].name, own->system, best[LIBRARY], best[PLAIN]);
}

int main(int argc, char **argv)
{
    fill();
    if (argc == 2 && strcmp(argv[1], "rows") == 0) {
        for (size_t row = 0; row < ROWS; row++)
            printf("%zu\t%s\t%u\n", row, calls[row % CALLS].name, systems[row / CALLS].system);
    } else if (argc == 2 && strcmp(argv[1], "time") == 0) {
        for (size_t row = 0; row < ROWS; row++)
            time_row(row);
    } else if (argc == 5 && strcmp(argv[1], "count") == 0) {
        size_t row = strtoul(argv[2], NULL, 10) % ROWS, side = strtoul(argv[3], NULL, 10) % SIDES;
        set_row(row);
        calls[row % CALLS].ask[side]();
        counted(calls[row % CALLS].ask[side], (uint32_t)strtoul(argv[4], NULL, 10));
    } else {
        fprintf(stderr, "usage: speed rows | speed time | speed count ROW SIDE TIMES\n");
        return 2;
    }
    return 0;
}
