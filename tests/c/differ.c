/* differ [CASES [SEED]]: the library beside plain.c. Each case makes a frame (written, damaged or rubbish, with any spare bits in
 * its IDs) and asks all eleven calls of both sides, with copies of every lent buffer. Answers and buffers, with what lies around
 * them, have to be the same. */
#define _DEFAULT_SOURCE
#include "plain.h"

#include <inttypes.h>
#include <stdarg.h>
#include <stdbool.h>
#include <stdio.h>
#include <stdlib.h>
#include <string.h>
#include <sys/mman.h>

enum { SYSTEMS = 4, DIF_CHANNELS = 4, PLACES = 150, BLOCK = 80, SEQUENCE = 12000, LONGEST = 576000 };
enum { LIBRARY, PLAIN, SIDES };

#define COUNT(table) (sizeof(table) / sizeof *(table))
#define PICK(table) (table)[below((uint32_t)COUNT(table))]

struct facts {
    uint32_t sequences, positions, counts[2], macroblocks;
};

static const struct facts facts[SYSTEMS] = {
    {10, 1620, {1600, 1602}, 5400},
    {12, 1944, {1920, 1920}, 6075},
    {10, 1620, {1600, 1602}, 5400},
    {12, 1944, {1920, 1920}, 5400},
};

static bool at_50_hz(uint32_t system)
{
    return system & 1;
}

static size_t frame_size(uint32_t system)
{
    return (size_t)48000 * facts[system].sequences;
}

/* ---- Chance: splitmix64 */

static uint64_t chance_state;

static uint64_t draw(void)
{
    uint64_t z = chance_state += 0x9E3779B97F4A7C15u;
    z = (z ^ z >> 30) * 0xBF58476D1CE4E5B9u;
    z = (z ^ z >> 27) * 0x94D049BB133111EBu;
    return z ^ z >> 31;
}

static uint32_t below(uint32_t limit)
{
    return (uint32_t)((draw() >> 32) * limit >> 32);
}

static bool percent(uint32_t chances)
{
    return below(100) < chances;
}

static void fill_noise(uint8_t *bytes, size_t size)
{
    for (; size >= 8; size -= 8, bytes += 8) {
        uint64_t eight = draw();
        memcpy(bytes, &eight, 8);
    }
    for (; size > 0; size--)
        *bytes++ = (uint8_t)draw();
}

/* ---- What was met: calls, refusals, differences */

enum call {
    READ_ID,
    SURVEY,
    SURVEY_SEQUENCE,
    VIEW,
    CHECK,
    READ_AUDIO,
    MACROBLOCK,
    READ_TIME,
    SALVAGE,
    REPLACE_AUDIO,
    WRITE,
    CALLS
};
enum { MARKED_READ = CALLS, ROWS }; /* the table's last row: audio reads again, of channels with an AS of mode 1111 */

static const char *const call_names[ROWS] = {"read_id",    "survey",    "survey_sequence", "view",          "check", "read_audio",
                                             "macroblock", "read_time", "salvage",         "replace_audio", "write", "marked read"};

static const uint8_t numbers[] = {0, 1, 2, 3, 4, 11, 12, 13, 14, 15, 21, 22, 23, 24, 25, 26, 27, 29, 31, 32, 33};
enum { LAST_NUMBER = 33 };

#define N(number) (UINT64_C(1) << (number))
#define FAULTS (N(11) | N(12) | N(13) | N(14) | N(15))
#define CHECKS (N(0) | N(1) | N(2) | FAULTS | N(21) | N(22))

/* The numbers that the paper gives each call; of those of a marked read, the ones that the AS packs decide. */
static const uint64_t allowed[ROWS] = {
    [READ_ID] = N(0) | N(4) | N(11),
    [SURVEY] = N(0) | N(1) | N(2),
    [SURVEY_SEQUENCE] = N(0) | N(1) | N(3) | N(4),
    [VIEW] = N(0) | N(1) | N(2) | N(3) | FAULTS,
    [CHECK] = CHECKS,
    [READ_AUDIO] = CHECKS | N(3) | N(4) | N(23) | N(24) | N(25),
    [MACROBLOCK] = CHECKS | N(3) | N(23),
    [READ_TIME] = CHECKS | N(23) | N(26) | N(27),
    [SALVAGE] = N(0) | N(1) | N(2) | N(4),
    [REPLACE_AUDIO] = CHECKS | N(3) | N(23) | N(24) | N(25) | N(29) | N(31) | N(33),
    [WRITE] = N(0) | N(1) | N(2) | N(3) | N(4) | N(31) | N(32),
    [MARKED_READ] = N(0) | N(24) | N(25),
};

enum { TOLD = 20 }; /* differences that are printed, of those that are counted */

static uint32_t met[ROWS][LAST_NUMBER + 1];
static uint64_t calls, differences;
static uint32_t case_number;
static char asked[240]; /* the call and its arguments, for the report */

static void difference(const char *format, ...)
{
    if (++differences > TOLD)
        return;
    va_list values;
    va_start(values, format);
    printf("case %" PRIu32 ": %s: ", case_number, asked);
    vprintf(format, values);
    printf("\n");
    va_end(values);
}

static void ask(const char *format, ...)
{
    va_list values;
    va_start(values, format);
    vsnprintf(asked, sizeof asked, format, values);
    va_end(values);
}

/* Counts the call, compares the answers field by field, and tells whether both numbers are the same and 0. */
static bool answered(enum call call, const char *fields[], const uint32_t *library, const uint32_t *plain, size_t count)
{
    calls++;
    for (size_t field = 0; field < count; field++)
        if (library[field] != plain[field])
            difference("the library's %s is %" PRIu32 ", plain C's %" PRIu32, fields[field], library[field], plain[field]);
    if (plain[0] > LAST_NUMBER || !(allowed[call] >> plain[0] & 1))
        difference("number %" PRIu32 " is not one of this call's", plain[0]);
    else
        met[call][plain[0]]++;
    return library[0] == 0 && plain[0] == 0;
}

/* ---- Lent buffers: each side has its own copy between guard bytes; all three copies are the same before a call. Some end at a
 * wall instead, a page that may not even be read. */

enum { GUARD = 64, SHIFT = 16, PAGE = 4096 };
enum lent { ID, BYTES, FRAME, LIST, SAMPLES, SOUND, MACROBLOCKS, TIME_CODE, BINARY_GROUP, TARGET, BUFFERS };

struct buffer {
    const char *name;
    size_t room, unit; /* the longest length, in bytes, and the bytes of an element */
    size_t start, length, behind; /* where it starts, its bytes, and the guard bytes behind them */
    bool null;
    uint8_t *side[SIDES], *before;
};

static struct buffer buffers[BUFFERS] = {
    [ID] = {.name = "id", .room = 16, .unit = 1},
    [BYTES] = {.name = "bytes", .room = 2 * SEQUENCE, .unit = 1},
    [FRAME] = {.name = "frame", .room = LONGEST + SEQUENCE, .unit = 1},
    [LIST] = {.name = "list", .room = 40000 * 4, .unit = 4},
    [SAMPLES] = {.name = "samples", .room = 2 * 8 * 1944 * 4, .unit = 4},
    [SOUND] = {.name = "sound", .room = 2 * 8 * 1944 * 4, .unit = 4},
    [MACROBLOCKS] = {.name = "macroblocks", .room = 77 * 6200, .unit = 1},
    [TIME_CODE] = {.name = "time code", .room = 16, .unit = 1},
    [BINARY_GROUP] = {.name = "binary group", .room = 16, .unit = 1},
    [TARGET] = {.name = "frame", .room = LONGEST + SEQUENCE, .unit = 1},
};

static size_t whole(const struct buffer *buffer)
{
    return buffer->room + 2 * GUARD + SHIFT;
}

static void copy_to_sides(struct buffer *buffer, size_t from, size_t size)
{
    for (int side = 0; side < SIDES; side++)
        memcpy(buffer->side[side] + from, buffer->before + from, size);
}

static void renew(struct buffer *buffer)
{
    fill_noise(buffer->before, whole(buffer));
    copy_to_sides(buffer, 0, whole(buffer));
}

static uint8_t *allocate(size_t size)
{
    uint8_t *bytes = malloc(size);
    if (!bytes) {
        fprintf(stderr, "differ: no memory\n");
        exit(2);
    }
    return bytes;
}

/* So many bytes, and a wall behind them. */
static uint8_t *allocate_before_wall(size_t size)
{
    size_t pages = (size + PAGE - 1) / PAGE * PAGE;
    uint8_t *bytes = mmap(NULL, pages + PAGE, PROT_READ | PROT_WRITE, MAP_PRIVATE | MAP_ANONYMOUS, -1, 0);
    if (bytes == MAP_FAILED || mprotect(bytes + pages, PAGE, PROT_NONE) != 0) {
        fprintf(stderr, "differ: no memory\n");
        exit(2);
    }
    return bytes + pages - size;
}

static void set_up_buffers(void)
{
    for (int lent = 0; lent < BUFFERS; lent++) {
        struct buffer *buffer = &buffers[lent];
        buffer->before = allocate(whole(buffer) + buffer->room); /* content may be longer than what is lent of it */
        memset(buffer->before, 0, whole(buffer) + buffer->room);
        for (int side = 0; side < SIDES; side++)
            buffer->side[side] = allocate_before_wall(whole(buffer));
        renew(buffer);
    }
}

/* How many bytes are lent. A buffer at the wall keeps its end there, and starts elsewhere. */
static void lend_bytes(struct buffer *buffer, size_t bytes)
{
    buffer->length = bytes < buffer->room ? bytes : buffer->room;
    buffer->null = buffer->length == 0 && percent(50);
    if (buffer->behind == 0)
        buffer->start = whole(buffer) - buffer->length;
}

/* Chooses where the buffer starts, bytes at any address or so that it ends at the wall, and how many elements are lent. */
static void set_length(enum lent lent, size_t elements)
{
    struct buffer *buffer = &buffers[lent];
    buffer->behind = percent(25) ? 0 : GUARD;
    buffer->start = GUARD + buffer->unit * below((uint32_t)(SHIFT / buffer->unit));
    lend_bytes(buffer, buffer->unit * elements);
}

static size_t elements(enum lent lent)
{
    return buffers[lent].length / buffers[lent].unit;
}

static void *lend(enum lent lent, int side)
{
    struct buffer *buffer = &buffers[lent];
    return buffer->null ? NULL : buffer->side[side] + buffer->start;
}

static uint8_t *content(enum lent lent)
{
    return buffers[lent].before + buffers[lent].start;
}

/* After the content was made: both sides get it, as far as the wall. */
static void share(enum lent lent, size_t size)
{
    size_t left = whole(&buffers[lent]) - buffers[lent].start;
    copy_to_sides(&buffers[lent], buffers[lent].start, size < left ? size : left);
}

static void compare(const struct buffer *buffer, const char *who, const uint8_t *left, const uint8_t *right, size_t from,
                    size_t to)
{
    if (memcmp(left + from, right + from, to - from) == 0)
        return;
    size_t at = from;
    while (left[at] == right[at])
        at++;
    long byte = (long)at - (long)buffer->start, unit = (long)buffer->unit;
    difference("%s: %s differs, first in element %ld of %zu (byte %ld, %02X and %02X)", who, buffer->name,
               (byte < 0 ? byte - unit + 1 : byte) / unit, buffer->length / buffer->unit, byte, left[at], right[at]);
}

/* A buffer that was only read, or lent to a call that refused. */
static void unchanged(enum lent lent)
{
    struct buffer *buffer = &buffers[lent];
    size_t end = whole(buffer);
    compare(buffer, "the library wrote", buffer->side[LIBRARY], buffer->before, 0, end);
    compare(buffer, "plain C wrote", buffer->side[PLAIN], buffer->before, 0, end);
}

/* A buffer that was written where the call succeeded: the same on both sides, the guards as before; then as before again. */
static void changed(enum lent lent, bool success)
{
    struct buffer *buffer = &buffers[lent];
    size_t past = buffer->start + buffer->length, end = whole(buffer);
    if (!success) {
        unchanged(lent);
        if (differences > 0)
            copy_to_sides(buffer, 0, end);
        return;
    }
    const uint8_t *library = buffer->side[LIBRARY];
    compare(buffer, "library and plain C", library, buffer->side[PLAIN], 0, end);
    compare(buffer, "before the buffer", library, buffer->before, 0, buffer->start);
    compare(buffer, "behind the buffer", library, buffer->before, past, end);
    copy_to_sides(buffer, 0, end);
}

/* ---- Arguments */

/* A number of a range that starts at 0, now and then outside of it, also where products of it wrap. */
static uint32_t number_below(uint32_t limit)
{
    static const uint32_t odd[] = {15, 16, 150, 255, 256, 65535, 65536, 0x40000000, 0x7FFFFFFF, 0x80000000, 0xFFFFFFFF};
    if (percent(90))
        return below(limit);
    uint32_t kind = below(5), inside = below(limit), bit = 8 + below(24);
    switch (kind) {
    case 0:
        return limit + below(2);
    case 1:
        return (uint32_t)draw();
    case 2:
        return 0u - 1 - inside;
    case 3:
        return inside + (1u << bit);
    default:
        return PICK(odd);
    }
}

static size_t length_about(size_t right)
{
    static const size_t odd[] = {0, 1, 2, 3, 4, 5, 8, 79, 80, 1620, 1944, 12000, 12960, 15552};
    if (percent(90))
        return right;
    switch (below(5)) {
    case 0:
        return right + 1;
    case 1:
        return right - 1;
    case 2:
        return percent(50) ? 2 * right : right / 2;
    case 3:
        return right + below(100);
    default:
        return PICK(odd);
    }
}

static size_t list_length(void)
{
    static const size_t some[] = {0, 1, 2, 3, 4, 5, 7, 8, 255, 256};
    static const size_t many[] = {24000, 28800, 28801, 40000};
    if (percent(30))
        return PICK(many);
    return percent(70) ? PICK(some) : below(600);
}

/* ---- Frames */

enum { KEPT = 3 }; /* written frames of each system that cases start from; the writer's results take their places */

static uint8_t *pool[SYSTEMS][KEPT];

/* What a case is about: the system whose frame was made, the system that is asked for, and where the last damage was done. */
struct scene {
    uint32_t made, system, channel, sequence, place;
};

static void look_somewhere(struct scene *scene)
{
    scene->channel = below(DIF_CHANNELS);
    scene->sequence = below(facts[scene->made].sequences);
    scene->place = below(PLACES);
}

static uint8_t *sequence_of(const struct scene *scene)
{
    return content(FRAME) + (size_t)(facts[scene->made].sequences * scene->channel + scene->sequence) * SEQUENCE;
}

static uint8_t *block_of(const struct scene *scene)
{
    return sequence_of(scene) + (size_t)scene->place * BLOCK;
}

static bool in_first_half(const struct scene *scene)
{
    return scene->sequence < facts[scene->made].sequences / 2;
}

static void flip(uint8_t *bytes, uint32_t bit)
{
    bytes[bit / 8] ^= (uint8_t)(1 << bit % 8);
}

/* ---- Damage to blocks and IDs */

static void zero_block(struct scene *scene)
{
    memset(block_of(scene), 0, BLOCK);
}

static void ones_block(struct scene *scene)
{
    memset(block_of(scene), 0xFF, BLOCK);
}

static void noise_block(struct scene *scene)
{
    fill_noise(block_of(scene), BLOCK);
}

static void flip_any_bit(struct scene *scene)
{
    flip(block_of(scene), below(8 * BLOCK));
}

static void flip_id_bit(struct scene *scene)
{
    flip(block_of(scene), below(24));
}

static void reserve_section(struct scene *scene)
{
    uint8_t *block = block_of(scene);
    block[0] = (uint8_t)((block[0] & 0x1F) | (5 + below(3)) << 5);
}

static void damage_audio_id(struct scene *scene)
{
    scene->place = 6 + 16 * below(9);
    flip_id_bit(scene);
}

static void swap_blocks(struct scene *scene)
{
    uint8_t held[BLOCK], *one = block_of(scene);
    look_somewhere(scene);
    uint8_t *other = block_of(scene);
    memcpy(held, one, BLOCK);
    memmove(one, other, BLOCK);
    memcpy(other, held, BLOCK);
}

static void move_sequence(struct scene *scene)
{
    const uint8_t *from = sequence_of(scene);
    look_somewhere(scene);
    memmove(sequence_of(scene), from, SEQUENCE);
}

static void stain_many(struct scene *scene)
{
    for (uint32_t left = 1 + below(200); left > 0; left--) {
        look_somewhere(scene);
        if (percent(50))
            flip_id_bit(scene);
        else
            noise_block(scene);
    }
}

/* ---- Damage to headers and packs, which leaves the IDs as they are */

static void flip_header_bit(struct scene *scene)
{
    flip(sequence_of(scene) + 3, below(40));
}

static void flip_rate(struct scene *scene)
{
    sequence_of(scene)[3] ^= 0x80;
}

static void set_flag(struct scene *scene)
{
    sequence_of(scene)[5 + below(3)] |= 0x80;
}

/* Something done to every sequence of the frame. */
static void everywhere(struct scene *scene, void (*change)(struct scene *scene, uint8_t *bytes, uint32_t value), uint32_t value)
{
    for (uint32_t channel = 0; channel < DIF_CHANNELS; channel++)
        for (uint32_t sequence = 0; sequence < facts[scene->made].sequences; sequence++) {
            struct scene here = *scene;
            here.channel = channel;
            here.sequence = sequence;
            change(&here, sequence_of(&here), value);
        }
}

static void change_header(struct scene *scene, uint8_t *bytes, uint32_t bit)
{
    (void)scene;
    flip(bytes + 3, bit);
}

static void flip_header_bits(struct scene *scene)
{
    static const uint32_t bits[] = {7, 23, 31, 39}; /* DSF, TF1, TF2, TF3 */
    everywhere(scene, change_header, PICK(bits));
}

static uint8_t *vs_of(const struct scene *scene)
{
    return sequence_of(scene) + (scene->sequence % 2 ? 3 * BLOCK + 3 : 5 * BLOCK + 48);
}

static void flip_vs_bit(struct scene *scene)
{
    flip(vs_of(scene), below(40));
}

static void change_vs_byte(struct scene *scene)
{
    static const uint8_t values[] = {0x14, 0x18, 0x34, 0x38, 0x60, 0x61, 0x50, 0xFF, 0xD4, 0xD8, 0xF4, 0xF8};
    uint32_t byte = below(5);
    vs_of(scene)[byte] = PICK(values);
}

static void excuse_vs(struct scene *scene)
{
    flip_vs_bit(scene);
    if (percent(20))
        look_somewhere(scene);
    sequence_of(scene)[6] |= 0x80;
}

static void change_vs(struct scene *scene, uint8_t *bytes, uint32_t value)
{
    (void)bytes;
    vs_of(scene)[3] = (uint8_t)value;
}

static void change_all_vs(struct scene *scene)
{
    static const uint8_t values[] = {0xD4, 0xD8, 0xF4, 0xF8, 0x14, 0x38};
    everywhere(scene, change_vs, PICK(values));
}

static uint8_t *as_of(const struct scene *scene)
{
    return sequence_of(scene) + (scene->sequence % 2 ? 6 : 54) * BLOCK + 3;
}

static void flip_as_bit(struct scene *scene)
{
    flip(as_of(scene), below(40));
}

static void change_as_byte(struct scene *scene)
{
    static const uint8_t values[] = {0x50, 0x51, 0x54, 0x56, 0x58, 0x14, 0x16, 0x18, 0x10, 0x11, 0xC3, 0xE3, 0xC0, 0, 0xFF};
    uint32_t byte = below(5);
    as_of(scene)[byte] = PICK(values);
}

static void change_as_size(struct scene *scene)
{
    static const uint8_t sizes[] = {20, 22, 24, 21, 23};
    uint8_t *pc1 = as_of(scene) + 1;
    uint32_t size = sizes[below(percent(80) ? 2 : 5)];
    *pc1 = (uint8_t)((*pc1 & 0xC0) | size);
}

static void change_as(struct scene *scene, uint8_t *bytes, uint32_t size)
{
    (void)bytes;
    as_of(scene)[1] = (uint8_t)(size & 0x7F);
}

/* The frame says another count than it was written with. */
static void change_all_sizes(struct scene *scene)
{
    static const uint8_t sizes[] = {0x54, 0x56, 0x14, 0x16, 0x58, 0x18};
    everywhere(scene, change_as, PICK(sizes));
}

/* The first sequence of the scene's audio channel. */
static struct scene first_of_channel(const struct scene *scene)
{
    struct scene first = *scene;
    uint32_t half = facts[scene->made].sequences / 2;
    first.sequence = scene->sequence / half * half;
    return first;
}

static void set_mode(const struct scene *scene, uint32_t mode)
{
    uint8_t *pc2 = as_of(scene) + 2;
    *pc2 = (uint8_t)((*pc2 & 0xF0) | mode);
}

/* The same mode in all AS of the audio channel. */
static void set_modes(const struct scene *scene, uint32_t mode)
{
    struct scene here = first_of_channel(scene);
    for (uint32_t left = facts[scene->made].sequences / 2; left > 0; left--, here.sequence++)
        set_mode(&here, mode);
}

/* Mode 1111 in one AS, in all of an audio channel, in all but one. */
static void mark_one(struct scene *scene)
{
    set_mode(scene, 0x0F);
}

static void mark_channel(struct scene *scene)
{
    set_modes(scene, 0x0F);
}

static void mark_all_but_one(struct scene *scene)
{
    uint8_t held = as_of(scene)[2];
    mark_channel(scene);
    as_of(scene)[2] = held;
}

static void change_mode(struct scene *scene)
{
    set_mode(scene, below(16));
}

/* Often a mode that audio channels have, its own or the others'. */
static void change_modes(struct scene *scene)
{
    set_modes(scene, percent(50) ? below(2) : below(16));
}

static uint8_t *pack_of(uint8_t *bytes, uint32_t ssyb)
{
    return bytes + (1 + ssyb / 6) * BLOCK + 3 + ssyb % 6 * 8 + 3;
}

static void go_to_the_first(struct scene *scene)
{
    scene->channel = scene->sequence = 0;
}

static void flip_pack_bit(struct scene *scene)
{
    uint32_t ssyb = below(12);
    flip(pack_of(sequence_of(scene), ssyb), below(40));
}

static void flip_first_pack_bit(struct scene *scene)
{
    go_to_the_first(scene);
    uint32_t ssyb = 3 + below(3);
    flip(pack_of(sequence_of(scene), ssyb), below(40));
}

static void flip_ssyb_id_bit(struct scene *scene)
{
    uint32_t ssyb = below(12);
    flip(pack_of(sequence_of(scene), ssyb) - 3, below(24));
}

/* Bit 6 of PC1 in one time code. */
static void flip_arbitrary_bit(struct scene *scene)
{
    static const uint8_t ssybs[] = {3, 5, 9, 11};
    if (percent(20))
        go_to_the_first(scene);
    uint32_t ssyb = ssybs[below(4)];
    pack_of(sequence_of(scene), ssyb)[1] ^= 0x40;
}

/* value: bits 7-0 what PC1 to PC4 gets, 9-8 which of them, 10 whether the binary group. */
static void change_time(struct scene *scene, uint8_t *bytes, uint32_t value)
{
    static const uint8_t time_codes[] = {3, 9, 5, 11}, groups[] = {4, 10};
    bool first_half = in_first_half(scene), group = value >> 10 & 1;
    uint32_t count = group ? (first_half ? 2 : 0) : first_half ? 4 : 2;
    for (uint32_t one = 0; one < count; one++)
        pack_of(bytes, group ? groups[one] : time_codes[one])[1 + (value >> 8 & 3)] = (uint8_t)value;
}

static void change_all_times(struct scene *scene)
{
    static const uint8_t values[] = {0x09, 0x0A, 0x19, 0x1F, 0x23, 0x24, 0x25, 0x29, 0x2A, 0x30, 0x59, 0x5A, 0x60, 0x64, 0x69};
    uint32_t value = percent(30) ? below(256) : PICK(values);
    value ^= percent(20) ? 0x80 : 0;
    value ^= percent(20) ? 0x40 : 0;
    everywhere(scene, change_time, value | below(8) << 8);
}

static void change_words(struct scene *scene)
{
    static const uint8_t high[] = {0x80, 0x80, 0x7F, 0x00, 0xFF}, low[] = {0x00, 0x01, 0xFF, 0x80};
    scene->place = 6 + 16 * below(9);
    uint8_t *block = block_of(scene);
    for (uint32_t byte = 8; byte < BLOCK; byte += 2) {
        block[byte] = PICK(high);
        block[byte + 1] = PICK(low);
    }
}

typedef void damage(struct scene *scene);

static damage *const to_blocks[] = {zero_block,  ones_block,      noise_block,   flip_any_bit, flip_id_bit, reserve_section,
                                    swap_blocks, damage_audio_id, move_sequence, stain_many};

static damage *const to_packs[] = {
    flip_header_bit, flip_rate,     set_flag,       set_flag,       flip_header_bits, flip_vs_bit,   change_vs_byte,
    excuse_vs,       change_all_vs, flip_as_bit,    flip_as_bit,    change_as_byte,   flip_pack_bit, flip_first_pack_bit,
    change_as_size,  change_as_size, change_as_size, change_all_sizes, flip_ssyb_id_bit, flip_arbitrary_bit, change_all_times,
    change_words,    mark_one,      mark_channel,   mark_channel,   mark_channel,     mark_all_but_one, change_mode,
    change_modes,
};

static void damage_blocks(struct scene *scene)
{
    for (uint32_t left = 1 + below(3); left > 0; left--) {
        look_somewhere(scene);
        PICK(to_blocks)(scene);
    }
}

/* Often another sequence of the same audio channel, so that one channel has more than one thing wrong. */
static void damage_packs(struct scene *scene)
{
    uint32_t half = facts[scene->made].sequences / 2;
    look_somewhere(scene);
    for (uint32_t left = 1 + below(3); left > 0; left--) {
        PICK(to_packs)(scene);
        if (percent(50))
            look_somewhere(scene);
        else
            scene->sequence = scene->sequence / half * half + below(half);
    }
}

/* Random bytes whose IDs are right, with random bits where none are judged. */
static void give_ids(struct scene *scene, uint8_t *bytes, uint32_t unused)
{
    (void)unused;
    const uint8_t *from = pool[scene->made][0] + (bytes - content(FRAME));
    for (uint32_t place = 0; place < PLACES; place++, bytes += BLOCK, from += BLOCK) {
        bytes[0] = (uint8_t)((bytes[0] & 0x1F) | (from[0] & 0xE0));
        bytes[1] = (uint8_t)((bytes[1] & 0x03) | (from[1] & 0xFC));
        bytes[2] = from[2];
    }
}

/* Noise with right IDs, right headers and packs: what is not judged stays noise. */
static void give_packs(struct scene *scene, uint8_t *bytes, uint32_t unused)
{
    (void)unused;
    uint8_t *vs = vs_of(scene);
    bytes[3] = (uint8_t)((bytes[3] & 0x7F) | (at_50_hz(scene->made) ? 0x80 : 0));
    for (uint32_t byte = 5; byte < 8; byte++)
        bytes[byte] &= 0x7F;
    vs[0] = 0x60;
    vs[3] = (uint8_t)((vs[3] & 0xC0) | (at_50_hz(scene->made) ? 0x20 : 0) | (scene->made < 2 ? 0x14 : 0x18));
}

/* value: bits 4-0 are put in byte 0 of every ID and 6-5 in byte 1; of ANY_SPARE each block has its own. */
enum { SPARE_VALUES = 128, ANY_SPARE = SPARE_VALUES };

static void give_spare_bits(struct scene *scene, uint8_t *bytes, uint32_t value)
{
    (void)scene;
    for (uint32_t place = 0; place < PLACES; place++, bytes += BLOCK) {
        uint32_t bits = value == ANY_SPARE ? below(SPARE_VALUES) : value;
        bytes[0] = (uint8_t)((bytes[0] & 0xE0) | (bits & 0x1F));
        bytes[1] = (uint8_t)((bytes[1] & 0xFC) | bits >> 5);
    }
}

static void make_rubbish(struct scene *scene)
{
    uint32_t kind = below(5);
    if (kind < 2) {
        memset(content(FRAME), kind == 0 ? 0 : 0xFF, frame_size(scene->made));
        return;
    }
    fill_noise(content(FRAME), frame_size(scene->made));
    if (kind > 2)
        everywhere(scene, give_ids, 0);
    if (kind > 3)
        everywhere(scene, give_packs, 0);
}

static size_t wrong_frame_length(const struct scene *scene)
{
    static const size_t odd[] = {0, 1, 2, 3, 79, 80, 12000};
    size_t right = frame_size(scene->made);
    switch (below(6)) {
    case 0:
        return right - 1;
    case 1:
        return right + 1;
    case 2:
        return right - BLOCK;
    case 3:
        return right + BLOCK;
    case 4:
        return frame_size(scene->made ^ 1);
    default:
        return PICK(odd);
    }
}

static void set_scene(struct scene *scene)
{
    static const uint32_t none[] = {4, 5, 0x80000000, 0xFFFFFFFF};
    scene->made = scene->system = below(SYSTEMS);
    if (percent(6))
        scene->system = below(SYSTEMS);
    if (percent(4))
        scene->system = PICK(none);
    look_somewhere(scene);
}

static void make_frame(struct scene *scene)
{
    uint32_t kind = below(100), kept = below(KEPT);
    set_length(FRAME, frame_size(scene->made));
    if (kind < 5) {
        make_rubbish(scene);
    } else {
        memcpy(content(FRAME), pool[scene->made][kept], frame_size(scene->made));
        if (percent(50))
            everywhere(scene, give_spare_bits, percent(50) ? ANY_SPARE : percent(50) ? below(SPARE_VALUES) : 0);
        if (kind >= 20 && kind < 50)
            damage_blocks(scene);
        if (kind >= 45)
            damage_packs(scene);
    }
    share(FRAME, frame_size(scene->made));
    if (percent(4))
        lend_bytes(&buffers[FRAME], wrong_frame_length(scene));
}

/* ---- What the writer is lent */

static void make_sound(void)
{
    static const int32_t extremes[] = {-32768, -32767, -1, 0, 1, 32766, 32767, 32768};
    int32_t *sound = (int32_t *)(void *)content(SOUND);
    size_t samples = elements(SOUND);
    uint32_t kind = below(4), pitch = below(1000), lost = percent(50) ? 1 + below(20) : 0;
    for (size_t sample = 0; sample < samples; sample++) {
        uint64_t chance = draw();
        if (lost && chance >> 40 < (uint64_t)lost << 16)
            sound[sample] = DV100_LOST;
        else if (kind == 0)
            sound[sample] = extremes[chance & 7];
        else if (kind == 1)
            sound[sample] = (int32_t)(sample * pitch % 65536) - 32768;
        else
            sound[sample] = (int32_t)(chance & 0xFFFF) - 32768;
    }
}

static void break_sample(void)
{
    static const int32_t none[] = {32769, -32769, 65535, 65536, -65536, 0x7FFFFFFF, -0x7FFFFFFF - 1};
    int32_t *sound = (int32_t *)(void *)content(SOUND);
    size_t samples = elements(SOUND);
    if (samples == 0)
        return;
    size_t at = percent(20) ? 0 : percent(20) ? samples - 1 : below((uint32_t)samples);
    sound[at] = percent(80) ? PICK(none) : (int32_t)(uint32_t)draw();
}

static uint8_t two_digits(uint32_t value)
{
    return (uint8_t)(value / 10 << 4 | value % 10);
}

/* A right time code with any flags; the edges of the ranges come often. */
static void make_time_code(uint8_t *time_code, bool rate_50)
{
    uint32_t last[4] = {rate_50 ? 24 : 29, 59, 59, 23};
    static const uint8_t flags[4] = {0xC0, 0x80, 0x80, 0xC0};
    for (uint32_t byte = 0; byte < 4; byte++) {
        uint32_t value = percent(20) ? last[byte] : below(last[byte] + 1);
        uint8_t any = (uint8_t)draw();
        time_code[byte] = (uint8_t)(two_digits(value) | (any & flags[byte]));
    }
    if (rate_50)
        time_code[0] |= 0x40;
}

static void break_time_code(uint8_t *time_code, bool rate_50)
{
    uint32_t first_wrong[4] = {rate_50 ? 25 : 30, 60, 60, 24}, byte = below(4);
    uint8_t any = (uint8_t)draw();
    switch (below(5)) {
    case 0:
        time_code[byte] = any;
        break;
    case 1:
        time_code[byte] = (uint8_t)((time_code[byte] & 0xC0) | two_digits(first_wrong[byte]));
        break;
    case 2:
        time_code[byte] = (uint8_t)((time_code[byte] & 0x80) | (10 + below(6)));
        break;
    case 3:
        time_code[byte] = (uint8_t)((time_code[byte] & 0xCF) | (any & 0x30));
        break;
    default:
        time_code[0] &= 0xBF;
        break;
    }
}

static uint32_t pick_count(uint32_t system)
{
    static const uint32_t odd[] = {0, 1, 1599, 1600, 1601, 1602, 1603, 1619, 1620, 1920, 1944, 0x20000640, 0x80000640, 0xFFFFFFFF};
    uint32_t either = below(2);
    return percent(94) ? facts[system].counts[either] : PICK(odd);
}

static size_t at_most(size_t value, size_t limit)
{
    return value < limit ? value : limit;
}

static uint32_t make_lent(uint32_t like)
{
    uint32_t count = pick_count(like);
    bool lengths = percent(10);
    size_t sound = 8 * at_most(count, 1944), macroblocks = (size_t)77 * facts[like].macroblocks;
    set_length(SOUND, lengths ? length_about(sound) : sound);
    set_length(MACROBLOCKS, lengths ? length_about(macroblocks) : macroblocks);
    set_length(TIME_CODE, lengths ? length_about(4) : 4);
    set_length(BINARY_GROUP, lengths ? length_about(4) : 4);
    set_length(TARGET, percent(80) ? frame_size(like) : length_about(frame_size(like)));
    make_sound();
    if (percent(10))
        break_sample();
    make_time_code(content(TIME_CODE), at_50_hz(like));
    if (percent(15))
        break_time_code(content(TIME_CODE), at_50_hz(like));
    fill_noise(content(BINARY_GROUP), 4);
    share(SOUND, buffers[SOUND].length);
    share(TIME_CODE, 4);
    share(BINARY_GROUP, 4);
    return count;
}

/* ---- The eleven calls on both sides */

static const char *only_number[] = {"number"};
static const char *id_fields[] = {"number", "section", "channel", "sequence", "block", "arbitrary", "reserved"};
static const char *survey_fields[] = {"number", "total", "kept"};
static const char *part_fields[] = {"number", "start", "length"};
static const char *audio_fields[] = {"number", "count"};
static const char *time_fields[] = {"number",  "time code 0", "time code 1", "time code 2", "time code 3",
                                    "group 0", "group 1",     "group 2",     "group 3"};

static void ask_read_id(void)
{
    share(ID, 3);
    size_t length = elements(ID);
    ask("read_id, %zu bytes", length);
    struct dv100_id library = dv100_read_id(lend(ID, LIBRARY), length), plain = plain_read_id(lend(ID, PLAIN), length);
    uint32_t said[] = {library.number, library.section,   library.channel, library.sequence,
                       library.block,  library.arbitrary, library.reserved};
    uint32_t wanted[] = {plain.number, plain.section, plain.channel, plain.sequence, plain.block, plain.arbitrary, plain.reserved};
    answered(READ_ID, id_fields, said, wanted, COUNT(said));
    unchanged(ID);
}

static void try_read_id(const struct scene *scene)
{
    set_length(ID, percent(90) ? 3 : below(9));
    if (percent(50))
        memcpy(content(ID), block_of(scene), 3);
    else
        fill_noise(content(ID), 3);
    ask_read_id();
}

static bool survey_answered(enum call call, struct dv100_survey library, struct dv100_survey plain)
{
    uint32_t said[] = {library.number, library.total, library.kept}, wanted[] = {plain.number, plain.total, plain.kept};
    return answered(call, survey_fields, said, wanted, COUNT(said));
}

static void try_survey(const struct scene *scene)
{
    set_length(LIST, list_length());
    size_t length = elements(FRAME), list = elements(LIST);
    ask("survey, system %" PRIu32 ", frame %zu, list %zu", scene->system, length, list);
    struct dv100_survey library = dv100_survey(scene->system, lend(FRAME, LIBRARY), length, lend(LIST, LIBRARY), list);
    struct dv100_survey plain = plain_survey(scene->system, lend(FRAME, PLAIN), length, lend(LIST, PLAIN), list);
    bool success = survey_answered(SURVEY, library, plain);
    unchanged(FRAME);
    changed(LIST, success);
}

static void try_survey_sequence(const struct scene *scene)
{
    struct scene here = *scene;
    if (percent(50))
        look_somewhere(&here);
    set_length(BYTES, SEQUENCE);
    memcpy(content(BYTES), sequence_of(&here), SEQUENCE);
    share(BYTES, SEQUENCE);
    set_length(LIST, list_length());
    uint32_t channel = percent(80) ? here.channel : number_below(DIF_CHANNELS);
    uint32_t sequence = percent(80) ? here.sequence : number_below(12);
    if (percent(10))
        lend_bytes(&buffers[BYTES], length_about(SEQUENCE));
    size_t length = elements(BYTES), list = elements(LIST);
    ask("survey_sequence, system %" PRIu32 ", channel %" PRIu32 ", sequence %" PRIu32 ", %zu bytes, list %zu", here.system, channel,
        sequence, length, list);
    struct dv100_survey library =
        dv100_survey_sequence(here.system, channel, sequence, lend(BYTES, LIBRARY), length, lend(LIST, LIBRARY), list);
    struct dv100_survey plain =
        plain_survey_sequence(here.system, channel, sequence, lend(BYTES, PLAIN), length, lend(LIST, PLAIN), list);
    bool success = survey_answered(SURVEY_SEQUENCE, library, plain);
    unchanged(BYTES);
    changed(LIST, success);
}

static void part_answered(enum call call, struct dv100_part library, struct dv100_part plain)
{
    uint32_t said[] = {library.number, library.start, library.length}, wanted[] = {plain.number, plain.start, plain.length};
    answered(call, part_fields, said, wanted, COUNT(said));
}

static void ask_view(const struct scene *scene, uint32_t channel, uint32_t sequence, uint32_t place)
{
    size_t length = elements(FRAME);
    ask("view, system %" PRIu32 ", frame %zu, channel %" PRIu32 ", sequence %" PRIu32 ", place %" PRIu32, scene->system, length,
        channel, sequence, place);
    part_answered(VIEW, dv100_view(scene->system, lend(FRAME, LIBRARY), length, channel, sequence, place),
                  plain_view(scene->system, lend(FRAME, PLAIN), length, channel, sequence, place));
}

static void try_view(const struct scene *scene)
{
    bool there = percent(60);
    uint32_t channel = there ? scene->channel : number_below(DIF_CHANNELS);
    uint32_t sequence = there ? scene->sequence : number_below(facts[scene->made].sequences);
    uint32_t place = there ? scene->place : number_below(PLACES);
    ask_view(scene, channel, sequence, place);
    unchanged(FRAME);
}

static void ask_check(const struct scene *scene)
{
    size_t length = elements(FRAME);
    ask("check, system %" PRIu32 ", frame %zu", scene->system, length);
    uint32_t library = dv100_check(scene->system, lend(FRAME, LIBRARY), length);
    uint32_t plain = plain_check(scene->system, lend(FRAME, PLAIN), length);
    answered(CHECK, only_number, &library, &plain, 1);
}

/* The audio channel that has its sound in the sequence. */
static uint32_t audio_channel_of(const struct scene *scene)
{
    return 2 * scene->channel + (in_first_half(scene) ? 1 : 2);
}

/* Whether there is such an audio channel, and a whole frame is lent. */
static bool has_audio_channel(const struct scene *scene, uint32_t audio_channel)
{
    return audio_channel >= 1 && audio_channel <= 8 && elements(FRAME) == frame_size(scene->made);
}

/* The first sequence of an audio channel, in the scene's frame. */
static struct scene first_of(const struct scene *scene, uint32_t audio_channel)
{
    struct scene first = *scene;
    first.channel = (audio_channel - 1) / 2;
    first.sequence = audio_channel % 2 ? 0 : facts[scene->made].sequences / 2;
    return first;
}

/* How many AS packs of an audio channel say 1111, where a whole frame is lent. */
static uint32_t marks_in(const struct scene *scene, uint32_t audio_channel)
{
    uint32_t half = facts[scene->made].sequences / 2, marks = 0;
    if (!has_audio_channel(scene, audio_channel))
        return 0;
    struct scene here = first_of(scene, audio_channel);
    for (uint32_t left = half; left > 0; left--, here.sequence++)
        marks += (as_of(&here)[2] & 0x0F) == 0x0F;
    return marks;
}

/* The library's read of a channel with marks: met, and where it has succeeded every sample is lost. */
static void marked_answered(struct dv100_audio library)
{
    const int32_t *samples = lend(SAMPLES, LIBRARY);
    if (library.number > LAST_NUMBER || !(allowed[MARKED_READ] >> library.number & 1))
        return;
    met[MARKED_READ][library.number]++;
    for (uint32_t sample = 0; sample < library.count && sample < elements(SAMPLES); sample++)
        if (samples[sample] != DV100_LOST) {
            difference("sample %" PRIu32 " of a channel of mode 1111 is %" PRId32, sample, samples[sample]);
            return;
        }
}

static void ask_read_audio(const struct scene *scene, uint32_t audio_channel)
{
    size_t length = elements(FRAME), samples = elements(SAMPLES);
    ask("read_audio, system %" PRIu32 ", frame %zu, audio channel %" PRIu32 ", samples %zu", scene->system, length, audio_channel,
        samples);
    struct dv100_audio library =
        dv100_read_audio(scene->system, lend(FRAME, LIBRARY), length, audio_channel, lend(SAMPLES, LIBRARY), samples);
    struct dv100_audio plain =
        plain_read_audio(scene->system, lend(FRAME, PLAIN), length, audio_channel, lend(SAMPLES, PLAIN), samples);
    uint32_t said[] = {library.number, library.count}, wanted[] = {plain.number, plain.count};
    bool success = answered(READ_AUDIO, audio_fields, said, wanted, COUNT(said));
    if (marks_in(scene, audio_channel) > 0)
        marked_answered(library);
    changed(SAMPLES, success);
}

static void try_read_audio(const struct scene *scene)
{
    set_length(SAMPLES, length_about(facts[scene->made].positions));
    ask_read_audio(scene, percent(60) ? audio_channel_of(scene) : percent(20) ? 9 * below(2) : 1 + number_below(8));
    unchanged(FRAME);
}

static void ask_macroblock(const struct scene *scene, uint32_t macroblock)
{
    size_t length = elements(FRAME);
    ask("macroblock, system %" PRIu32 ", frame %zu, macroblock %" PRIu32, scene->system, length, macroblock);
    part_answered(MACROBLOCK, dv100_macroblock(scene->system, lend(FRAME, LIBRARY), length, macroblock),
                  plain_macroblock(scene->system, lend(FRAME, PLAIN), length, macroblock));
}

static void try_macroblock(const struct scene *scene)
{
    uint32_t limit = facts[scene->made].macroblocks;
    ask_macroblock(scene, percent(10) ? limit - 1 - below(140) : number_below(limit));
    unchanged(FRAME);
}

static void ask_read_time(const struct scene *scene)
{
    size_t length = elements(FRAME);
    ask("read_time, system %" PRIu32 ", frame %zu", scene->system, length);
    struct dv100_time library = dv100_read_time(scene->system, lend(FRAME, LIBRARY), length);
    struct dv100_time plain = plain_read_time(scene->system, lend(FRAME, PLAIN), length);
    uint32_t said[9] = {library.number}, wanted[9] = {plain.number};
    for (uint32_t byte = 0; byte < 4; byte++) {
        said[1 + byte] = library.time_code[byte];
        wanted[1 + byte] = plain.time_code[byte];
        said[5 + byte] = library.binary_group[byte];
        wanted[5 + byte] = plain.binary_group[byte];
    }
    answered(READ_TIME, time_fields, said, wanted, COUNT(said));
}

static void try_salvage(const struct scene *scene)
{
    set_length(SAMPLES, length_about((size_t)8 * facts[scene->made].positions));
    set_length(LIST, list_length());
    size_t length = elements(FRAME), samples = elements(SAMPLES), list = elements(LIST);
    ask("salvage, system %" PRIu32 ", frame %zu, samples %zu, list %zu", scene->system, length, samples, list);
    struct dv100_survey library = dv100_salvage(scene->system, lend(FRAME, LIBRARY), length, lend(SAMPLES, LIBRARY), samples,
                                                lend(LIST, LIBRARY), list);
    struct dv100_survey plain =
        plain_salvage(scene->system, lend(FRAME, PLAIN), length, lend(SAMPLES, PLAIN), samples, lend(LIST, PLAIN), list);
    bool success = survey_answered(SALVAGE, library, plain);
    unchanged(FRAME);
    changed(SAMPLES, success);
    changed(LIST, success);
}

/* The count that the first AS of an audio channel says; where it says none, one that the system has. */
static uint32_t count_in(const struct scene *scene, uint32_t audio_channel)
{
    const uint32_t *counts = facts[scene->made].counts;
    if (!has_audio_channel(scene, audio_channel))
        return counts[0];
    struct scene first = first_of(scene, audio_channel);
    return counts[(as_of(&first)[1] & 0x3F) == 22];
}

/* Where the library has replaced an audio channel: every byte outside of its sequences is as it was. */
static void only_audio_channel_changed(const struct scene *scene, uint32_t audio_channel)
{
    struct buffer *frame = &buffers[FRAME];
    size_t size = facts[scene->system].sequences / 2 * SEQUENCE, from = frame->start + (audio_channel - 1) * size;
    compare(frame, "before the audio channel", frame->side[LIBRARY], frame->before, frame->start, from);
    compare(frame, "behind the audio channel", frame->side[LIBRARY], frame->before, from + size, frame->start + frame->length);
}

/* Tells whether it has succeeded: then the frames were compared and are as before again. Else the frames, and in any case the
 * samples, have yet to be looked at. */
static bool ask_replace_audio(const struct scene *scene, uint32_t audio_channel)
{
    size_t length = elements(FRAME), samples = elements(SOUND);
    ask("replace_audio, system %" PRIu32 ", frame %zu, audio channel %" PRIu32 ", samples %zu", scene->system, length,
        audio_channel, samples);
    uint32_t library =
        dv100_replace_audio(scene->system, lend(FRAME, LIBRARY), length, audio_channel, lend(SOUND, LIBRARY), samples);
    uint32_t plain = plain_replace_audio(scene->system, lend(FRAME, PLAIN), length, audio_channel, lend(SOUND, PLAIN), samples);
    bool success = answered(REPLACE_AUDIO, only_number, &library, &plain, 1);
    if (success) {
        only_audio_channel_changed(scene, audio_channel);
        changed(FRAME, true);
    }
    return success;
}

static void replace_and_look(const struct scene *scene, uint32_t audio_channel)
{
    if (!ask_replace_audio(scene, audio_channel))
        changed(FRAME, false);
    unchanged(SOUND);
}

static void try_replace_audio(const struct scene *scene)
{
    uint32_t audio_channel = percent(70) ? audio_channel_of(scene) : percent(10) ? 9 * below(2) : 1 + number_below(8);
    set_length(SOUND, length_about(count_in(scene, audio_channel)));
    make_sound();
    if (percent(10))
        break_sample();
    share(SOUND, buffers[SOUND].length);
    replace_and_look(scene, audio_channel);
}

typedef uint32_t writer(uint32_t system, uint32_t count, const int32_t *sound, size_t sound_length, const uint8_t *macroblocks,
                        size_t macroblocks_length, const uint8_t *time_code, size_t time_code_length,
                        const uint8_t *binary_group, size_t binary_group_length, uint8_t *frame, size_t frame_length);

static uint32_t write_by(writer *write, int side, uint32_t system, uint32_t count)
{
    return write(system, count, lend(SOUND, side), elements(SOUND), lend(MACROBLOCKS, side), elements(MACROBLOCKS),
                 lend(TIME_CODE, side), elements(TIME_CODE), lend(BINARY_GROUP, side), elements(BINARY_GROUP), lend(TARGET, side),
                 elements(TARGET));
}

static void ask_write(const struct scene *scene, uint32_t count, uint8_t *keep)
{
    ask("write, system %" PRIu32 ", count %" PRIu32 ", sound %zu, macroblocks %zu, time code %zu, group %zu, frame %zu",
        scene->system, count, elements(SOUND), elements(MACROBLOCKS), elements(TIME_CODE), elements(BINARY_GROUP),
        elements(TARGET));
    uint32_t library = write_by(dv100_write, LIBRARY, scene->system, count);
    uint32_t plain = write_by(plain_write, PLAIN, scene->system, count);
    bool success = answered(WRITE, only_number, &library, &plain, 1);
    for (enum lent lent = SOUND; lent <= BINARY_GROUP; lent++)
        unchanged(lent);
    if (success && keep)
        memcpy(keep, lend(TARGET, PLAIN), frame_size(scene->system));
    changed(TARGET, success);
}

static void try_write(const struct scene *scene)
{
    uint32_t like = percent(95) && scene->system < SYSTEMS ? scene->system : scene->made;
    uint32_t count = make_lent(like), kept = below(KEPT);
    ask_write(scene, count, percent(50) && like == scene->system ? pool[like][kept] : NULL);
}

/* ---- Cases */

static void run_case(void)
{
    struct scene scene;
    if (case_number % 16 == 0)
        renew(&buffers[MACROBLOCKS]);
    set_scene(&scene);
    make_frame(&scene);
    for (int turn = 0; turn < 3; turn++) {
        try_read_id(&scene);
        try_view(&scene);
    }
    try_survey_sequence(&scene);
    try_survey_sequence(&scene);
    try_survey(&scene);
    ask_check(&scene);
    unchanged(FRAME);
    try_read_audio(&scene);
    try_read_audio(&scene);
    try_macroblock(&scene);
    ask_read_time(&scene);
    unchanged(FRAME);
    try_salvage(&scene);
    try_replace_audio(&scene);
    try_replace_audio(&scene);
    try_write(&scene);
}

/* Makes something to write that is taken, and puts the frame where it is kept. Answers the count. */
static uint32_t write_one(uint32_t system, uint8_t *kept)
{
    uint32_t count;
    do
        count = make_lent(system);
    while (write_by(plain_write, PLAIN, system, count) != 0);
    memcpy(kept, lend(TARGET, PLAIN), frame_size(system));
    copy_to_sides(&buffers[TARGET], 0, whole(&buffers[TARGET]));
    return count;
}

static void set_up_pool(void)
{
    for (uint32_t system = 0; system < SYSTEMS; system++)
        for (uint32_t kept = 0; kept < KEPT; kept++) {
            pool[system][kept] = allocate(LONGEST);
            write_one(system, pool[system][kept]);
        }
}

/* ---- Sweeps: what can be tried in full */

/* Every first and second byte of an ID. */
static void sweep_ids(void)
{
    set_length(ID, 3);
    for (uint32_t id = 0; id < 1 << 16; id++) {
        content(ID)[0] = (uint8_t)(id >> 8);
        content(ID)[1] = (uint8_t)id;
        content(ID)[2] = (uint8_t)below(256);
        ask_read_id();
    }
}

/* Every block and every macroblock. */
static void sweep_parts(const struct scene *scene)
{
    for (uint32_t channel = 0; channel < DIF_CHANNELS; channel++)
        for (uint32_t sequence = 0; sequence < facts[scene->made].sequences; sequence++)
            for (uint32_t place = 0; place < PLACES; place++)
                ask_view(scene, channel, sequence, place);
    for (uint32_t macroblock = 0; macroblock < facts[scene->made].macroblocks; macroblock++)
        ask_macroblock(scene, macroblock);
}

/* Reads the audio channel, and replaces it. */
static void ask_own_audio(const struct scene *scene)
{
    ask_read_audio(scene, audio_channel_of(scene));
    ask_replace_audio(scene, audio_channel_of(scene));
}

static void ask_strict_reads(const struct scene *scene)
{
    ask_check(scene);
    ask_own_audio(scene);
    ask_macroblock(scene, scene->sequence);
    ask_read_time(scene);
}

typedef void question(const struct scene *scene);

/* Puts every value in each of some bytes of the frame, or flips each of their bits, and asks. */
static void sweep_bytes(const struct scene *scene, uint8_t *bytes, size_t count, bool values, question *question)
{
    for (uint8_t *byte = bytes; byte < bytes + count; byte++) {
        uint8_t held = *byte;
        for (uint32_t turn = 0; turn < (values ? 256 : 9); turn++) {
            /* after the eight bits, and after the values, the byte is as it was */
            *byte = values ? (uint8_t)(held + 1 + turn) : (uint8_t)(held ^ (1u << turn & 0xFF));
            copy_to_sides(&buffers[FRAME], (size_t)(byte - buffers[FRAME].before), 1);
            question(scene);
        }
    }
}

/* The AS once more, in an audio channel that says 1111. */
static void sweep_marked(const struct scene *scene)
{
    struct scene first = first_of_channel(scene);
    uint8_t *bytes = sequence_of(&first);
    size_t size = facts[scene->made].sequences / 2 * SEQUENCE;
    static uint8_t held[LONGEST];
    memcpy(held, bytes, size);
    set_modes(scene, 0x0F);
    copy_to_sides(&buffers[FRAME], (size_t)(bytes - buffers[FRAME].before), size);
    sweep_bytes(scene, as_of(scene), 5, true, ask_own_audio);
    memcpy(bytes, held, size);
    copy_to_sides(&buffers[FRAME], (size_t)(bytes - buffers[FRAME].before), size);
}

/* What a sequence says of its frame: header, VS, AS, time code. */
static void sweep_sequence(const struct scene *scene)
{
    uint8_t *bytes = sequence_of(scene);
    sweep_bytes(scene, bytes, 8, false, ask_strict_reads);
    sweep_bytes(scene, vs_of(scene), 5, true, ask_check);
    sweep_bytes(scene, as_of(scene), 5, true, ask_own_audio);
    sweep_marked(scene);
    for (uint32_t ssyb = 0; ssyb < 12; ssyb++)
        sweep_bytes(scene, pack_of(bytes, ssyb) - 3, 8, false, ask_read_time);
    sweep_bytes(scene, pack_of(bytes, 3), 5, true, ask_read_time);
}

/* Every value of each time code byte to be written. */
static void sweep_written_time(const struct scene *scene)
{
    uint32_t count = write_one(scene->made, pool[scene->made][0]);
    for (uint32_t byte = 0; byte < 4; byte++) {
        make_time_code(content(TIME_CODE), at_50_hz(scene->made));
        for (uint32_t value = 0; value < 256; value++) {
            content(TIME_CODE)[byte] = (uint8_t)value;
            share(TIME_CODE, 4);
            ask_write(scene, count, NULL);
        }
    }
}

/* ---- Sweeps of replacing: a frame that is taken, and a list of samples for it */

static void give_as(struct scene *scene, uint8_t *bytes, uint32_t count)
{
    uint8_t *as = as_of(scene);
    (void)bytes;
    as[0] = 0x50;
    as[1] = (uint8_t)((as[1] & 0x40) | (count == 1600 ? 20 : count == 1602 ? 22 : 24));
    as[2] = (uint8_t)((as[2] & 0x10) | (in_first_half(scene) ? 0 : 1));
    as[3] = (uint8_t)((as[3] & 0xC0) | (at_50_hz(scene->made) ? 0x23 : 0x03));
    as[4] &= 0xC0;
}

/* Right wherever a frame is judged and noise everywhere else, so that a bit which has to stay shows. */
static void make_replaceable(struct scene *scene, uint32_t count)
{
    set_length(FRAME, frame_size(scene->made));
    fill_noise(content(FRAME), frame_size(scene->made));
    everywhere(scene, give_ids, 0);
    everywhere(scene, give_packs, 0);
    everywhere(scene, give_as, count);
    share(FRAME, frame_size(scene->made));
}

static void make_new_samples(size_t length)
{
    set_length(SOUND, length);
    make_sound();
    share(SOUND, buffers[SOUND].length);
}

/* Asks for a replacement whose number is known. */
static void replace_with(const struct scene *scene, uint32_t audio_channel, uint32_t due)
{
    uint32_t before = met[REPLACE_AUDIO][due];
    replace_and_look(scene, audio_channel);
    if (met[REPLACE_AUDIO][due] == before)
        difference("number %" PRIu32 " is due", due);
}

/* Lists of other lengths, and every sort of number at the list's ends and inside. */
static void sweep_lists(const struct scene *scene, uint32_t audio_channel, size_t count)
{
    static const int32_t samples[] = {-32768, -32767, 32767, DV100_LOST};
    static const int32_t none[] = {-32769, 32769, 65536, -65536, INT32_MIN, INT32_MAX};
    size_t lengths[] = {0, 1, count - 1, count, count + 1, 1600, 1602, 1620, 1920, 1944, 2 * count};
    size_t places[] = {0, 1, count / 2, count - 1};
    for (size_t length = 0; length < COUNT(lengths); length++) {
        make_new_samples(lengths[length]);
        replace_with(scene, audio_channel, lengths[length] == count ? 0 : 29);
    }
    make_new_samples(count);
    for (size_t place = 0; place < COUNT(places); place++) {
        int32_t *sample = (int32_t *)(void *)content(SOUND) + places[place], held = *sample;
        for (size_t value = 0; value < COUNT(samples) + COUNT(none); value++) {
            bool taken = value < COUNT(samples);
            *sample = taken ? samples[value] : none[value - COUNT(samples)];
            share(SOUND, buffers[SOUND].length);
            replace_with(scene, audio_channel, taken ? 0 : 31);
        }
        *sample = held;
        share(SOUND, buffers[SOUND].length);
    }
}

/* One audio channel marked: it is refused, the others are not. */
static void sweep_marks(struct scene *scene, uint32_t marked, size_t count)
{
    struct scene first = first_of(scene, marked);
    make_replaceable(scene, (uint32_t)count);
    set_modes(&first, 0x0F);
    share(FRAME, frame_size(scene->made));
    make_new_samples(count);
    for (uint32_t audio_channel = 1; audio_channel <= 8; audio_channel++)
        replace_with(scene, audio_channel, audio_channel == marked ? 33 : 0);
}

/* At 60 Hz, one audio channel with the other count: each wants as many samples as itself says. */
static void sweep_counts(struct scene *scene, uint32_t recounted, size_t count)
{
    struct scene here = first_of(scene, recounted);
    make_replaceable(scene, (uint32_t)count);
    for (uint32_t left = facts[scene->made].sequences / 2; left > 0; left--, here.sequence++)
        as_of(&here)[1] ^= 0x02;
    share(FRAME, frame_size(scene->made));
    for (uint32_t audio_channel = 1; audio_channel <= 8; audio_channel++) {
        make_new_samples(1600);
        replace_with(scene, audio_channel, (audio_channel == recounted) == (count == 1600) ? 29 : 0);
        make_new_samples(1602);
        replace_with(scene, audio_channel, (audio_channel == recounted) == (count == 1602) ? 29 : 0);
    }
}

/* A replacement that is taken until a cause of a refusal is put in; the scene is some place of the audio channel. */
struct attempt {
    struct scene scene;
    uint32_t audio_channel;
};

static void other_system(struct attempt *attempt)
{
    attempt->scene.system = SYSTEMS;
}

static void shorter_frame(struct attempt *attempt)
{
    lend_bytes(&buffers[FRAME], frame_size(attempt->scene.made) - 1);
}

static void other_audio_channel(struct attempt *attempt)
{
    attempt->audio_channel = 9 * below(2);
}

static void reserved_section(struct attempt *attempt)
{
    reserve_section(&attempt->scene);
}

static void other_section(struct attempt *attempt)
{
    uint8_t *block = block_of(&attempt->scene);
    block[0] = (uint8_t)((block[0] & 0x1F) | ((block[0] >> 5) + 1) % 5 << 5);
}

static void other_dif_channel(struct attempt *attempt)
{
    block_of(&attempt->scene)[1] ^= 0x08;
}

static void other_sequence(struct attempt *attempt)
{
    block_of(&attempt->scene)[1] ^= 0x10;
}

static void other_block_number(struct attempt *attempt)
{
    block_of(&attempt->scene)[2] ^= 0x01;
}

static void other_rate(struct attempt *attempt)
{
    flip_rate(&attempt->scene);
}

static void other_vs(struct attempt *attempt)
{
    vs_of(&attempt->scene)[0] ^= 0x01;
}

static void invalid_sound(struct attempt *attempt)
{
    sequence_of(&attempt->scene)[5] |= 0x80;
}

static void other_as(struct attempt *attempt)
{
    as_of(&attempt->scene)[0] ^= 0x01;
}

/* Another count in one AS; at 50 Hz there is none, and one AS is marked where the others are not, or the other way. */
static void differing_as(struct attempt *attempt)
{
    uint8_t *as = as_of(&attempt->scene);
    if (!at_50_hz(attempt->scene.made))
        as[1] ^= 0x02;
    else
        set_mode(&attempt->scene, (as[2] & 0x0F) == 0x0F ? (attempt->audio_channel - 1) % 2 : 0x0F);
}

static void other_length(struct attempt *attempt)
{
    size_t length = buffers[SOUND].length;
    (void)attempt;
    lend_bytes(&buffers[SOUND], percent(50) ? length + 4 : length - 4);
}

static void no_sample(struct attempt *attempt)
{
    static const int32_t none[] = {-32769, 32769, INT32_MIN, INT32_MAX};
    (void)attempt;
    ((int32_t *)(void *)content(SOUND))[below((uint32_t)elements(SOUND))] = PICK(none);
}

static void marked_audio_channel(struct attempt *attempt)
{
    set_modes(&attempt->scene, 0x0F);
}

/* Every cause of a refusal, in document 01's order. Those of 11 to 15 are put in the same block. */
static const struct {
    uint32_t number;
    void (*put)(struct attempt *attempt);
} causes[] = {
    {1, other_system},   {2, shorter_frame},      {3, other_audio_channel}, {11, reserved_section},
    {12, other_section}, {13, other_dif_channel}, {14, other_sequence},     {15, other_block_number},
    {21, other_rate},    {22, other_vs},          {23, invalid_sound},      {24, other_as},
    {25, differing_as},  {29, other_length},      {31, no_sample},          {33, marked_audio_channel},
};

/* Two causes, or one twice: the lower number is given. It is put in last, since it may undo what the higher one stands on. */
static void sweep_pair(uint32_t system, uint32_t audio_channel, size_t lower, size_t higher)
{
    struct attempt attempt = {{.made = system, .system = system}, audio_channel};
    uint32_t either = below(2), half = facts[system].sequences / 2;
    make_replaceable(&attempt.scene, facts[system].counts[either]);
    attempt.scene = first_of(&attempt.scene, audio_channel);
    attempt.scene.sequence += below(half);
    attempt.scene.place = below(PLACES);
    make_new_samples(facts[system].counts[either]);
    if (higher != lower)
        causes[higher].put(&attempt);
    causes[lower].put(&attempt);
    copy_to_sides(&buffers[FRAME], 0, whole(&buffers[FRAME]));
    copy_to_sides(&buffers[SOUND], 0, whole(&buffers[SOUND]));
    replace_with(&attempt.scene, attempt.audio_channel, causes[lower].number);
}

/* Every system, count and audio channel; every two causes of a refusal. */
static void sweep_replacing(uint32_t system)
{
    struct scene scene = {.made = system, .system = system};
    for (uint32_t which = 0; which < (at_50_hz(system) ? 1 : 2); which++)
        for (uint32_t audio_channel = 1; audio_channel <= 8; audio_channel++) {
            make_replaceable(&scene, facts[system].counts[which]);
            sweep_lists(&scene, audio_channel, facts[system].counts[which]);
            sweep_marks(&scene, audio_channel, facts[system].counts[which]);
            if (!at_50_hz(system))
                sweep_counts(&scene, audio_channel, facts[system].counts[which]);
        }
    for (size_t higher = 0; higher < COUNT(causes); higher++)
        for (size_t lower = 0; lower <= higher; lower++)
            for (uint32_t turn = 0; turn < 2; turn++)
                sweep_pair(system, 1 + below(8), lower, higher);
}

static void sweep_frame(uint32_t system)
{
    uint32_t sequences = facts[system].sequences;
    struct scene scenes[] = { /* even and odd sequences of both halves */
        {system, system, 0, 0, 0},
        {system, system, 1, 1, 0},
        {system, system, 2, sequences - 2, 0},
        {system, system, 3, sequences - 1, 0},
    };
    set_length(FRAME, frame_size(system));
    memcpy(content(FRAME), pool[system][0], frame_size(system));
    everywhere(&scenes[0], give_spare_bits, ANY_SPARE);
    share(FRAME, frame_size(system));
    set_length(SAMPLES, facts[system].positions);
    make_new_samples(count_in(&scenes[0], 1));
    sweep_parts(&scenes[0]);
    for (size_t scene = 0; scene < COUNT(scenes); scene++)
        sweep_sequence(&scenes[scene]);
    unchanged(FRAME);
    unchanged(SOUND);
    sweep_written_time(&scenes[0]);
    sweep_replacing(system);
}

static void sweep(void)
{
    sweep_ids();
    for (uint32_t system = 0; system < SYSTEMS; system++)
        sweep_frame(system);
}

/* ---- The report */

/* How often each call answered each number, '.' where the paper has none; answers how many that it has were never met. */
static uint32_t print_table(void)
{
    uint32_t never = 0;
    printf("%-16s", "answered");
    for (size_t column = 0; column < COUNT(numbers); column++)
        printf("%7d", numbers[column]);
    printf("\n");
    for (int call = 0; call < ROWS; call++) {
        printf("%-16s", call_names[call]);
        for (size_t column = 0; column < COUNT(numbers); column++) {
            uint32_t number = numbers[column];
            if (!(allowed[call] >> number & 1)) {
                printf("%7s", ".");
                continue;
            }
            printf("%7" PRIu32, met[call][number]);
            never += met[call][number] == 0;
        }
        printf("\n");
    }
    return never;
}

/* 1234567 as 1,234,567 */
static const char *grouped(uint64_t value)
{
    static char text[32];
    char *at = text + sizeof text - 1;
    uint32_t digits = 0;
    *at = '\0';
    do {
        if (digits > 0 && digits % 3 == 0)
            *--at = ',';
        *--at = (char)('0' + value % 10);
        value /= 10;
        digits++;
    } while (value > 0);
    return at;
}

int main(int argc, char **argv)
{
    uint32_t cases = argc > 1 ? (uint32_t)strtoul(argv[1], NULL, 10) : 20000;
    chance_state = argc > 2 ? strtoull(argv[2], NULL, 10) : 1620;
    set_up_buffers();
    set_up_pool();
    for (case_number = 1; case_number <= cases; case_number++)
        run_case();
    uint32_t never = print_table();
    uint64_t of_cases = calls;
    case_number = 0;
    sweep();
    printf("sweeps, as case 0: %s calls\n", grouped(calls - of_cases));
    printf("differential test: %" PRIu32 " cases, %s calls, ", cases, grouped(of_cases));
    if (differences == 0)
        printf("no difference");
    else
        printf("%s differences", grouped(differences));
    if (never > 0)
        printf("; FAILED: %" PRIu32 " numbers of the table were never met", never);
    printf("\n");
    return differences > 0 || never > 0;
}
