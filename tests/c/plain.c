/* The eleven calls of dv100.h in plain C. Names and numbers are the paper's; a block's bytes count from its start. */
#include "plain.h"

#include <stdbool.h>
#include <string.h>

enum { SYSTEMS = 4, DIF_CHANNELS = 4, PLACES = 150, BLOCK = 80, SEQUENCE = PLACES * BLOCK };
enum { AUDIO_CHANNELS = 8, AUDIO_BLOCKS = 9, WORDS = 36, SOUND = 8 };
enum { UNITS = 27, UNIT = 5, SLOTS = UNITS * UNIT, MACROBLOCK = 77, EDGE = 5940 };

struct system {
    uint32_t sequences, half; /* n and s = n / 2 */
    uint32_t positions, fewer, more, macroblocks;
    uint32_t rate;            /* 1 at 50 Hz */
    uint32_t vs_source;       /* PC3 of VS, bits 5-0 */
    uint32_t last_frame;      /* of a second */
    uint32_t rows;            /* of macroblocks in a DIF channel's part of the picture */
    uint32_t i_step, k_every; /* from g to g + 1 i goes on by i_step; after k_every steps k goes on by 1 */
};

static const struct system systems[SYSTEMS] = {
    {10, 5, 1620, 1600, 1602, 5400, 0, 0x14, 29, 10, 2, 5},
    {12, 6, 1944, 1920, 1920, 6075, 1, 0x34, 24, 11, 1, 11},
    {10, 5, 1620, 1600, 1602, 5400, 0, 0x18, 29, 10, 2, 5},
    {12, 6, 1944, 1920, 1920, 5400, 1, 0x38, 24, 10, 2, 5},
};

static size_t frame_size(const struct system *own)
{
    return (size_t)own->sequences * DIF_CHANNELS * SEQUENCE;
}

/* ---- Block IDs: four bytes of a block as one number, the first byte lowest; the fourth is no part of the ID */

enum { SECTION = 0xE0, CHANNEL = 0x0C00, DSEQ = 0xF000, JUDGED = 0xFFFCE0 };

#define ID(section, block) ((uint32_t)(section) << 5 | 0x1F | (uint32_t)(block) << 16)
#define VIDEO3(v) ID(4, v), ID(4, (v) + 1), ID(4, (v) + 2)
#define VIDEO15(v) VIDEO3(v), VIDEO3((v) + 3), VIDEO3((v) + 6), VIDEO3((v) + 9), VIDEO3((v) + 12)
#define AUDIO_AND_VIDEO(a) ID(3, a), VIDEO15(15 * (a))

static const uint32_t place_ids[PLACES] = {
    ID(0, 0), ID(1, 0), ID(1, 1), ID(2, 0), ID(2, 1), ID(2, 2),
    AUDIO_AND_VIDEO(0), AUDIO_AND_VIDEO(1), AUDIO_AND_VIDEO(2),
    AUDIO_AND_VIDEO(3), AUDIO_AND_VIDEO(4), AUDIO_AND_VIDEO(5),
    AUDIO_AND_VIDEO(6), AUDIO_AND_VIDEO(7), AUDIO_AND_VIDEO(8),
};

/* What the IDs of a sequence have in common, their second byte: FSC is the DIF channel's low bit, FSP 1 below channel 2. */
static uint32_t sequence_id(uint32_t channel, uint32_t sequence)
{
    return (sequence << 4 | (channel & 1) << 3 | (uint32_t)(channel < 2) << 2 | 3) << 8;
}

static uint32_t load_id(const uint8_t *block)
{
    return block[0] | (uint32_t)block[1] << 8 | (uint32_t)block[2] << 16 | (uint32_t)block[3] << 24;
}

/* Four bytes at once: whoever starts a block writes its fourth byte next. */
static void store_id(uint8_t *block, uint32_t id)
{
    block[0] = (uint8_t)id;
    block[1] = (uint8_t)(id >> 8);
    block[2] = (uint8_t)(id >> 16);
    block[3] = (uint8_t)(id >> 24);
}

/* 0, or the lowest of 11 to 15 that fits. */
static uint32_t fault_of(uint32_t id, uint32_t wanted)
{
    uint32_t differs = (id ^ wanted) & JUDGED;
    if (!differs)
        return 0;
    if ((id & SECTION) > 4 << 5)
        return 11;
    if (differs & SECTION)
        return 12;
    if (differs & CHANNEL)
        return 13;
    return differs & DSEQ ? 14 : 15;
}

static uint32_t id_differs(const uint8_t *bytes, size_t place, uint32_t common)
{
    return load_id(bytes + place * BLOCK) ^ (place_ids[place] | common);
}

/* Five blocks a turn: single ones gcc 12 gathers in vectors, through memory, and takes four times as long. */
static bool all_name_their_place(const uint8_t *bytes, uint32_t common)
{
    uint32_t differs = 0;
    for (size_t place = 0; place < PLACES; place += 5)
        differs |= id_differs(bytes, place, common) | id_differs(bytes, place + 1, common) | id_differs(bytes, place + 2, common) |
                   id_differs(bytes, place + 3, common) | id_differs(bytes, place + 4, common);
    return !(differs & JUDGED);
}

struct dv100_id plain_read_id(const uint8_t *id, size_t id_length)
{
    struct dv100_id answer = {0};
    if (id_length != 3) {
        answer.number = 4;
    } else if (id[0] >> 5 > 4) {
        answer.number = 11;
    } else {
        answer.section = id[0] >> 5;
        answer.channel = (id[1] >> 3 & 1u) | (id[1] & 4u ? 0 : 2u);
        answer.sequence = id[1] >> 4;
        answer.block = id[2];
        answer.arbitrary = id[0] & 0x0F;
        answer.reserved = (id[0] >> 2 & 4u) | (id[1] & 3u);
    }
    return answer;
}

/* ---- Surveys */

struct notes {
    uint32_t *list;
    size_t room;
    uint32_t total;
};

static void note(struct notes *notes, uint32_t channel, uint32_t sequence, uint32_t place, uint32_t fault)
{
    if (notes->total < notes->room) {
        uint32_t *record = notes->list + (size_t)notes->total * 4;
        record[0] = channel;
        record[1] = sequence;
        record[2] = place;
        record[3] = fault;
    }
    notes->total++;
}

/* Notes a sequence's faults and answers whether it has none, which is found without a branch a block. */
static bool survey_next(const uint8_t *bytes, uint32_t channel, uint32_t sequence, struct notes *notes)
{
    uint32_t common = sequence_id(channel, sequence);
    if (all_name_their_place(bytes, common))
        return true;
    for (uint32_t place = 0; place < PLACES; place++) {
        uint32_t fault = fault_of(load_id(bytes + (size_t)place * BLOCK), place_ids[place] | common);
        if (fault)
            note(notes, channel, sequence, place, fault);
    }
    return false;
}

static struct dv100_survey surveyed(const struct notes *notes)
{
    struct dv100_survey answer = {0, notes->total, notes->total};
    if (notes->room < notes->total)
        answer.kept = (uint32_t)notes->room;
    return answer;
}

struct dv100_survey plain_survey(uint32_t system, const uint8_t *frame, size_t frame_length, uint32_t *list, size_t list_length)
{
    if (system >= SYSTEMS)
        return (struct dv100_survey){1, 0, 0};
    const struct system *own = &systems[system];
    if (frame_length != frame_size(own))
        return (struct dv100_survey){2, 0, 0};
    struct notes notes = {list, list_length / 4, 0};
    for (uint32_t channel = 0; channel < DIF_CHANNELS; channel++)
        for (uint32_t sequence = 0; sequence < own->sequences; sequence++, frame += SEQUENCE)
            survey_next(frame, channel, sequence, &notes);
    return surveyed(&notes);
}

struct dv100_survey plain_survey_sequence(uint32_t system, uint32_t channel, uint32_t sequence, const uint8_t *bytes,
                                          size_t bytes_length, uint32_t *list, size_t list_length)
{
    if (system >= SYSTEMS)
        return (struct dv100_survey){1, 0, 0};
    if (channel >= DIF_CHANNELS || sequence >= systems[system].sequences)
        return (struct dv100_survey){3, 0, 0};
    if (bytes_length != SEQUENCE)
        return (struct dv100_survey){4, 0, 0};
    struct notes notes = {list, list_length / 4, 0};
    survey_next(bytes, channel, sequence, &notes);
    return surveyed(&notes);
}

struct dv100_part plain_view(uint32_t system, const uint8_t *frame, size_t frame_length, uint32_t channel, uint32_t sequence,
                             uint32_t place)
{
    if (system >= SYSTEMS)
        return (struct dv100_part){1, 0, 0};
    const struct system *own = &systems[system];
    if (frame_length != frame_size(own))
        return (struct dv100_part){2, 0, 0};
    if (channel >= DIF_CHANNELS || sequence >= own->sequences || place >= PLACES)
        return (struct dv100_part){3, 0, 0};
    uint32_t start = ((own->sequences * channel + sequence) * PLACES + place) * BLOCK;
    uint32_t fault = fault_of(load_id(frame + start), place_ids[place] | sequence_id(channel, sequence));
    if (fault)
        return (struct dv100_part){fault, 0, 0};
    return (struct dv100_part){0, start, BLOCK};
}

/* ---- The frame check */

enum { VS_EVEN = 5 * BLOCK + 3 + 5 * 9, VS_ODD = 3 * BLOCK + 3 }; /* packs 39 and 0 of VAUX, from the sequence's start */
enum { TF1 = 1, TF2 = 2, TF3 = 4 };

/* The number of the frame check, and which TF some header sets. */
struct verdict {
    uint32_t number, invalid;
};

static uint32_t first_fault(const uint8_t *bytes, uint32_t common)
{
    uint32_t fault = 0;
    for (size_t place = 0; place < PLACES && !fault; place++)
        fault = fault_of(load_id(bytes + place * BLOCK), place_ids[place] | common);
    return fault;
}

static bool vs_agrees(const struct system *own, const uint8_t *bytes, uint32_t sequence)
{
    const uint8_t *vs = bytes + (sequence & 1 ? VS_ODD : VS_EVEN);
    return vs[0] == 0x60 && (vs[3] & 0x3Fu) == own->vs_source;
}

/* One pass: a block's fault comes before all that headers and packs say, wherever those stand. */
static struct verdict judge(const struct system *own, const uint8_t *frame)
{
    uint32_t rate_differs = 0, tf1 = 0, tf2 = 0, tf3 = 0;
    bool vs_differs = false;
    const uint8_t *header = frame;
    for (uint32_t channel = 0; channel < DIF_CHANNELS; channel++)
        for (uint32_t sequence = 0; sequence < own->sequences; sequence++, header += SEQUENCE) {
            uint32_t common = sequence_id(channel, sequence);
            if (!all_name_their_place(header, common))
                return (struct verdict){first_fault(header, common), 0};
            rate_differs |= header[3] >> 7 ^ own->rate;
            tf1 |= header[5];
            tf2 |= header[6];
            tf3 |= header[7];
            vs_differs |= !(header[6] & 0x80) && !vs_agrees(own, header, sequence);
        }
    if (rate_differs || vs_differs)
        return (struct verdict){rate_differs ? 21 : 22, 0};
    return (struct verdict){0, (tf1 & 0x80 ? TF1 : 0) | (tf2 & 0x80 ? TF2 : 0) | (tf3 & 0x80 ? TF3 : 0)};
}

/* The frame check's number, or 23 where a header sets the flag that counts for the read. */
static uint32_t judge_for(const struct system *own, const uint8_t *frame, uint32_t flag)
{
    struct verdict verdict = judge(own, frame);
    if (verdict.number)
        return verdict.number;
    return verdict.invalid & flag ? 23 : 0;
}

uint32_t plain_check(uint32_t system, const uint8_t *frame, size_t frame_length)
{
    if (system >= SYSTEMS)
        return 1;
    if (frame_length != frame_size(&systems[system]))
        return 2;
    return judge(&systems[system], frame).number;
}

/* ---- Sound */

enum { A0 = 6 * BLOCK, A_NEXT = 16 * BLOCK };            /* audio blocks, from the sequence's start */
enum { AS_EVEN = A0 + 3 * A_NEXT + 3, AS_ODD = A0 + 3 }; /* packs 3 and 0 of AAUX */

/* The sample of word 0 in audio block 3y + j of a half's sequence `row`; the next words' samples follow in steps of 9s. */
static size_t first_sample(uint32_t half, uint32_t row, uint32_t y, uint32_t j)
{
    uint32_t x = row >= 2 * y ? row - 2 * y : row + half - 2 * y;
    return 3 * (half * j + x) + y;
}

static int32_t sample_of(const uint8_t *word)
{
    int32_t level = (int16_t)(uint16_t)(word[0] << 8 | word[1]);
    return level == -32768 ? DV100_LOST : level;
}

static void take_words(const uint8_t *block, int32_t *samples, size_t step, size_t words)
{
    for (size_t word = 0; word < words; word++)
        samples[word * step] = sample_of(block + SOUND + 2 * word);
}

static void lose_words(int32_t *samples, size_t step)
{
    for (size_t word = 0; word < WORDS; word++)
        samples[word * step] = DV100_LOST;
}

/* The samples below count of sequence `row` of a half of a DIF channel: every word but the last of a block is below every count. */
static void take_sequence(const struct system *own, const uint8_t *bytes, uint32_t row, int32_t *samples, size_t count)
{
    size_t step = (size_t)own->half * 9;
    const uint8_t *block = bytes + A0;
    for (uint32_t y = 0; y < 3; y++)
        for (uint32_t j = 0; j < 3; j++, block += A_NEXT) {
            size_t first = first_sample(own->half, row, y, j);
            size_t words = first + (WORDS - 1) * step < count ? WORDS : WORDS - 1;
            take_words(block, samples + first, step, words);
        }
}

/* The same for all positions of a sequence with faults: a block that does not name its place gives lost samples. */
static void rescue_sequence(const struct system *own, const uint8_t *bytes, uint32_t common, uint32_t row, int32_t *samples)
{
    size_t step = (size_t)own->half * 9;
    const uint8_t *block = bytes + A0;
    for (uint32_t y = 0; y < 3; y++)
        for (uint32_t j = 0; j < 3; j++, block += A_NEXT) {
            size_t first = first_sample(own->half, row, y, j);
            if (fault_of(load_id(block), ID(3, 3 * y + j) | common))
                lose_words(samples + first, step);
            else
                take_words(block, samples + first, step, WORDS);
        }
}

/* The count that AF size says, where an AS is right. */
static uint32_t count_of(const uint8_t *as)
{
    uint32_t size = as[1] & 0x3F;
    return size == 20 ? 1600 : size == 22 ? 1602 : 1920;
}

/* The mode of a channel that was not recorded. */
enum { UNRECORDED = 0x0F };

/* Bit 6 of PC1, bit 4 of PC2 and bits 7-6 of PC3 and PC4 are not judged. */
static bool as_ok(const struct system *own, const uint8_t *as, uint32_t mode)
{
    uint32_t size = as[1] & 0xBFu, said = as[2] & 0xEFu;
    bool size_ok = own->rate ? size == 24 : size == 20 || size == 22;
    return as[0] == 0x50 && size_ok && (said == mode || said == UNRECORDED) && (as[3] & 0x3Fu) == (own->rate << 5 | 3) &&
           (as[4] & 0x3F) == 0;
}

/* What comes of the AS packs of an audio channel: the number (24, 25 or 0), the count, and whether it was recorded. */
struct source {
    uint32_t number, count;
    bool recorded;
};

/* Of the channel whose half starts at `bytes`, with sequence `sequence`. */
static struct source judge_audio(const struct system *own, const uint8_t *bytes, uint32_t sequence, uint32_t mode)
{
    uint32_t first = 0, unrecorded = 0;
    bool differs = false;
    for (uint32_t row = 0; row < own->half; row++, sequence++, bytes += SEQUENCE) {
        const uint8_t *as = bytes + (sequence & 1 ? AS_ODD : AS_EVEN);
        if (!as_ok(own, as, mode))
            return (struct source){24, 0, false};
        uint32_t count = count_of(as);
        if (row == 0)
            first = count;
        differs |= count != first;
        unrecorded += (as[2] & 0x0F) == UNRECORDED;
    }
    differs |= unrecorded > 0 && unrecorded < own->half;
    return differs ? (struct source){25, 0, false} : (struct source){0, first, unrecorded == 0};
}

/* The first byte of an audio channel's half: audio channels in their order are the halves of the DIF channels. */
static size_t half_start(const struct system *own, uint32_t audio_channel)
{
    return (size_t)(audio_channel - 1) * own->half * SEQUENCE;
}

/* What is asked of a whole frame and an audio channel in it: the frame check, TF1, AS. */
static struct source judge_sound(const struct system *own, const uint8_t *frame, uint32_t audio_channel)
{
    uint32_t number = judge_for(own, frame, TF1), mode = (audio_channel - 1) & 1;
    if (number)
        return (struct source){number, 0, false};
    return judge_audio(own, frame + half_start(own, audio_channel), mode * own->half, mode);
}

struct dv100_audio plain_read_audio(uint32_t system, const uint8_t *frame, size_t frame_length, uint32_t audio_channel,
                                    int32_t *samples, size_t samples_length)
{
    if (system >= SYSTEMS)
        return (struct dv100_audio){1, 0};
    const struct system *own = &systems[system];
    if (frame_length != frame_size(own))
        return (struct dv100_audio){2, 0};
    if (audio_channel < 1 || audio_channel > AUDIO_CHANNELS)
        return (struct dv100_audio){3, 0};
    if (samples_length != own->positions)
        return (struct dv100_audio){4, 0};
    struct source source = judge_sound(own, frame, audio_channel);
    if (source.number)
        return (struct dv100_audio){source.number, 0};
    const uint8_t *bytes = frame + half_start(own, audio_channel);
    if (!source.recorded)
        for (uint32_t sample = 0; sample < source.count; sample++)
            samples[sample] = DV100_LOST;
    else
        for (uint32_t row = 0; row < own->half; row++)
            take_sequence(own, bytes + (size_t)row * SEQUENCE, row, samples, source.count);
    return (struct dv100_audio){0, source.count};
}

static void salvage_sequence(const struct system *own, const uint8_t *bytes, uint32_t audio_channel, uint32_t row,
                             int32_t *samples, struct notes *notes)
{
    uint32_t channel = (audio_channel - 1) / 2, sequence = audio_channel & 1 ? row : row + own->half;
    if (survey_next(bytes, channel, sequence, notes))
        take_sequence(own, bytes, row, samples, own->positions);
    else
        rescue_sequence(own, bytes, sequence_id(channel, sequence), row, samples);
}

/* One pass: audio channels in their order are the halves of the DIF channels in stream order. */
struct dv100_survey plain_salvage(uint32_t system, const uint8_t *frame, size_t frame_length, int32_t *samples,
                                  size_t samples_length, uint32_t *list, size_t list_length)
{
    if (system >= SYSTEMS)
        return (struct dv100_survey){1, 0, 0};
    const struct system *own = &systems[system];
    if (frame_length != frame_size(own))
        return (struct dv100_survey){2, 0, 0};
    if (samples_length != (size_t)own->positions * AUDIO_CHANNELS)
        return (struct dv100_survey){4, 0, 0};
    struct notes notes = {list, list_length / 4, 0};
    for (uint32_t audio_channel = 1; audio_channel <= AUDIO_CHANNELS; audio_channel++, samples += own->positions)
        for (uint32_t row = 0; row < own->half; row++, frame += SEQUENCE)
            salvage_sequence(own, frame, audio_channel, row, samples, &notes);
    return surveyed(&notes);
}

/* ---- Picture slots */

static const uint8_t slot_row[UNIT] = {2, 6, 8, 0, 4};
static const uint8_t slot_column[UNIT] = {2, 1, 3, 0, 4};
static const uint8_t column_slot[UNIT] = {3, 1, 0, 2, 4};

/* V(v) is at place 7 + v, and one further for each audio block that comes between. */
static uint32_t video_place(uint32_t v)
{
    return 7 + v + v / 15;
}

/* Where the macroblock's block starts: z is sought from i and k, which the number's row, column and rest give. */
static uint32_t carrier_of(const struct system *own, uint32_t macroblock)
{
    uint32_t channel, z, m;
    if (macroblock >= EDGE) {
        channel = 0;
        z = 11 * UNITS + (macroblock - EDGE) % UNITS;
        m = (macroblock - EDGE) / UNITS;
    } else {
        uint32_t k = macroblock % 27, column = macroblock / 27 % 5, row = macroblock / 135 % own->rows;
        channel = macroblock / 135 / own->rows;
        m = column_slot[column];
        uint32_t i = row + own->rows - slot_row[m];
        if (own->rows == 11) {
            z = 11 * k + (i + 44 - 4 * channel) % 11;
        } else {
            /* 4h + 2z is even, so that i is odd exactly where q div 5 is 1; then z is beyond 135 */
            uint32_t late = i % 2;
            z = 135 * late + 5 * k + (i - late + 20 - 4 * channel) / 2 % 5;
        }
    }
    uint32_t sequence = z / UNITS, g = z % UNITS;
    return ((own->sequences * channel + sequence) * PLACES + video_place(UNIT * g + m)) * BLOCK;
}

struct dv100_part plain_macroblock(uint32_t system, const uint8_t *frame, size_t frame_length, uint32_t macroblock)
{
    if (system >= SYSTEMS)
        return (struct dv100_part){1, 0, 0};
    const struct system *own = &systems[system];
    if (frame_length != frame_size(own))
        return (struct dv100_part){2, 0, 0};
    if (macroblock >= own->macroblocks)
        return (struct dv100_part){3, 0, 0};
    uint32_t number = judge_for(own, frame, TF2);
    if (number)
        return (struct dv100_part){number, 0, 0};
    return (struct dv100_part){0, carrier_of(own, macroblock) + 3, MACROBLOCK};
}

/* ---- Time code and binary group */

#define SSYB(number) ((1 + (number) / 6) * BLOCK + 3 + (number) % 6 * 8) /* from the sequence's start; its pack is 3 on */
#define PACK(number) (SSYB(number) + 3)

static bool digits_ok(const struct system *own, const uint8_t *pc)
{
    uint32_t frames = pc[0] & 15, seconds = pc[1] & 15, minutes = pc[2] & 15, hours = pc[3] & 15;
    return frames <= 9 && seconds <= 9 && minutes <= 9 && hours <= 9 && (pc[0] >> 4 & 3u) * 10 + frames <= own->last_frame &&
           (pc[1] >> 4 & 7u) * 10 + seconds <= 59 && (pc[2] >> 4 & 7u) * 10 + minutes <= 59 &&
           (pc[3] >> 4 & 3u) * 10 + hours <= 23;
}

/* A pack's five bytes as one number, the first lowest. */
static uint64_t load_pack(const uint8_t *pack)
{
    return load_id(pack) | (uint64_t)pack[4] << 32;
}

/* Bits in which some time code or binary group of a sequence differs from those of DIF channel 0, sequence 0. */
static uint64_t time_differs(const uint8_t *bytes, bool first_half, uint64_t clock, uint64_t group, uint64_t judged)
{
    uint64_t differs = ((load_pack(bytes + PACK(3)) ^ clock) | (load_pack(bytes + PACK(9)) ^ clock)) & judged;
    if (first_half) {
        differs |= ((load_pack(bytes + PACK(5)) ^ clock) | (load_pack(bytes + PACK(11)) ^ clock)) & judged;
        differs |= (load_pack(bytes + PACK(4)) ^ group) | (load_pack(bytes + PACK(10)) ^ group);
    }
    return differs;
}

static uint32_t judge_time(const struct system *own, const uint8_t *frame)
{
    if (frame[PACK(3)] != 0x13 || frame[PACK(4)] != 0x14 || !digits_ok(own, frame + PACK(3) + 1))
        return 26;
    uint64_t clock = load_pack(frame + PACK(3)), group = load_pack(frame + PACK(4));
    uint64_t judged = own->rate ? ~(uint64_t)0x4000 : ~(uint64_t)0; /* bit 6 of PC1 is arbitrary at 50 Hz */
    uint64_t differs = 0;
    for (uint32_t channel = 0; channel < DIF_CHANNELS; channel++)
        for (uint32_t sequence = 0; sequence < own->sequences; sequence++, frame += SEQUENCE)
            differs |= time_differs(frame, sequence < own->half, clock, group, judged);
    return differs ? 27 : 0;
}

struct dv100_time plain_read_time(uint32_t system, const uint8_t *frame, size_t frame_length)
{
    struct dv100_time answer = {0, {0}, {0}};
    if (system >= SYSTEMS) {
        answer.number = 1;
        return answer;
    }
    const struct system *own = &systems[system];
    if (frame_length != frame_size(own)) {
        answer.number = 2;
        return answer;
    }
    answer.number = judge_for(own, frame, TF3);
    if (!answer.number)
        answer.number = judge_time(own, frame);
    if (answer.number)
        return answer;
    memcpy(answer.time_code, frame + PACK(3) + 1, 4);
    memcpy(answer.binary_group, frame + PACK(4) + 1, 4);
    if (own->rate)
        answer.time_code[0] |= 0x40;
    return answer;
}

/* ---- The writer */

/* What one call of the writer was lent. */
struct lent {
    const struct system *own;
    uint32_t count;
    const int32_t *sound;
    const uint8_t *macroblocks;
    uint8_t clock[5], group[5];
};

static uint8_t *start_block(uint8_t *bytes, uint32_t place, uint32_t common)
{
    uint8_t *block = bytes + (size_t)place * BLOCK;
    store_id(block, place_ids[place] | common);
    return block;
}

static void write_header(uint8_t *block, uint32_t rate)
{
    memset(block + 3, 0xFF, BLOCK - 3);
    block[3] = rate ? 0xBF : 0x3F;
    block[5] = block[6] = block[7] = 0x7F;
}

/* Which pack an SSYB has: time code, binary group or none. */
static const uint8_t *pack_of(const struct lent *lent, bool first_half, uint32_t ssyb)
{
    if (ssyb == 3 || ssyb == 9 || (first_half && (ssyb == 5 || ssyb == 11)))
        return lent->clock;
    return first_half && (ssyb == 4 || ssyb == 10) ? lent->group : NULL;
}

static void write_subcode(const struct lent *lent, uint8_t *bytes, uint32_t common, bool first_half)
{
    memset(start_block(bytes, 1, common) + 3, 0xFF, BLOCK - 3);
    memset(start_block(bytes, 2, common) + 3, 0xFF, BLOCK - 3);
    for (uint32_t number = 0; number < 12; number++) {
        uint8_t *ssyb = bytes + SSYB(number);
        const uint8_t *pack = pack_of(lent, first_half, number);
        ssyb[0] = first_half ? 0xFF : 0x7F;
        ssyb[1] = (uint8_t)(0xF0 | number);
        if (pack)
            memcpy(ssyb + 3, pack, 5);
    }
}

static void write_vaux(const struct system *own, uint8_t *bytes, uint32_t common, uint32_t sequence)
{
    for (uint32_t place = 3; place < 6; place++)
        memset(start_block(bytes, place, common) + 3, 0xFF, BLOCK - 3);
    uint8_t *vs = bytes + (sequence & 1 ? VS_ODD : VS_EVEN);
    vs[0] = 0x60;
    vs[3] = (uint8_t)(0xC0 | own->vs_source);
    vs[5] = 0x61; /* VSC */
}

/* A level of -32,768 has lost's word and gets the next; lost itself, 32,768, has it as it stands. */
static void store_word(uint8_t *word, int32_t sample)
{
    uint32_t stored = (uint32_t)sample + (sample == -32768);
    word[0] = (uint8_t)(stored >> 8);
    word[1] = (uint8_t)stored;
}

/* Sample `first` and every step-th after it, but for the last word, which alone may be at a position from the count on. */
static void store_words(uint8_t *block, const int32_t *sound, size_t first, size_t step)
{
    uint8_t *word = block + SOUND;
    for (size_t sample = first; sample < first + (WORDS - 1) * step; sample += step, word += 2)
        store_word(word, sound[sample]);
}

static void write_words(uint8_t *block, const int32_t *sound, uint32_t count, size_t first, size_t step)
{
    size_t last = first + (WORDS - 1) * step;
    store_words(block, sound, first, step);
    store_word(block + BLOCK - 2, last < count ? sound[last] : 0);
}

static void write_as(const struct lent *lent, uint8_t *as, uint32_t mode)
{
    uint32_t size = lent->count == 1600 ? 20 : lent->count == 1602 ? 22 : 24;
    as[0] = 0x50;
    as[1] = (uint8_t)(0x40 | size);
    as[2] = (uint8_t)(0x10 | mode);
    as[3] = (uint8_t)(0xC3 | lent->own->rate << 5);
    as[4] = 0xC0;
}

static void write_audio(const struct lent *lent, uint8_t *bytes, uint32_t common, uint32_t audio_channel, uint32_t row)
{
    uint32_t half = lent->own->half, mode = (audio_channel - 1) & 1, sequence = mode * half + row;
    const int32_t *sound = lent->sound + (size_t)(audio_channel - 1) * lent->count;
    for (uint32_t y = 0; y < 3; y++)
        for (uint32_t j = 0; j < 3; j++) {
            uint8_t *block = start_block(bytes, 6 + 16 * (3 * y + j), common);
            memset(block + 3, 0xFF, 5);
            write_words(block, sound, lent->count, first_sample(half, row, y, j), (size_t)half * 9);
        }
    uint8_t *as = bytes + (sequence & 1 ? AS_ODD : AS_EVEN);
    write_as(lent, as, mode);
    as[A_NEXT] = 0x51; /* ASC, the next block's pack */
}

/* The macroblock numbers of a sequence's slots V0 to V134, i and k counted on from one unit of five to the next. */
static void slot_numbers(const struct system *own, uint32_t channel, uint32_t sequence, uint32_t *numbers)
{
    uint32_t z = UNITS * sequence, rows = own->rows;
    uint32_t late = rows == 10 ? sequence / 5 : 0;
    uint32_t i = (4 * channel + late + own->i_step * z) % rows;
    uint32_t k = z / own->k_every % 27, since = z % own->k_every;
    for (uint32_t g = 0; g < UNITS; g++) {
        for (uint32_t m = 0; m < UNIT; m++) {
            uint32_t row = i + slot_row[m] < rows ? i + slot_row[m] : i + slot_row[m] - rows;
            *numbers++ = ((rows * channel + row) * 5 + slot_column[m]) * 27 + k;
        }
        i = i + own->i_step < rows ? i + own->i_step : i + own->i_step - rows;
        if (++since == own->k_every) {
            since = 0;
            k++;
        }
    }
}

static void edge_numbers(uint32_t *numbers)
{
    for (uint32_t g = 0; g < UNITS; g++)
        for (uint32_t m = 0; m < UNIT; m++)
            *numbers++ = EDGE + UNITS * m + g;
}

static void write_slots(uint8_t *bytes, uint32_t common, const uint8_t *macroblocks, const uint32_t *numbers)
{
    for (uint32_t run = 7; run < PLACES; run += 16)
        for (uint32_t place = run; place < run + 15; place++)
            memcpy(start_block(bytes, place, common) + 3, macroblocks + (size_t)*numbers++ * MACROBLOCK, MACROBLOCK);
}

static void write_empty_slots(uint8_t *bytes, uint32_t common)
{
    for (uint32_t run = 7; run < PLACES; run += 16)
        for (uint32_t place = run; place < run + 15; place++)
            memset(start_block(bytes, place, common) + 3, 0xFF, MACROBLOCK);
}

static void write_video(const struct lent *lent, uint8_t *bytes, uint32_t common, uint32_t channel, uint32_t sequence)
{
    uint32_t numbers[SLOTS];
    bool edge = lent->own->rows == 11 && channel == 0 && sequence == 11;
    if (sequence < lent->own->rows)
        slot_numbers(lent->own, channel, sequence, numbers);
    else if (edge)
        edge_numbers(numbers);
    else {
        write_empty_slots(bytes, common);
        return;
    }
    write_slots(bytes, common, lent->macroblocks, numbers);
}

static void write_sequence(const struct lent *lent, uint8_t *bytes, uint32_t audio_channel, uint32_t row)
{
    uint32_t channel = (audio_channel - 1) / 2;
    bool first_half = audio_channel & 1;
    uint32_t sequence = first_half ? row : row + lent->own->half;
    uint32_t common = sequence_id(channel, sequence);
    write_header(start_block(bytes, 0, common), lent->own->rate);
    write_subcode(lent, bytes, common, first_half);
    write_vaux(lent->own, bytes, common, sequence);
    write_audio(lent, bytes, common, audio_channel, row);
    write_video(lent, bytes, common, channel, sequence);
}

static bool all_samples(const int32_t *sound, size_t length)
{
    uint32_t outside = 0;
    for (size_t sample = 0; sample < length; sample++)
        outside |= (uint32_t)sound[sample] + 32768 > 65536;
    return !outside;
}

uint32_t plain_write(uint32_t system, uint32_t count, const int32_t *sound, size_t sound_length, const uint8_t *macroblocks,
                     size_t macroblocks_length, const uint8_t *time_code, size_t time_code_length, const uint8_t *binary_group,
                     size_t binary_group_length, uint8_t *frame, size_t frame_length)
{
    if (system >= SYSTEMS)
        return 1;
    const struct system *own = &systems[system];
    if (frame_length != frame_size(own))
        return 2;
    if (count != own->fewer && count != own->more)
        return 3;
    if (sound_length != (size_t)count * AUDIO_CHANNELS || macroblocks_length != (size_t)own->macroblocks * MACROBLOCK ||
        time_code_length != 4 || binary_group_length != 4)
        return 4;
    if (!all_samples(sound, sound_length))
        return 31;
    if (!digits_ok(own, time_code) || (own->rate && !(time_code[0] & 0x40)))
        return 32;
    struct lent lent = {own, count, sound, macroblocks, {0x13}, {0x14}};
    memcpy(lent.clock + 1, time_code, 4);
    memcpy(lent.group + 1, binary_group, 4);
    for (uint32_t audio_channel = 1; audio_channel <= AUDIO_CHANNELS; audio_channel++)
        for (uint32_t row = 0; row < own->half; row++, frame += SEQUENCE)
            write_sequence(&lent, frame, audio_channel, row);
    return 0;
}

/* ---- A new audio channel */

/* The words of the samples of sequence `row` of a half of a DIF channel; a position from the count on stays as it is. */
static void replace_sequence(const struct system *own, uint8_t *bytes, uint32_t row, const int32_t *samples, size_t count)
{
    size_t step = (size_t)own->half * 9;
    uint8_t *block = bytes + A0;
    for (uint32_t y = 0; y < 3; y++)
        for (uint32_t j = 0; j < 3; j++, block += A_NEXT) {
            size_t first = first_sample(own->half, row, y, j), last = first + (WORDS - 1) * step;
            store_words(block, samples, first, step);
            if (last < count)
                store_word(block + BLOCK - 2, samples[last]);
        }
}

uint32_t plain_replace_audio(uint32_t system, uint8_t *frame, size_t frame_length, uint32_t audio_channel,
                             const int32_t *samples, size_t samples_length)
{
    if (system >= SYSTEMS)
        return 1;
    const struct system *own = &systems[system];
    if (frame_length != frame_size(own))
        return 2;
    if (audio_channel < 1 || audio_channel > AUDIO_CHANNELS)
        return 3;
    struct source source = judge_sound(own, frame, audio_channel);
    if (source.number)
        return source.number;
    if (samples_length != source.count)
        return 29;
    if (!all_samples(samples, samples_length))
        return 31;
    if (!source.recorded)
        return 33;
    uint8_t *bytes = frame + half_start(own, audio_channel);
    for (uint32_t row = 0; row < own->half; row++, bytes += SEQUENCE)
        replace_sequence(own, bytes, row, samples, source.count);
    return 0;
}
