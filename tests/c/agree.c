/* Lays the library beside an independent decoder (paper.h): frames written, frames damaged, the known places of the scope
 * paper, document 01, the printed rows of the Recommendation's tables, audio channels marked 1111, audio channels replaced, and the
 * bits of IDs that name nothing. A line says "agree", or "DIFFERS" and where. */
#include "dv100.h"
#include "paper.h"
#include "printed.h"

#include <stdarg.h>
#include <stddef.h>
#include <stdio.h>
#include <string.h>

enum {
    MOST_BLOCKS = PAPER_DIF_CHANNELS * PAPER_MOST_SEQUENCES * PAPER_PLACES,
    MOST_FRAME = MOST_BLOCKS * PAPER_BLOCK_BYTES,
    MOST_SOUND = PAPER_AUDIO_CHANNELS * PAPER_MOST_SAMPLES,
    MOST_PICTURE = PAPER_MOST_MACROBLOCKS * PAPER_PAYLOAD_BYTES,
    SEQUENCE_BYTES = PAPER_PLACES * PAPER_BLOCK_BYTES,
    RECORD = 4,
    SOME_MACROBLOCKS = 12,
    LAST_REFUSAL = 33,
    UNTOUCHED = 0x5a5a5a5a
};

static struct paper_map maps[PAPER_SYSTEMS];

/* A frame and what it was written from. */
struct trial {
    unsigned system, count;
    const struct paper_map *map;
    int32_t sound[MOST_SOUND];
    uint8_t macroblocks[MOST_PICTURE];
    uint8_t time_code[4], binary_group[4];
    uint8_t frame[MOST_FRAME];
    size_t frame_bytes;
};

/* ---- lines of the output */

struct tally {
    char about[128], first[128];
    const char *things;
    unsigned long compared, differed;
    unsigned long answered[LAST_REFUSAL + 1]; /* how often each number, where the line tells */
};

static unsigned lines_that_differ;

static struct tally tally_of(const char *things, const char *about, ...)
{
    struct tally tally = {.things = things};
    va_list values;
    va_start(values, about);
    vsnprintf(tally.about, sizeof tally.about, about, values);
    va_end(values);
    return tally;
}

/* Keeps where, if this is the first that differs. */
static void note(struct tally *tally, const char *where, va_list values)
{
    if (tally->differed++ == 0)
        vsnprintf(tally->first, sizeof tally->first, where, values);
}

/* One comparison that counts among the things of the line. */
static void compare(struct tally *tally, int equal, const char *where, ...)
{
    va_list values;
    tally->compared++;
    va_start(values, where);
    if (!equal)
        note(tally, where, values);
    va_end(values);
}

/* One comparison beside those that count. */
static void require(struct tally *tally, int holds, const char *where, ...)
{
    va_list values;
    va_start(values, where);
    if (!holds)
        note(tally, where, values);
    va_end(values);
}

/* Counts an answered number, for the line to tell. */
static void tell_answer(struct tally *tally, uint32_t number)
{
    require(tally, number <= LAST_REFUSAL, "the library answers %u", number);
    if (number <= LAST_REFUSAL)
        tally->answered[number]++;
}

static void print_answers(const struct tally *tally)
{
    const char *before = ", ", *after = "";
    for (unsigned number = 0; number <= LAST_REFUSAL; number++)
        if (tally->answered[number] > 0) {
            printf("%s%lu of %u", before, tally->answered[number], number);
            after = ",";
        }
    printf("%s ", after);
}

static void print_tally(const struct tally *tally)
{
    printf("%s: %lu %s", tally->about, tally->compared, tally->things);
    print_answers(tally);
    if (tally->differed == 0) {
        puts("agree");
        return;
    }
    lines_that_differ++;
    printf("DIFFERS in %lu, first %s\n", tally->differed, tally->first);
}

/* A tally about an aspect of a written frame. */
static struct tally tally_of_trial(const struct trial *trial, const char *things, const char *aspect)
{
    return tally_of(things, "%s, %u samples, %s", trial->map->system->name, trial->count, aspect);
}

/* ---- what frames are written from */

/* SplitMix64. */
static uint64_t random_state = 1620;

static uint64_t random_word(void)
{
    uint64_t z = random_state += 0x9e3779b97f4a7c15u;
    z = (z ^ z >> 30) * 0xbf58476d1ce4e5b9u;
    z = (z ^ z >> 27) * 0x94d049bb133111ebu;
    return z ^ z >> 31;
}

static unsigned below(unsigned limit)
{
    return (unsigned)(random_word() >> 32) % limit;
}

static void random_bytes(uint8_t *bytes, size_t length)
{
    for (size_t at = 0; at < length; at++)
        bytes[at] = (uint8_t)below(256);
}

/* Any level, the two extremes and lost more often than chance. */
static int32_t random_sample(void)
{
    switch (below(16)) {
    case 0:
        return DV100_LOST;
    case 1:
        return -32768;
    case 2:
        return 32767;
    default:
        return (int32_t)below(65536) - 32768;
    }
}

/* Two decimal digits, with the bits of flags at random. */
static uint8_t random_digits(unsigned limit, unsigned flags)
{
    unsigned value = below(limit);
    return (uint8_t)(value / 10 << 4 | value % 10 | (below(256) & flags));
}

static void random_time_code(const struct paper_system *system, uint8_t pc[4])
{
    pc[0] = random_digits(system->is_50_hz ? 25 : 30, 0xc0);
    pc[1] = random_digits(60, 0x80);
    pc[2] = random_digits(60, 0x80);
    pc[3] = random_digits(24, 0xc0);
    if (system->is_50_hz)
        pc[0] |= 0x40;
}

static void random_content(struct trial *trial)
{
    for (unsigned at = 0; at < MOST_SOUND; at++)
        trial->sound[at] = random_sample();
    random_bytes(trial->macroblocks, sizeof trial->macroblocks);
    random_time_code(trial->map->system, trial->time_code);
    random_bytes(trial->binary_group, sizeof trial->binary_group);
}

/* Silence, a picture of zeros, time 0. */
static void plain_content(struct trial *trial)
{
    memset(trial->sound, 0, sizeof trial->sound);
    memset(trial->macroblocks, 0, sizeof trial->macroblocks);
    memset(trial->time_code, 0, sizeof trial->time_code);
    memset(trial->binary_group, 0, sizeof trial->binary_group);
    if (trial->map->system->is_50_hz)
        trial->time_code[0] = 0x40;
}

static void set_up(struct trial *trial, unsigned system, unsigned count)
{
    trial->system = system;
    trial->count = count;
    trial->map = &maps[system];
    trial->frame_bytes = paper_frame_bytes(trial->map->system);
}

static uint32_t write_frame(struct trial *trial)
{
    memset(trial->frame, 0x5a, sizeof trial->frame);
    return dv100_write(trial->system, trial->count, trial->sound, PAPER_AUDIO_CHANNELS * trial->count, trial->macroblocks,
                       trial->map->system->macroblocks * PAPER_PAYLOAD_BYTES, trial->time_code, 4, trial->binary_group, 4,
                       trial->frame, trial->frame_bytes);
}

/* ---- faulty blocks */

/* Four numbers for each block that does not name its place, in stream order, as the decoder sees them; how many blocks. */
static unsigned decoder_faults(const struct trial *trial, uint32_t *list)
{
    unsigned total = 0;
    for (unsigned dif_channel = 0; dif_channel < PAPER_DIF_CHANNELS; dif_channel++)
        for (unsigned dif_sequence = 0; dif_sequence < trial->map->system->dif_sequences; dif_sequence++)
            for (unsigned place = 0; place < PAPER_PLACES; place++) {
                unsigned fault = paper_fault(trial->map, trial->frame, dif_channel, dif_sequence, place);
                if (fault == 0)
                    continue;
                uint32_t *record = list + RECORD * total++;
                record[0] = dif_channel;
                record[1] = dif_sequence;
                record[2] = place;
                record[3] = fault;
            }
    return total;
}

static void clear_list(uint32_t *list, size_t length)
{
    for (size_t at = 0; at < length; at++)
        list[at] = UNTOUCHED;
}

/* An answered list of a length against the due records: kept ones equal, the others untouched. */
static void require_list(struct tally *tally, struct dv100_survey said, const uint32_t *list, size_t length,
                         const uint32_t *due, unsigned total)
{
    unsigned kept = total < length / RECORD ? total : (unsigned)(length / RECORD);
    require(tally, said.number == 0 && said.total == total && said.kept == kept, "total %u kept %u, not %u and %u",
            said.total, said.kept, total, kept);
    for (unsigned record = 0; record < kept; record++)
        require(tally, memcmp(list + RECORD * record, due + RECORD * record, RECORD * sizeof *due) == 0,
                "record %u, due (%u,%u,%u) fault %u", record, due[RECORD * record], due[RECORD * record + 1],
                due[RECORD * record + 2], due[RECORD * record + 3]);
    for (size_t at = RECORD * (size_t)kept; at < length; at++)
        require(tally, list[at] == UNTOUCHED, "list entry %zu behind the kept records", at);
}

/* ---- 1. written frames */

static void compare_ids(const struct trial *trial)
{
    struct tally tally = tally_of_trial(trial, "blocks", "IDs as due, dv100_survey finds none");
    for (unsigned dif_channel = 0; dif_channel < PAPER_DIF_CHANNELS; dif_channel++)
        for (unsigned dif_sequence = 0; dif_sequence < trial->map->system->dif_sequences; dif_sequence++)
            for (unsigned place = 0; place < PAPER_PLACES; place++) {
                const uint8_t *block =
                    trial->frame + paper_place_start(trial->map->system, dif_channel, dif_sequence, place);
                uint8_t id[3];
                paper_write_id(paper_id_of_place(trial->map, dif_channel, dif_sequence, place), id);
                compare(&tally,
                        memcmp(block, id, 3) == 0 &&
                            paper_fault(trial->map, trial->frame, dif_channel, dif_sequence, place) == 0,
                        "(%u,%u,%u)", dif_channel, dif_sequence, place);
            }
    struct dv100_survey said = dv100_survey(trial->system, trial->frame, trial->frame_bytes, NULL, 0);
    require(&tally, said.number == 0 && said.total == 0, "dv100_survey: %u faults", said.total);
    require(&tally, dv100_check(trial->system, trial->frame, trial->frame_bytes) == 0, "dv100_check");
    print_tally(&tally);
}

static void compare_headers(const struct trial *trial)
{
    struct tally tally = tally_of_trial(trial, "payloads", "headers");
    uint8_t due[PAPER_PAYLOAD_BYTES];
    paper_header(trial->map->system, due);
    for (unsigned dif_channel = 0; dif_channel < PAPER_DIF_CHANNELS; dif_channel++)
        for (unsigned dif_sequence = 0; dif_sequence < trial->map->system->dif_sequences; dif_sequence++) {
            struct paper_id h0 = {PAPER_HEADER, dif_channel, dif_sequence, 0};
            compare(&tally, memcmp(trial->frame + paper_block_start(trial->map, h0) + PAPER_PAYLOAD, due, sizeof due) == 0,
                    "(%u,%u)", dif_channel, dif_sequence);
        }
    print_tally(&tally);
}

static int all_ones(const uint8_t *bytes, size_t length)
{
    while (length > 0 && *bytes == 0xff)
        bytes++, length--;
    return length == 0;
}

/* The eight bytes that an SSYB has to have: Tables 8 and 10. */
static void due_ssyb(const struct trial *trial, unsigned dif_sequence, unsigned ssyb, uint8_t due[8])
{
    enum paper_ssyb_pack kind = paper_table_10(trial->map->system, dif_sequence, ssyb);
    memset(due, 0xff, 8);
    due[0] = (uint8_t)(paper_fr(trial->map->system, dif_sequence) << 7 | 0x7f);
    due[1] = (uint8_t)(0xf0 | ssyb);
    if (kind == PAPER_RESERVED)
        return;
    due[3] = kind == PAPER_TC ? 0x13 : 0x14;
    memcpy(due + 4, kind == PAPER_TC ? trial->time_code : trial->binary_group, 4);
}

static void compare_subcode(const struct trial *trial)
{
    struct tally tally = tally_of_trial(trial, "SSYBs", "subcode");
    for (unsigned dif_channel = 0; dif_channel < PAPER_DIF_CHANNELS; dif_channel++)
        for (unsigned dif_sequence = 0; dif_sequence < trial->map->system->dif_sequences; dif_sequence++)
            for (unsigned ssyb = 0; ssyb < PAPER_SSYBS; ssyb++) {
                const uint8_t *bytes = paper_ssyb(trial->map, trial->frame, dif_channel, dif_sequence, ssyb);
                uint8_t due[8];
                due_ssyb(trial, dif_sequence, ssyb, due);
                compare(&tally, memcmp(bytes, due, 8) == 0 && (ssyb % 6 != 5 || all_ones(bytes + 8, 29)), "(%u,%u) SSYB %u",
                        dif_channel, dif_sequence, ssyb);
            }
    print_tally(&tally);
}

/* A source pack at its number, behind it the source control pack, which document 01 has as header and ones where Tables 15 and
 * 20 have some zeros; ones everywhere else. */
static int pack_as_due(const uint8_t *bytes, unsigned number, unsigned source_number,
                       const uint8_t source[PAPER_PACK_BYTES])
{
    if (number == source_number)
        return memcmp(bytes, source, PAPER_PACK_BYTES) == 0;
    if (number == source_number + 1)
        return bytes[0] == (source[0] | 1) && all_ones(bytes + 1, 4);
    return all_ones(bytes, PAPER_PACK_BYTES);
}

static void compare_vaux(const struct trial *trial)
{
    struct tally tally = tally_of_trial(trial, "packs", "VAUX");
    uint8_t vs[PAPER_PACK_BYTES];
    paper_vs(trial->map->system, vs);
    for (unsigned dif_channel = 0; dif_channel < PAPER_DIF_CHANNELS; dif_channel++)
        for (unsigned dif_sequence = 0; dif_sequence < trial->map->system->dif_sequences; dif_sequence++)
            for (unsigned pack = 0; pack < 45; pack++) {
                const uint8_t *bytes = paper_vaux_pack(trial->map, trial->frame, dif_channel, dif_sequence, pack);
                compare(&tally,
                        pack_as_due(bytes, pack, paper_vs_number(dif_sequence), vs) &&
                            (pack % 15 != 14 || all_ones(bytes + PAPER_PACK_BYTES, 2)),
                        "(%u,%u) pack %u", dif_channel, dif_sequence, pack);
            }
    print_tally(&tally);
}

static void compare_aaux(const struct trial *trial)
{
    struct tally tally = tally_of_trial(trial, "packs", "AAUX");
    for (unsigned dif_channel = 0; dif_channel < PAPER_DIF_CHANNELS; dif_channel++)
        for (unsigned dif_sequence = 0; dif_sequence < trial->map->system->dif_sequences; dif_sequence++)
            for (unsigned pack = 0; pack < 9; pack++) {
                uint8_t as[PAPER_PACK_BYTES];
                paper_as(trial->map->system, paper_audio_channel(trial->map->system, dif_channel, dif_sequence),
                         trial->count, as);
                compare(&tally,
                        pack_as_due(paper_aaux_pack(trial->map, trial->frame, dif_channel, dif_sequence, pack), pack,
                                    paper_as_number(dif_sequence), as),
                        "(%u,%u) pack %u", dif_channel, dif_sequence, pack);
            }
    print_tally(&tally);
}

/* What a given sample is read back as. */
static int32_t read_back(int32_t given)
{
    return given == -32768 ? -32767 : given;
}

static int32_t due_sample(const struct trial *trial, unsigned audio_channel, unsigned n)
{
    return read_back(trial->sound[(audio_channel - 1) * trial->count + n]);
}

static void compare_sound_given(const struct trial *trial)
{
    struct tally tally = tally_of_trial(trial, "samples", "sound as given");
    for (unsigned audio_channel = 1; audio_channel <= PAPER_AUDIO_CHANNELS; audio_channel++)
        for (unsigned n = 0; n < trial->count; n++)
            compare(&tally, paper_sample(trial->map, trial->frame, audio_channel, n) == due_sample(trial, audio_channel, n),
                    "audio channel %u sample %u", audio_channel, n);
    print_tally(&tally);
}

static void compare_tail(const struct trial *trial)
{
    struct tally tally = tally_of_trial(trial, "samples", "zeros from the count on");
    for (unsigned audio_channel = 1; audio_channel <= PAPER_AUDIO_CHANNELS; audio_channel++)
        for (unsigned n = trial->count; n < trial->map->system->samples; n++)
            compare(&tally, paper_sample(trial->map, trial->frame, audio_channel, n) == 0, "audio channel %u sample %u",
                    audio_channel, n);
    print_tally(&tally);
}

static void compare_counts(const struct trial *trial)
{
    struct tally tally = tally_of_trial(trial, "audio channels", "count of the AS packs");
    for (unsigned audio_channel = 1; audio_channel <= PAPER_AUDIO_CHANNELS; audio_channel++) {
        int32_t samples[PAPER_MOST_SAMPLES];
        struct dv100_audio said = dv100_read_audio(trial->system, trial->frame, trial->frame_bytes, audio_channel, samples,
                                                   trial->map->system->samples);
        unsigned read = paper_count(trial->map, trial->frame, audio_channel);
        compare(&tally, read == trial->count && said.number == 0 && said.count == trial->count,
                "audio channel %u: given %u, decoder %u, dv100_read_audio %u refusal %u", audio_channel, trial->count, read,
                said.count, said.number);
    }
    print_tally(&tally);
}

static void compare_read_audio(const struct trial *trial)
{
    struct tally tally = tally_of_trial(trial, "positions", "dv100_read_audio");
    for (unsigned audio_channel = 1; audio_channel <= PAPER_AUDIO_CHANNELS; audio_channel++) {
        int32_t samples[PAPER_MOST_SAMPLES];
        clear_list((uint32_t *)samples, PAPER_MOST_SAMPLES);
        dv100_read_audio(trial->system, trial->frame, trial->frame_bytes, audio_channel, samples,
                         trial->map->system->samples);
        for (unsigned n = 0; n < trial->map->system->samples; n++) {
            int32_t due = n < trial->count ? paper_sample(trial->map, trial->frame, audio_channel, n) : UNTOUCHED;
            compare(&tally, samples[n] == due, "audio channel %u sample %u: decoder %d, library %d", audio_channel, n, due,
                    samples[n]);
        }
    }
    print_tally(&tally);
}

/* Every position of every audio channel of a frame in any state. */
static void compare_salvage(const struct trial *trial, struct tally *tally)
{
    static int32_t samples[MOST_SOUND];
    static uint32_t list[RECORD * MOST_BLOCKS], due[RECORD * MOST_BLOCKS];
    unsigned positions = trial->map->system->samples;
    clear_list(list, RECORD * MOST_BLOCKS);
    struct dv100_survey said = dv100_salvage(trial->system, trial->frame, trial->frame_bytes, samples,
                                             PAPER_AUDIO_CHANNELS * positions, list, RECORD * MOST_BLOCKS);
    for (unsigned audio_channel = 1; audio_channel <= PAPER_AUDIO_CHANNELS; audio_channel++)
        for (unsigned n = 0; n < positions; n++) {
            int32_t sample = samples[(audio_channel - 1) * positions + n];
            int32_t decoded = paper_salvaged_sample(trial->map, trial->frame, audio_channel, n);
            compare(tally, sample == decoded, "audio channel %u sample %u: decoder %d, library %d", audio_channel, n,
                    decoded, sample);
        }
    unsigned total = decoder_faults(trial, due);
    require_list(tally, said, list, RECORD * MOST_BLOCKS, due, total);
}

static void compare_salvage_written(const struct trial *trial)
{
    struct tally tally = tally_of_trial(trial, "positions", "dv100_salvage");
    compare_salvage(trial, &tally);
    print_tally(&tally);
}

static void compare_picture_given(const struct trial *trial)
{
    struct tally tally = tally_of_trial(trial, "macroblocks", "picture as given");
    for (unsigned number = 0; number < trial->map->system->macroblocks; number++)
        compare(&tally,
                memcmp(paper_macroblock(trial->map, trial->frame, number),
                       trial->macroblocks + number * PAPER_PAYLOAD_BYTES, PAPER_PAYLOAD_BYTES) == 0,
                "macroblock %u", number);
    print_tally(&tally);
}

static void compare_picture_lent(const struct trial *trial)
{
    struct tally tally = tally_of_trial(trial, "macroblocks", "dv100_macroblock");
    for (unsigned number = 0; number < trial->map->system->macroblocks; number++) {
        struct dv100_part said = dv100_macroblock(trial->system, trial->frame, trial->frame_bytes, number);
        unsigned start = (unsigned)(paper_macroblock(trial->map, trial->frame, number) - trial->frame);
        compare(&tally, said.number == 0 && said.start == start && said.length == PAPER_PAYLOAD_BYTES,
                "macroblock %u: decoder at %u, library at %u length %u refusal %u", number, start, said.start, said.length,
                said.number);
    }
    print_tally(&tally);
}

/* Video DIF blocks that carry no macroblock, where a system has them, have a payload of ones. */
static void compare_empty_slots(const struct trial *trial)
{
    struct tally tally = tally_of_trial(trial, "blocks", "ones in video blocks without a macroblock");
    for (unsigned h = 0; h < PAPER_DIF_CHANNELS; h++)
        for (unsigned dsn = 0; dsn < trial->map->system->dif_sequences; dsn++)
            for (unsigned dbn = 0; dbn < PAPER_VIDEO_BLOCKS; dbn++) {
                if (trial->map->macroblock_of[h][dsn][dbn] != PAPER_NO_MACROBLOCK)
                    continue;
                unsigned start = paper_block_start(trial->map, (struct paper_id){PAPER_VIDEO, h, dsn, dbn});
                compare(&tally, all_ones(trial->frame + start + PAPER_PAYLOAD, PAPER_PAYLOAD_BYTES), "V %u,%u of %u", dbn,
                        h, dsn);
            }
    if (tally.compared > 0)
        print_tally(&tally);
}

static void compare_time(const struct trial *trial)
{
    uint8_t time_code[4], binary_group[4];
    unsigned time_codes = paper_read_time(trial->map, trial->frame, PAPER_TC, time_code);
    unsigned binary_groups = paper_read_time(trial->map, trial->frame, PAPER_BG, binary_group);
    struct dv100_time said = dv100_read_time(trial->system, trial->frame, trial->frame_bytes);
    struct tally tally = tally_of_trial(trial, "packs", "time code and binary group");
    require(&tally, time_codes > 0 && memcmp(time_code, trial->time_code, 4) == 0, "time code, decoder");
    require(&tally, binary_groups > 0 && memcmp(binary_group, trial->binary_group, 4) == 0, "binary group, decoder");
    require(&tally, said.number == 0 && memcmp(said.time_code, trial->time_code, 4) == 0, "time code, dv100_read_time");
    require(&tally, said.number == 0 && memcmp(said.binary_group, trial->binary_group, 4) == 0,
            "binary group, dv100_read_time");
    tally.compared = time_codes + binary_groups;
    print_tally(&tally);
}

static void compare_written(const struct trial *trial)
{
    compare_ids(trial);
    compare_headers(trial);
    compare_subcode(trial);
    compare_vaux(trial);
    compare_aaux(trial);
    compare_counts(trial);
    compare_sound_given(trial);
    compare_tail(trial);
    compare_read_audio(trial);
    compare_salvage_written(trial);
    compare_picture_given(trial);
    compare_picture_lent(trial);
    compare_empty_slots(trial);
    compare_time(trial);
}

/* ---- 2. damaged frames */

static unsigned blocks_in(const struct trial *trial)
{
    return (unsigned)(trial->frame_bytes / PAPER_BLOCK_BYTES);
}

static uint8_t *random_block(struct trial *trial)
{
    return trial->frame + below(blocks_in(trial)) * PAPER_BLOCK_BYTES;
}

static uint8_t *random_sequence(struct trial *trial)
{
    return trial->frame + below(PAPER_DIF_CHANNELS * trial->map->system->dif_sequences) * SEQUENCE_BYTES;
}

static void zero_blocks(struct trial *trial)
{
    for (unsigned times = 0; times < 200; times++)
        memset(random_block(trial), 0, PAPER_BLOCK_BYTES);
}

static void fill_blocks_with_ones(struct trial *trial)
{
    for (unsigned times = 0; times < 200; times++)
        memset(random_block(trial), 0xff, PAPER_BLOCK_BYTES);
}

static void copy_other_blocks(struct trial *trial)
{
    for (unsigned times = 0; times < 200; times++) {
        const uint8_t *from = random_block(trial);
        memmove(random_block(trial), from, PAPER_BLOCK_BYTES);
    }
}

static void flip_id_bits(struct trial *trial)
{
    for (unsigned bit = 0; bit < 24; bit++)
        for (unsigned times = 0; times < 20; times++)
            random_block(trial)[bit / 8] ^= (uint8_t)(1 << bit % 8);
}

static void randomize_ids(struct trial *trial)
{
    for (unsigned times = 0; times < 400; times++)
        random_bytes(random_block(trial), PAPER_PAYLOAD);
}

static void randomize_payloads(struct trial *trial)
{
    for (unsigned times = 0; times < 400; times++)
        random_bytes(random_block(trial) + PAPER_PAYLOAD, PAPER_PAYLOAD_BYTES);
}

static void lose_sequences(struct trial *trial)
{
    memset(random_sequence(trial), 0, SEQUENCE_BYTES);
    memset(random_sequence(trial), 0xff, SEQUENCE_BYTES);
    random_bytes(random_sequence(trial), SEQUENCE_BYTES);
    const uint8_t *from = random_sequence(trial);
    memmove(random_sequence(trial), from, SEQUENCE_BYTES);
}

/* DIF channel 2 over DIF channel 1. */
static void copy_dif_channel(struct trial *trial)
{
    size_t bytes = trial->frame_bytes / PAPER_DIF_CHANNELS;
    memcpy(trial->frame + bytes, trial->frame + 2 * bytes, bytes);
}

/* Everything behind some block one block late. */
static void shift_by_a_block(struct trial *trial)
{
    size_t from = below(blocks_in(trial) / 2) * PAPER_BLOCK_BYTES;
    memmove(trial->frame + from + PAPER_BLOCK_BYTES, trial->frame + from, trial->frame_bytes - from - PAPER_BLOCK_BYTES);
}

/* Of all blocks of zeros, only H0 of DIF channel 2, sequence 0 names its place. */
static void zero_frame(struct trial *trial)
{
    memset(trial->frame, 0, trial->frame_bytes);
}

static void randomize_frame(struct trial *trial)
{
    random_bytes(trial->frame, trial->frame_bytes);
}

static const struct {
    const char *name;
    void (*damage)(struct trial *);
} block_patterns[] = {
    {"blocks zeroed", zero_blocks},
    {"blocks of ones", fill_blocks_with_ones},
    {"blocks copied over others", copy_other_blocks},
    {"ID bits flipped", flip_id_bits},
    {"random IDs", randomize_ids},
    {"random payloads", randomize_payloads},
    {"sequences lost", lose_sequences},
    {"a DIF channel copied", copy_dif_channel},
    {"shifted by a block", shift_by_a_block},
    {"all zero", zero_frame},
    {"all random", randomize_frame},
};

/* A list that holds every fault, and one that holds half of them with three entries over. */
static void compare_survey(const struct trial *trial, struct tally *tally)
{
    static uint32_t list[RECORD * MOST_BLOCKS], due[RECORD * MOST_BLOCKS];
    unsigned total = decoder_faults(trial, due);
    size_t lengths[2] = {RECORD * MOST_BLOCKS, RECORD * (size_t)(total / 2) + 3};
    for (unsigned run = 0; run < 2; run++) {
        clear_list(list, RECORD * MOST_BLOCKS);
        struct dv100_survey said = dv100_survey(trial->system, trial->frame, trial->frame_bytes, list, lengths[run]);
        require_list(tally, said, list, lengths[run], due, total);
    }
    tally->compared = total;
}

/* The faults of one sequence, cut from those of the frame, which begin at due; how many. */
static unsigned faults_of_sequence(const uint32_t *due, const uint32_t *end, unsigned dif_channel, unsigned dif_sequence)
{
    unsigned total = 0;
    while (due + RECORD * total < end && due[RECORD * total] == dif_channel && due[RECORD * total + 1] == dif_sequence)
        total++;
    return total;
}

static void compare_survey_sequences(const struct trial *trial, struct tally *tally)
{
    static uint32_t due[RECORD * MOST_BLOCKS];
    const uint32_t *next = due, *end = due + RECORD * decoder_faults(trial, due);
    for (unsigned dif_channel = 0; dif_channel < PAPER_DIF_CHANNELS; dif_channel++)
        for (unsigned dif_sequence = 0; dif_sequence < trial->map->system->dif_sequences; dif_sequence++) {
            uint32_t list[RECORD * PAPER_PLACES];
            unsigned total = faults_of_sequence(next, end, dif_channel, dif_sequence);
            clear_list(list, RECORD * PAPER_PLACES);
            struct dv100_survey said =
                dv100_survey_sequence(trial->system, dif_channel, dif_sequence,
                                      trial->frame + paper_place_start(trial->map->system, dif_channel, dif_sequence, 0),
                                      SEQUENCE_BYTES, list, RECORD * PAPER_PLACES);
            require_list(tally, said, list, RECORD * PAPER_PLACES, next, total);
            next += RECORD * total;
            tally->compared++;
        }
}

static void compare_views(const struct trial *trial, struct tally *tally)
{
    for (unsigned dif_channel = 0; dif_channel < PAPER_DIF_CHANNELS; dif_channel++)
        for (unsigned dif_sequence = 0; dif_sequence < trial->map->system->dif_sequences; dif_sequence++)
            for (unsigned place = 0; place < PAPER_PLACES; place++) {
                unsigned fault = paper_fault(trial->map, trial->frame, dif_channel, dif_sequence, place);
                unsigned start = fault ? 0 : paper_place_start(trial->map->system, dif_channel, dif_sequence, place);
                struct dv100_part said =
                    dv100_view(trial->system, trial->frame, trial->frame_bytes, dif_channel, dif_sequence, place);
                compare(tally,
                        said.number == fault && said.start == start && said.length == (fault ? 0 : PAPER_BLOCK_BYTES),
                        "(%u,%u,%u): decoder %u, library %u", dif_channel, dif_sequence, place, fault, said.number);
            }
}

static void compare_check(const struct trial *trial, struct tally *tally)
{
    unsigned due = paper_judge_frame(trial->map, trial->frame);
    uint32_t said = dv100_check(trial->system, trial->frame, trial->frame_bytes);
    tell_answer(tally, said);
    compare(tally, said == due, "decoder %u, library %u", due, said);
}

/* Number and count; the samples to the count, and every entry from there on as it was. */
static void compare_audio_channel(const struct trial *trial, struct tally *tally, unsigned audio_channel)
{
    int32_t samples[PAPER_MOST_SAMPLES], decoded[PAPER_MOST_SAMPLES];
    unsigned due = paper_judge_audio(trial->map, trial->frame, audio_channel);
    unsigned count = due ? 0 : paper_read_audio(trial->map, trial->frame, audio_channel, decoded);
    clear_list((uint32_t *)samples, PAPER_MOST_SAMPLES);
    struct dv100_audio said = dv100_read_audio(trial->system, trial->frame, trial->frame_bytes, audio_channel, samples,
                                               trial->map->system->samples);
    tell_answer(tally, said.number);
    compare(tally, said.number == due && said.count == count, "audio channel %u: decoder %u count %u, library %u count %u",
            audio_channel, due, count, said.number, said.count);
    for (unsigned n = 0; n < PAPER_MOST_SAMPLES; n++) {
        int32_t sample = n < count ? decoded[n] : UNTOUCHED;
        require(tally, samples[n] == sample, "audio channel %u sample %u: decoder %d, library %d", audio_channel, n, sample,
                samples[n]);
    }
}

static void compare_audio(const struct trial *trial, struct tally *tally)
{
    for (unsigned audio_channel = 1; audio_channel <= PAPER_AUDIO_CHANNELS; audio_channel++)
        compare_audio_channel(trial, tally, audio_channel);
}

/* The first macroblock, the last and ten others. */
static void some_macroblocks(const struct trial *trial, unsigned numbers[SOME_MACROBLOCKS])
{
    numbers[0] = 0;
    numbers[1] = trial->map->system->macroblocks - 1;
    for (unsigned at = 2; at < SOME_MACROBLOCKS; at++)
        numbers[at] = below(trial->map->system->macroblocks);
}

static void compare_macroblocks(const struct trial *trial, struct tally *tally)
{
    unsigned due = paper_judge_picture(trial->map, trial->frame);
    unsigned numbers[SOME_MACROBLOCKS];
    some_macroblocks(trial, numbers);
    for (unsigned at = 0; at < SOME_MACROBLOCKS; at++) {
        unsigned start = due ? 0 : (unsigned)(paper_macroblock(trial->map, trial->frame, numbers[at]) - trial->frame);
        struct dv100_part said = dv100_macroblock(trial->system, trial->frame, trial->frame_bytes, numbers[at]);
        tell_answer(tally, said.number);
        compare(tally, said.number == due && said.start == start && said.length == (due ? 0 : PAPER_PAYLOAD_BYTES),
                "macroblock %u: decoder %u at %u, library %u at %u length %u", numbers[at], due, start, said.number,
                said.start, said.length);
    }
}

static void compare_read_time(const struct trial *trial, struct tally *tally)
{
    uint8_t time_code[4] = {0}, binary_group[4] = {0};
    unsigned due = paper_judge_time(trial->map, trial->frame);
    if (due == 0) {
        paper_read_time(trial->map, trial->frame, PAPER_TC, time_code);
        paper_read_time(trial->map, trial->frame, PAPER_BG, binary_group);
    }
    struct dv100_time said = dv100_read_time(trial->system, trial->frame, trial->frame_bytes);
    tell_answer(tally, said.number);
    compare(tally, said.number == due, "decoder %u, library %u", due, said.number);
    require(tally, memcmp(said.time_code, time_code, 4) == 0, "time code, refusal %u", due);
    require(tally, memcmp(said.binary_group, binary_group, 4) == 0, "binary group, refusal %u", due);
}

/* What a damaged frame is asked: four calls that take it in any state, then four that judge all of it. */
static const struct {
    const char *call, *things;
    void (*compare)(const struct trial *, struct tally *);
} asked[] = {
    {"dv100_survey", "faults", compare_survey},
    {"dv100_survey_sequence", "sequences", compare_survey_sequences},
    {"dv100_view", "blocks", compare_views},
    {"dv100_salvage", "positions", compare_salvage},
    {"dv100_check", "frames", compare_check},
    {"dv100_read_audio", "audio channels", compare_audio},
    {"dv100_macroblock", "macroblocks", compare_macroblocks},
    {"dv100_read_time", "frames", compare_read_time},
};

enum { ASKED = sizeof asked / sizeof asked[0], FIRST_JUDGING = 4 };

/* How often each call has answered each number on a damaged frame. */
static unsigned long numbers_met[ASKED][LAST_REFUSAL + 1];

static void start_tallies(const struct trial *trial, const char *pattern, struct tally tallies[ASKED])
{
    for (unsigned at = 0; at < ASKED; at++)
        tallies[at] = tally_of(asked[at].things, "%s, %u samples, %s, %s", trial->map->system->name, trial->count, pattern,
                               asked[at].call);
}

static void ask_from(unsigned first, const struct trial *trial, struct tally tallies[ASKED])
{
    for (unsigned at = first; at < ASKED; at++)
        asked[at].compare(trial, &tallies[at]);
}

static void print_from(unsigned first, const struct tally tallies[ASKED])
{
    for (unsigned at = first; at < ASKED; at++) {
        for (unsigned number = 0; number <= LAST_REFUSAL; number++)
            numbers_met[at][number] += tallies[at].answered[number];
        print_tally(&tallies[at]);
    }
}

/* The numbers that the judging calls have answered on damaged frames. */
static void print_met(const char *call, const unsigned long met[LAST_REFUSAL + 1])
{
    printf("damaged frames, %s has answered", call);
    for (unsigned number = 0; number <= LAST_REFUSAL; number++)
        if (met[number] > 0)
            printf(" %u", number);
    puts("");
}

static void print_numbers_met(void)
{
    for (unsigned at = FIRST_JUDGING; at < ASKED; at++)
        print_met(asked[at].call, numbers_met[at]);
}

/* Each pattern on a frame of its own. */
static void damage_blocks(struct trial *trial)
{
    for (unsigned at = 0; at < sizeof block_patterns / sizeof block_patterns[0]; at++) {
        struct tally tallies[ASKED];
        random_content(trial);
        write_frame(trial);
        block_patterns[at].damage(trial);
        start_tallies(trial, block_patterns[at].name, tallies);
        ask_from(0, trial, tallies);
        print_from(0, tallies);
    }
}

/* ---- damage to what is judged behind the IDs */

/* A DIF sequence of a DIF channel. */
struct sequence {
    unsigned dif_channel, dif_sequence;
};

static struct sequence some_sequence(const struct trial *trial)
{
    unsigned at = below(PAPER_DIF_CHANNELS * trial->map->system->dif_sequences);
    return (struct sequence){at / trial->map->system->dif_sequences, at % trial->map->system->dif_sequences};
}

/* The byte of the frame that the decoder points at, to be changed. */
static uint8_t *changing(struct trial *trial, const uint8_t *at)
{
    return trial->frame + (at - trial->frame);
}

static uint8_t *header_of(struct trial *trial, struct sequence of)
{
    return trial->frame + paper_block_start(trial->map, (struct paper_id){PAPER_HEADER, of.dif_channel, of.dif_sequence, 0});
}

static uint8_t *vs_of(struct trial *trial, struct sequence of)
{
    return changing(trial, paper_vaux_pack(trial->map, trial->frame, of.dif_channel, of.dif_sequence,
                                           paper_vs_number(of.dif_sequence)));
}

static uint8_t *as_of(struct trial *trial, struct sequence of)
{
    return changing(trial, paper_aaux_pack(trial->map, trial->frame, of.dif_channel, of.dif_sequence,
                                           paper_as_number(of.dif_sequence)));
}

/* The first DIF sequence of an audio channel; dif_sequences / 2 of them follow one another. */
static struct sequence first_of_audio_channel(const struct trial *trial, unsigned audio_channel)
{
    struct sequence first = {0, 0};
    while (paper_audio_channel(trial->map->system, first.dif_channel, first.dif_sequence) != audio_channel)
        if (++first.dif_sequence == trial->map->system->dif_sequences)
            first = (struct sequence){first.dif_channel + 1, 0};
    return first;
}

/* Bit 0 is the MSB of the first byte. */
static void flip(uint8_t *bytes, unsigned bit)
{
    bytes[bit / 8] ^= (uint8_t)(0x80 >> bit % 8);
}

static void flip_id_bit(struct trial *trial, unsigned step)
{
    flip(random_block(trial), step);
}

static void flip_header_bit(struct trial *trial, unsigned step)
{
    flip(header_of(trial, some_sequence(trial)) + 3, step);
}

static void flip_vs_bit(struct trial *trial, unsigned step)
{
    flip(vs_of(trial, some_sequence(trial)), step);
}

static void flip_excused_vs_bit(struct trial *trial, unsigned step)
{
    struct sequence of = some_sequence(trial);
    header_of(trial, of)[6] |= 0x80;
    flip(vs_of(trial, of), step);
}

static void flip_vs_bit_excuse_another(struct trial *trial, unsigned step)
{
    struct sequence of = some_sequence(trial), another = of;
    another.dif_channel = (of.dif_channel + 1) % PAPER_DIF_CHANNELS;
    header_of(trial, another)[6] |= 0x80;
    flip(vs_of(trial, of), step);
}

static void flip_as_bit(struct trial *trial, unsigned step)
{
    flip(as_of(trial, some_sequence(trial)), step);
}

static void set_af_size(uint8_t as[PAPER_PACK_BYTES], unsigned code)
{
    as[1] = (uint8_t)((as[1] & 0xc0) | code);
}

static void change_af_size(struct trial *trial, unsigned step)
{
    set_af_size(as_of(trial, some_sequence(trial)), step);
}

static void change_all_af_sizes(struct trial *trial, unsigned step)
{
    struct sequence of = first_of_audio_channel(trial, 1 + step % PAPER_AUDIO_CHANNELS);
    for (unsigned times = 0; times < trial->map->system->dif_sequences / 2; times++, of.dif_sequence++)
        set_af_size(as_of(trial, of), step);
}

static void change_audio_mode(struct trial *trial, unsigned step)
{
    uint8_t *as = as_of(trial, some_sequence(trial));
    as[2] = (uint8_t)((as[2] & 0xf0) | step);
}

/* The first AS of an audio channel with the count that the frame has not (60 Hz), the last one with another header. */
static void change_count_and_header(struct trial *trial, unsigned step)
{
    struct sequence of = first_of_audio_channel(trial, 1 + step);
    if (!trial->map->system->is_50_hz)
        flip(as_of(trial, of), 8 + 6);
    of.dif_sequence += trial->map->system->dif_sequences / 2 - 1;
    as_of(trial, of)[0] ^= 1;
}

/* The pack of an SSYB. */
static uint8_t *ssyb_pack(struct trial *trial, struct sequence of, unsigned ssyb)
{
    return changing(trial, paper_ssyb(trial->map, trial->frame, of.dif_channel, of.dif_sequence, ssyb)) + 3;
}

/* Some pack that Table 10 has so, but not those of DIF channel 0, sequence 0, SSYB 3 and 4. */
static uint8_t *some_other_pack(struct trial *trial, enum paper_ssyb_pack kind)
{
    for (;;) {
        struct sequence of = some_sequence(trial);
        unsigned ssyb = below(PAPER_SSYBS);
        int first = of.dif_channel == 0 && of.dif_sequence == 0 && (ssyb == 3 || ssyb == 4);
        if (!first && paper_table_10(trial->map->system, of.dif_sequence, ssyb) == kind)
            return ssyb_pack(trial, of, ssyb);
    }
}

static void flip_first_time_code(struct trial *trial, unsigned step)
{
    flip(ssyb_pack(trial, (struct sequence){0, 0}, 3), step);
}

static void flip_first_binary_group(struct trial *trial, unsigned step)
{
    flip(ssyb_pack(trial, (struct sequence){0, 0}, 4), step);
}

static void flip_other_time_code(struct trial *trial, unsigned step)
{
    flip(some_other_pack(trial, PAPER_TC), step);
}

static void flip_other_binary_group(struct trial *trial, unsigned step)
{
    flip(some_other_pack(trial, PAPER_BG), step);
}

static void flip_reserved_ssyb(struct trial *trial, unsigned step)
{
    flip(some_other_pack(trial, PAPER_RESERVED), step);
}

static void flip_ssyb_id(struct trial *trial, unsigned step)
{
    struct sequence of = some_sequence(trial);
    flip(ssyb_pack(trial, of, below(PAPER_SSYBS)) - 3, step);
}

/* One byte of PC1 to PC4 the same in every time code pack. */
static void change_all_time_codes(struct trial *trial, unsigned byte, uint8_t value)
{
    for (unsigned dif_channel = 0; dif_channel < PAPER_DIF_CHANNELS; dif_channel++)
        for (unsigned dif_sequence = 0; dif_sequence < trial->map->system->dif_sequences; dif_sequence++)
            for (unsigned ssyb = 0; ssyb < PAPER_SSYBS; ssyb++)
                if (paper_table_10(trial->map->system, dif_sequence, ssyb) == PAPER_TC)
                    ssyb_pack(trial, (struct sequence){dif_channel, dif_sequence}, ssyb)[1 + byte] = value;
}

/* Bits of a byte that are not in the mask, at random. */
static void scramble(uint8_t *byte, unsigned kept)
{
    *byte = (uint8_t)((*byte & kept) | (below(256) & ~kept));
}

/* Bytes from PC0 of a pack on, each with its own kept bits. */
static void scramble_pack(uint8_t *pack, const uint8_t kept[PAPER_PACK_BYTES])
{
    for (unsigned at = 0; at < PAPER_PACK_BYTES; at++)
        scramble(pack + at, kept[at]);
}

/* The bits of header, subcode, VAUX and AAUX of a sequence that are not judged. */
static void scramble_sequence(struct trial *trial, struct sequence of)
{
    static const uint8_t header[PAPER_PACK_BYTES] = {0x80, 0, 0x80, 0x80, 0x80}, none[PAPER_PACK_BYTES] = {0};
    static const uint8_t vs[PAPER_PACK_BYTES] = {0xff, 0, 0, 0x3f, 0}, as[PAPER_PACK_BYTES] = {0xff, 0xbf, 0xef, 0x3f, 0x3f};
    scramble_pack(header_of(trial, of) + 3, header);
    random_bytes(header_of(trial, of) + 8, PAPER_BLOCK_BYTES - 8);
    for (unsigned ssyb = 0; ssyb < PAPER_SSYBS; ssyb++) {
        uint8_t *pack = ssyb_pack(trial, of, ssyb);
        random_bytes(pack - 3, 3);
        if (paper_table_10(trial->map->system, of.dif_sequence, ssyb) == PAPER_RESERVED)
            random_bytes(pack, PAPER_PACK_BYTES);
    }
    for (unsigned pack = 0; pack < 45; pack++)
        scramble_pack(changing(trial, paper_vaux_pack(trial->map, trial->frame, of.dif_channel, of.dif_sequence, pack)),
                      pack == paper_vs_number(of.dif_sequence) ? vs : none);
    for (unsigned pack = 0; pack < 9; pack++)
        scramble_pack(changing(trial, paper_aaux_pack(trial->map, trial->frame, of.dif_channel, of.dif_sequence, pack)),
                      pack == paper_as_number(of.dif_sequence) ? as : none);
}

/* All of a DIF channel that is not judged, the other bits of its IDs too. */
static void scramble_dif_channel(struct trial *trial, unsigned dif_channel)
{
    for (unsigned dif_sequence = 0; dif_sequence < trial->map->system->dif_sequences; dif_sequence++) {
        scramble_sequence(trial, (struct sequence){dif_channel, dif_sequence});
        for (unsigned place = 0; place < PAPER_PLACES; place++) {
            uint8_t *id = trial->frame + paper_place_start(trial->map->system, dif_channel, dif_sequence, place);
            scramble(id, 0xe0);
            scramble(id + 1, 0xfc);
        }
    }
}

/* Each step on the frame as it was written. */
struct judged_pattern {
    const char *name;
    unsigned steps;
    void (*damage)(struct trial *, unsigned step);
};

static const struct judged_pattern judged_patterns[] = {
    {"a bit of an ID flipped", 24, flip_id_bit},
    {"a bit of a header's bytes 3 to 7 flipped", 40, flip_header_bit},
    {"a bit of a VS flipped", 40, flip_vs_bit},
    {"a bit of a VS flipped, its TF2 set", 40, flip_excused_vs_bit},
    {"a bit of a VS flipped, another's TF2 set", 40, flip_vs_bit_excuse_another},
    {"a bit of an AS flipped", 40, flip_as_bit},
    {"every AF size in an AS", 64, change_af_size},
    {"every AF size in all AS of an audio channel", 64, change_all_af_sizes},
    {"every audio mode in an AS", 16, change_audio_mode},
    {"an AS with another count, an AS with another header", 8, change_count_and_header},
    {"a bit of the first time code flipped", 40, flip_first_time_code},
    {"a bit of the first binary group flipped", 40, flip_first_binary_group},
    {"a bit of another time code flipped", 40, flip_other_time_code},
    {"a bit of another binary group flipped", 40, flip_other_binary_group},
    {"a bit of a reserved SSYB flipped", 40, flip_reserved_ssyb},
    {"a bit of an SSYB ID flipped", 24, flip_ssyb_id},
    {"all that is not judged in a DIF channel at random", PAPER_DIF_CHANNELS, scramble_dif_channel},
};

enum { JUDGED_PATTERNS = sizeof judged_patterns / sizeof judged_patterns[0] };

static uint8_t undamaged[MOST_FRAME];

static void write_undamaged(struct trial *trial)
{
    random_content(trial);
    write_frame(trial);
    memcpy(undamaged, trial->frame, trial->frame_bytes);
}

static void damage_judged(struct trial *trial, const struct judged_pattern *patterns, unsigned length)
{
    for (const struct judged_pattern *pattern = patterns; pattern < patterns + length; pattern++) {
        struct tally tallies[ASKED];
        write_undamaged(trial);
        start_tallies(trial, pattern->name, tallies);
        for (unsigned step = 0; step < pattern->steps; step++) {
            memcpy(trial->frame, undamaged, trial->frame_bytes);
            pattern->damage(trial, step);
            ask_from(FIRST_JUDGING, trial, tallies);
        }
        print_from(FIRST_JUDGING, tallies);
    }
}

/* Bit flips that a number is given for: a DBN, DSF, VS PC0, TF1, TF2, TF3, AS PC0, AF size (25 at 60 Hz), PC0 of the first time
 * code and of another. */
static const struct {
    void (*damage)(struct trial *, unsigned step);
    unsigned step;
} causes[] = {
    {flip_id_bit, 23},     {flip_header_bit, 0}, {flip_vs_bit, 0},  {flip_header_bit, 16},     {flip_header_bit, 24},
    {flip_header_bit, 32}, {flip_as_bit, 0},     {flip_as_bit, 14}, {flip_first_time_code, 0}, {flip_other_time_code, 0},
};

enum { CAUSES = sizeof causes / sizeof causes[0] };

/* Every two causes on one frame, for the order of the numbers. */
static void damage_in_pairs(struct trial *trial)
{
    struct tally tallies[ASKED];
    write_undamaged(trial);
    start_tallies(trial, "every two causes of a refusal", tallies);
    for (unsigned one = 0; one < CAUSES; one++)
        for (unsigned other = 0; other < one; other++) {
            memcpy(trial->frame, undamaged, trial->frame_bytes);
            causes[one].damage(trial, causes[one].step);
            causes[other].damage(trial, causes[other].step);
            ask_from(FIRST_JUDGING, trial, tallies);
        }
    print_from(FIRST_JUDGING, tallies);
}

/* Every value of each byte of the time code, the same in all its packs. */
static void compare_every_time_code_byte(struct trial *trial)
{
    struct tally tally = tally_of_trial(trial, "frames", "every byte in all time codes, dv100_read_time");
    write_undamaged(trial);
    for (unsigned byte = 0; byte < 4; byte++)
        for (unsigned value = 0; value < 256; value++) {
            change_all_time_codes(trial, byte, (uint8_t)value);
            compare_read_time(trial, &tally);
            change_all_time_codes(trial, byte, trial->time_code[byte]);
        }
    print_tally(&tally);
}

static void damage_and_compare(struct trial *trial)
{
    damage_blocks(trial);
    damage_judged(trial, judged_patterns, JUDGED_PATTERNS);
    damage_in_pairs(trial);
    compare_every_time_code_byte(trial);
}

/* ---- 3. the known places of document 01 */

/* A line on what a paper says literally, and whether the decoder and the library say the same. */
static void print_three_ways(int decoder, int library, const char *literal, ...)
{
    va_list values;
    va_start(values, literal);
    vprintf(literal, values);
    va_end(values);
    if (decoder && library) {
        puts(": paper, decoder, library agree");
        return;
    }
    lines_that_differ++;
    printf(": DIFFERS%s%s\n", decoder ? "" : " in the decoder", library ? "" : " in the library");
}

/* What the library reads in the ID of the block that holds a byte of a frame. */
static struct dv100_id library_id_at(const struct trial *trial, size_t byte)
{
    return dv100_read_id(trial->frame + byte - byte % PAPER_BLOCK_BYTES, 3);
}

static int library_names(struct dv100_id said, struct paper_id due)
{
    return said.number == 0 && said.section == due.section && said.channel == due.dif_channel &&
           said.sequence == due.dseq && said.block == due.dbn;
}

/* All that an ID answers. */
static int library_reads(struct dv100_id said, struct paper_id named, struct paper_spare spare)
{
    return library_names(said, named) && said.arbitrary == spare.arb && said.reserved == spare.res;
}

/* A number, and zeros beside it. */
static int library_refuses(struct dv100_id said, uint32_t number)
{
    return said.number == number &&
           !(said.section | said.channel | said.sequence | said.block | said.arbitrary | said.reserved);
}

static int same_id(struct paper_id one, struct paper_id other)
{
    return one.section == other.section && one.dif_channel == other.dif_channel && one.dseq == other.dseq &&
           one.dbn == other.dbn;
}

/* The bytes of an ID, and the block that they name, at its place in a written frame. */
static void compare_known_id(const struct trial *trial, struct paper_id named, unsigned place, const uint8_t id[3])
{
    uint8_t written[3];
    paper_write_id(named, written);
    struct dv100_part block =
        dv100_view(trial->system, trial->frame, trial->frame_bytes, named.dif_channel, named.dseq, place);
    print_three_ways(
        memcmp(written, id, 3) == 0 && same_id(paper_read_id(id), named),
        library_reads(dv100_read_id(id, 3), named, (struct paper_spare){15, 7}) && block.number == 0 &&
            memcmp(trial->frame + block.start, id, 3) == 0,
        "known %s, ID of DIF channel %u, sequence %u, section %u block %u: %02X %02X %02X", trial->map->system->name,
        named.dif_channel, named.dseq, named.section, named.dbn, id[0], id[1], id[2]);
}

static void compare_known_ids(const struct trial *trial)
{
    compare_known_id(trial, (struct paper_id){PAPER_HEADER, 0, 0, 0}, 0, (const uint8_t[3]){0x1f, 0x07, 0x00});
    compare_known_id(trial, (struct paper_id){PAPER_VIDEO, 3, 9, 134}, 149, (const uint8_t[3]){0x9f, 0x9b, 0x86});
}

static void compare_known_places(const struct trial *trial)
{
    static const struct {
        unsigned place, section, dbn;
        const char *block;
    } known[] = {{6, PAPER_AUDIO, 0, "A0"}, {22, PAPER_AUDIO, 1, "A1"}, {149, PAPER_VIDEO, 134, "V134"}};
    for (unsigned at = 0; at < sizeof known / sizeof known[0]; at++) {
        struct paper_id due = {known[at].section, 0, 0, known[at].dbn};
        struct dv100_part block = dv100_view(trial->system, trial->frame, trial->frame_bytes, 0, 0, known[at].place);
        print_three_ways(same_id(trial->map->figure_3[known[at].place], due),
                         block.number == 0 && library_names(library_id_at(trial, block.start), due),
                         "known %s, place %u: %s", trial->map->system->name, known[at].place, known[at].block);
    }
}

/* A sample of audio channel 1 and its (sequence, block, byte). */
struct known_sample {
    unsigned n, dif_sequence, audio_dif_block, byte;
};

/* Silence, and a copy of its frame. */
static const uint8_t *write_silence(struct trial *trial)
{
    static uint8_t silence[MOST_FRAME];
    plain_content(trial);
    write_frame(trial);
    memcpy(silence, trial->frame, trial->frame_bytes);
    return silence;
}

/* Whether the frame differs from another in those two bytes alone, where it has 1234h. */
static int only_known_word_differs(const struct trial *trial, const uint8_t *before, struct known_sample known)
{
    size_t changed[2] = {0, 0};
    unsigned changes = 0;
    for (size_t byte = 0; byte < trial->frame_bytes; byte++)
        if (trial->frame[byte] != before[byte] && changes++ < 2)
            changed[changes - 1] = byte;
    return changes == 2 && changed[0] % PAPER_BLOCK_BYTES == known.byte && changed[1] == changed[0] + 1 &&
           trial->frame[changed[0]] == 0x12 && trial->frame[changed[1]] == 0x34 &&
           library_names(library_id_at(trial, changed[0]),
                         (struct paper_id){PAPER_AUDIO, 0, known.dif_sequence, known.audio_dif_block});
}

/* Whether they change when sample n is written otherwise. */
static int library_writes_sample_at(struct trial *trial, struct known_sample known)
{
    const uint8_t *before = write_silence(trial);
    trial->sound[known.n] = 0x1234;
    write_frame(trial);
    return only_known_word_differs(trial, before, known);
}

/* Whether they change when audio channel 1 is replaced by silence with another sample n. */
static int library_replaces_sample_at(struct trial *trial, struct known_sample known)
{
    const uint8_t *before = write_silence(trial);
    int32_t samples[PAPER_MOST_SAMPLES] = {0};
    samples[known.n] = 0x1234;
    uint32_t refusal = dv100_replace_audio(trial->system, trial->frame, trial->frame_bytes, 1, samples, trial->count);
    return refusal == 0 && only_known_word_differs(trial, before, known);
}

/* Whether dv100_salvage answers a word put there at position n of audio channel 1, and zeros at all others. */
static int library_reads_sample_at(struct trial *trial, struct known_sample known)
{
    static int32_t samples[MOST_SOUND];
    unsigned positions = PAPER_AUDIO_CHANNELS * trial->map->system->samples;
    struct paper_id block = {PAPER_AUDIO, 0, known.dif_sequence, known.audio_dif_block};
    plain_content(trial);
    write_frame(trial);
    uint8_t *word = trial->frame + paper_block_start(trial->map, block) + known.byte;
    word[0] = 0x12;
    word[1] = 0x34;
    dv100_salvage(trial->system, trial->frame, trial->frame_bytes, samples, positions, NULL, 0);
    for (unsigned at = 0; at < positions; at++)
        if (samples[at] != (at == known.n ? 0x1234 : 0))
            return 0;
    return 1;
}

static void compare_known_sample(struct trial *trial, struct known_sample known)
{
    struct paper_sample_place at = trial->map->sample[1][known.n];
    int decoder = at.dif_channel == 0 && at.dif_sequence == known.dif_sequence &&
                  at.audio_dif_block == known.audio_dif_block && at.byte == known.byte;
    int library = library_reads_sample_at(trial, known) &&
                  (known.n >= trial->count ||
                   (library_writes_sample_at(trial, known) && library_replaces_sample_at(trial, known)));
    print_three_ways(decoder, library, "known %s, audio channel 1 sample %u: (%u,%u,%u)", trial->map->system->name, known.n,
                     known.dif_sequence, known.audio_dif_block, known.byte);
}

static void compare_known_samples(struct trial *trial)
{
    static const struct known_sample at_60_hz[] = {{0, 0, 0, 8},  {2, 4, 6, 8},   {15, 0, 1, 8},
                                                   {44, 3, 8, 8}, {45, 0, 0, 10}, {1619, 3, 8, 78}};
    static const struct known_sample at_50_hz[] = {{5, 5, 6, 8}, {1943, 3, 8, 78}};
    if (trial->map->system->is_50_hz)
        for (unsigned at = 0; at < 2; at++)
            compare_known_sample(trial, at_50_hz[at]);
    else
        for (unsigned at = 0; at < 6; at++)
            compare_known_sample(trial, at_60_hz[at]);
}

static void compare_known_macroblock(const struct trial *trial, struct paper_video_place v, unsigned number)
{
    struct dv100_part part = dv100_macroblock(trial->system, trial->frame, trial->frame_bytes, number);
    print_three_ways(trial->map->macroblock_of[v.h][v.dsn][v.dbn] == (int)number,
                     part.number == 0 && part.start % PAPER_BLOCK_BYTES == PAPER_PAYLOAD &&
                         library_names(library_id_at(trial, part.start), (struct paper_id){PAPER_VIDEO, v.h, v.dsn, v.dbn}),
                     "known %s, DIF channel %u, sequence %u, V%u: macroblock %u", trial->map->system->name, v.h, v.dsn,
                     v.dbn, number);
}

static void compare_known_macroblocks(const struct trial *trial)
{
    if (trial->map->system->super_block_rows == 11) {
        compare_known_macroblock(trial, (struct paper_video_place){1, 0, 0}, 2349);
        compare_known_macroblock(trial, (struct paper_video_place){0, 11, 134}, 6074);
    } else {
        compare_known_macroblock(trial, (struct paper_video_place){0, 0, 0}, 324);
        compare_known_macroblock(trial, (struct paper_video_place){1, 9, 134}, 2429);
    }
}

/* The AS packs of audio channel 1 with 1,602 samples, in DIF channel 0, sequences 0 to 4. */
static void compare_known_as(struct trial *trial)
{
    static const uint8_t known[PAPER_PACK_BYTES] = {0x50, 0x56, 0x10, 0xc3, 0xc0};
    uint8_t due[PAPER_PACK_BYTES];
    int library = 1;
    set_up(trial, trial->system, 1602);
    plain_content(trial);
    write_frame(trial);
    paper_as(trial->map->system, 1, 1602, due);
    for (unsigned dif_sequence = 0; dif_sequence < 5; dif_sequence++)
        library &= memcmp(paper_aaux_pack(trial->map, trial->frame, 0, dif_sequence, paper_as_number(dif_sequence)), known,
                          PAPER_PACK_BYTES) == 0;
    print_three_ways(memcmp(due, known, PAPER_PACK_BYTES) == 0, library,
                     "known %s, AS of audio channel 1, 1602 samples: 50 56 10 C3 C0", trial->map->system->name);
}

static void compare_known(struct trial *trial)
{
    plain_content(trial);
    write_frame(trial);
    compare_known_ids(trial);
    compare_known_places(trial);
    compare_known_macroblocks(trial);
    compare_known_samples(trial);
    if (!trial->map->system->is_50_hz)
        compare_known_as(trial);
}

/* ---- 4. printed rows and rules */

/* The macroblock that the library has in each video DIF block of a system. */
static int library_macroblock_of[PAPER_SYSTEMS][PAPER_DIF_CHANNELS][PAPER_MOST_SEQUENCES][PAPER_VIDEO_BLOCKS];

static void ask_library_for_macroblocks(struct trial *trial)
{
    memset(library_macroblock_of[trial->system], 0xff, sizeof library_macroblock_of[trial->system]);
    plain_content(trial);
    write_frame(trial);
    for (unsigned number = 0; number < trial->map->system->macroblocks; number++) {
        struct dv100_part part = dv100_macroblock(trial->system, trial->frame, trial->frame_bytes, number);
        struct dv100_id id = library_id_at(trial, part.start);
        library_macroblock_of[trial->system][id.channel][id.sequence][id.block] = (int)number;
    }
}

/* The number of a row's compressed macro block, or PAPER_NO_MACROBLOCK for a dash. */
static int printed_number(unsigned system, const struct printed_row *row)
{
    if (row->cm.h == PRINTED_NONE)
        return PAPER_NO_MACROBLOCK;
    return (int)paper_macroblock_number(maps[system].system, row->cm);
}

static int decoder_has(unsigned system, const struct printed_row *row)
{
    return maps[system].macroblock_of[row->v.i][row->dif_sequence][row->v.dbn] == printed_number(system, row);
}

static int library_has(unsigned system, const struct printed_row *row)
{
    return library_macroblock_of[system][row->v.i][row->dif_sequence][row->v.dbn] == printed_number(system, row);
}

/* One line for each row, on a system of the table. */
static void compare_table(const char *name, unsigned system, const struct printed_row *rows, unsigned length)
{
    for (const struct printed_row *row = rows; row < rows + length; row++) {
        int decoder = row->v.i == row->dif_channel && decoder_has(system, row);
        int library = library_has(system, row);
        if (row->cm.h == PRINTED_NONE)
            print_three_ways(decoder, library, "%s, DIF channel %u, sequence %u, V %u,%u: none", name, row->dif_channel,
                             row->dif_sequence, row->v.dbn, row->v.i);
        else
            print_three_ways(decoder, library, "%s, DIF channel %u, sequence %u, V %u,%u: CM %u,%u,%u,%u", name,
                             row->dif_channel, row->dif_sequence, row->v.dbn, row->v.i, row->cm.h, row->cm.i, row->cm.j,
                             row->cm.k);
    }
}

/* Whether V dbn,h and its four neighbours hold the video segment h, i, k. */
static int holds_segment(const struct paper_map *map, struct paper_video_place v, unsigned i, unsigned k)
{
    for (unsigned m = 0; m < 5; m++) {
        struct paper_cm cm = paper_segment(map->system, v.h, i, k, m);
        if (map->macroblock_of[v.h][v.dsn][v.dbn + m] != (int)paper_macroblock_number(map->system, cm))
            return 0;
    }
    return 1;
}

/* Whether they hold some video segment; of sequence 11 the edge unit's. */
static int holds_some_segment(const struct paper_map *map, struct paper_video_place v)
{
    for (unsigned k = 0; k < 27; k++)
        for (unsigned row = 0; row < map->system->super_block_rows; row++)
            if (holds_segment(map, v, v.dsn == 11 ? 11 : row, k))
                return 1;
    return 0;
}

static void compare_segments(unsigned system)
{
    const struct paper_map *map = &maps[system];
    struct tally tally = tally_of("segments", "%s, the decoder alone, § 4.1.6 and § 3.7.2.1", map->system->name);
    for (unsigned h = 0; h < PAPER_DIF_CHANNELS; h++)
        for (unsigned dsn = 0; dsn < map->system->dif_sequences; dsn++)
            for (unsigned dbn = 0; dbn < PAPER_VIDEO_BLOCKS; dbn += 5)
                if (map->macroblock_of[h][dsn][dbn] != PAPER_NO_MACROBLOCK)
                    compare(&tally, holds_some_segment(map, (struct paper_video_place){h, dsn, dbn}), "V %u,%u of %u", dbn,
                            h, dsn);
    require(&tally, map->misplaced == 0, "%u misplaced", map->misplaced);
    print_tally(&tally);
}

/* Whether six numbers, written by Table 1, are the three bytes that they were read from. */
static int tells_id(struct paper_id named, struct paper_spare spare, const uint8_t id[3])
{
    uint8_t told[3];
    if (named.dif_channel >= PAPER_DIF_CHANNELS || spare.arb > 15 || spare.res > 7)
        return 0;
    paper_write_all(named, spare, told);
    return memcmp(told, id, 3) == 0;
}

static int library_tells_id(struct dv100_id said, const uint8_t id[3])
{
    return tells_id((struct paper_id){said.section, said.channel, said.sequence, said.block},
                    (struct paper_spare){said.arbitrary, said.reserved}, id);
}

/* Every ID that three bytes can be; where the section is not reserved, the answer tells all 24 bits. */
static void compare_all_ids(void)
{
    struct tally read = tally_of("IDs", "dv100_read_id"), told = tally_of("IDs", "dv100_read_id, the bytes from the answer");
    for (unsigned word = 0; word < 1u << 24; word++) {
        uint8_t id[3] = {(uint8_t)(word >> 16), (uint8_t)(word >> 8), (uint8_t)word};
        struct dv100_id said = dv100_read_id(id, 3);
        struct paper_id due = paper_read_id(id);
        struct paper_spare spare = paper_read_spare(id);
        require(&read, tells_id(due, spare, id), "%06X, the decoder alone", word);
        if (due.section >= PAPER_RESERVED_FROM) {
            compare(&read, library_refuses(said, 11), "%06X", word);
            continue;
        }
        compare(&read, library_reads(said, due, spare), "%06X", word);
        compare(&told, library_tells_id(said, id), "%06X", word);
    }
    print_tally(&read);
    print_tally(&told);
}

/* Other lengths, of ones and of good IDs. */
static void compare_id_lengths(void)
{
    struct tally tally = tally_of("lengths", "dv100_read_id, not 3 bytes");
    static const uint8_t bytes[2][9] = {{0xff, 0xff, 0xff, 0xff, 0xff, 0xff, 0xff, 0xff, 0xff},
                                        {0x1f, 0x07, 0x00, 0x9f, 0x9b, 0x86, 0x75, 0x02, 0x03}};
    for (unsigned which = 0; which < 2; which++)
        for (unsigned length = 0; length <= sizeof bytes[which]; length++) {
            if (length == 3)
                continue;
            struct dv100_id said = dv100_read_id(bytes[which], length);
            tell_answer(&tally, said.number);
            compare(&tally, library_refuses(said, 4), "%u bytes: %u, %u and %u", length, said.number, said.arbitrary,
                    said.reserved);
        }
    print_tally(&tally);
}

static void compare_printed(struct trial *trial)
{
    for (unsigned system = 0; system < PAPER_SYSTEMS; system++) {
        set_up(trial, system, maps[system].system->counts[0]);
        ask_library_for_macroblocks(trial);
    }
    compare_table("Table 22 in 1080/60/I", 0, table_22, TABLE_22_ROWS);
    compare_table("Table 22 in 720/60/P", 2, table_22, TABLE_22_ROWS);
    compare_table("Table 23", 1, table_23, TABLE_23_ROWS);
    compare_table("Table 24", 3, table_24, TABLE_24_ROWS);
    for (unsigned system = 0; system < PAPER_SYSTEMS; system++)
        compare_segments(system);
    compare_all_ids();
    compare_id_lengths();
}

/* ---- 5. audio channels marked 1111, invalid audio data */

static unsigned half_of(const struct trial *trial)
{
    return trial->map->system->dif_sequences / 2;
}

/* An AS of an audio channel, by its number among them. */
static uint8_t *as_of_channel(struct trial *trial, unsigned audio_channel, unsigned number)
{
    struct sequence of = first_of_audio_channel(trial, audio_channel);
    of.dif_sequence += number;
    return as_of(trial, of);
}

static void mark(uint8_t as[PAPER_PACK_BYTES])
{
    as[2] |= 0x0f;
}

static void mark_from(struct trial *trial, unsigned audio_channel, unsigned first)
{
    for (unsigned number = first; number < half_of(trial); number++)
        mark(as_of_channel(trial, audio_channel, number));
}

static void mark_all(struct trial *trial)
{
    for (unsigned audio_channel = 1; audio_channel <= PAPER_AUDIO_CHANNELS; audio_channel++)
        mark_from(trial, audio_channel, 0);
}

static void mark_channel(struct trial *trial, unsigned step)
{
    mark_from(trial, 1 + step, 0);
}

/* Every audio channel, and in it every AS. */
static void mark_all_but_one(struct trial *trial, unsigned step)
{
    uint8_t *kept = as_of_channel(trial, 1 + step % PAPER_AUDIO_CHANNELS, step / PAPER_AUDIO_CHANNELS % half_of(trial));
    uint8_t pc2 = kept[2];
    mark_from(trial, 1 + step % PAPER_AUDIO_CHANNELS, 0);
    kept[2] = pc2;
}

static void mark_one(struct trial *trial, unsigned step)
{
    mark(as_of_channel(trial, 1 + step % PAPER_AUDIO_CHANNELS, step / PAPER_AUDIO_CHANNELS % half_of(trial)));
}

/* As many AS as an audio channel has, from its second on: the last is the next channel's first. */
static void mark_late(struct trial *trial, unsigned step)
{
    mark_from(trial, 1 + step, 1);
    mark(as_of_channel(trial, 1 + (step + 1) % PAPER_AUDIO_CHANNELS, 0));
}

/* Every bit, in an odd and in an even audio channel. */
static void mark_channel_flip_bit(struct trial *trial, unsigned step)
{
    unsigned audio_channel = 1 + step % 2 + 2 * below(PAPER_AUDIO_CHANNELS / 2);
    mark_from(trial, audio_channel, 0);
    flip(as_of_channel(trial, audio_channel, below(half_of(trial))), step / 2);
}

/* The first and the last AS of an audio channel, in either order. */
struct two_as {
    uint8_t *one, *other;
};

static struct two_as two_as_of(struct trial *trial, unsigned step)
{
    uint8_t *first = as_of_channel(trial, 1 + step % PAPER_AUDIO_CHANNELS, 0);
    uint8_t *last = as_of_channel(trial, 1 + step % PAPER_AUDIO_CHANNELS, half_of(trial) - 1);
    return step < PAPER_AUDIO_CHANNELS ? (struct two_as){first, last} : (struct two_as){last, first};
}

static void mark_one_change_header(struct trial *trial, unsigned step)
{
    struct two_as as = two_as_of(trial, step);
    mark(as.one);
    as.other[0] ^= 1;
}

static void mark_one_change_mode(struct trial *trial, unsigned step)
{
    struct two_as as = two_as_of(trial, step);
    mark(as.one);
    as.other[2] ^= 1;
}

/* The count that the frame has not, at 60 Hz; at 50 Hz there is none. */
static void mark_one_change_count(struct trial *trial, unsigned step)
{
    struct two_as as = two_as_of(trial, step);
    mark(as.one);
    if (!trial->map->system->is_50_hz)
        flip(as.other, 8 + 6);
}

static const struct judged_pattern marked_patterns[] = {
    {"all AS of an audio channel marked", PAPER_AUDIO_CHANNELS, mark_channel},
    {"all AS of an audio channel but one marked", 6 * PAPER_AUDIO_CHANNELS, mark_all_but_one},
    {"one AS of an audio channel marked", 6 * PAPER_AUDIO_CHANNELS, mark_one},
    {"as many AS marked, one sequence late", PAPER_AUDIO_CHANNELS, mark_late},
    {"all AS of an audio channel marked, a bit of one flipped", 80, mark_channel_flip_bit},
    {"an AS marked, another with another header", 2 * PAPER_AUDIO_CHANNELS, mark_one_change_header},
    {"an AS marked, another with the other channels' mode", 2 * PAPER_AUDIO_CHANNELS, mark_one_change_mode},
    {"an AS marked, another with another count", 2 * PAPER_AUDIO_CHANNELS, mark_one_change_count},
};

enum { MARKED_PATTERNS = sizeof marked_patterns / sizeof marked_patterns[0] };

/* Every audio channel marked by itself: its count, lost below it, and the entries behind as they were. */
static void compare_marked_reads(struct trial *trial)
{
    struct tally tally = tally_of_trial(trial, "positions", "marked, lost to the count, dv100_read_audio");
    write_undamaged(trial);
    for (unsigned audio_channel = 1; audio_channel <= PAPER_AUDIO_CHANNELS; audio_channel++) {
        int32_t samples[PAPER_MOST_SAMPLES];
        memcpy(trial->frame, undamaged, trial->frame_bytes);
        mark_from(trial, audio_channel, 0);
        clear_list((uint32_t *)samples, PAPER_MOST_SAMPLES);
        struct dv100_audio said = dv100_read_audio(trial->system, trial->frame, trial->frame_bytes, audio_channel, samples,
                                                   trial->map->system->samples);
        require(&tally, said.number == 0 && said.count == trial->count, "audio channel %u: refusal %u, count %u",
                audio_channel, said.number, said.count);
        for (unsigned n = 0; n < trial->map->system->samples; n++)
            compare(&tally, samples[n] == (n < trial->count ? DV100_LOST : UNTOUCHED), "audio channel %u sample %u: %d",
                    audio_channel, n, samples[n]);
    }
    print_tally(&tally);
}

/* Every value of a byte of AS, the same in all of an audio channel's. */
static void compare_every_as_byte(struct trial *trial, struct tally *tally, unsigned byte, unsigned values)
{
    memcpy(undamaged, trial->frame, trial->frame_bytes);
    for (unsigned audio_channel = 1; audio_channel <= PAPER_AUDIO_CHANNELS; audio_channel++) {
        for (unsigned value = 0; value < values; value++) {
            for (unsigned number = 0; number < half_of(trial); number++)
                as_of_channel(trial, audio_channel, number)[byte] = (uint8_t)value;
            compare_audio_channel(trial, tally, audio_channel);
        }
        memcpy(trial->frame, undamaged, trial->frame_bytes);
    }
}

static void compare_every_mode(struct trial *trial)
{
    struct tally tally = tally_of_trial(trial, "frames", "every PC2 in all AS of an audio channel, dv100_read_audio");
    write_undamaged(trial);
    compare_every_as_byte(trial, &tally, 2, 256);
    print_tally(&tally);
}

static void compare_every_marked_size(struct trial *trial)
{
    struct tally tally =
        tally_of_trial(trial, "frames", "every AF size in all AS of a marked audio channel, dv100_read_audio");
    write_undamaged(trial);
    mark_all(trial);
    compare_every_as_byte(trial, &tally, 1, 64);
    print_tally(&tally);
}

/* What salvage and survey give of a frame. */
struct answers {
    struct {
        struct dv100_survey said;
        uint32_t list[RECORD * MOST_BLOCKS];
    } survey;
    struct {
        struct dv100_survey said;
        uint32_t list[RECORD * MOST_BLOCKS];
        int32_t samples[MOST_SOUND];
    } salvage;
};

static void answer(const struct trial *trial, struct answers *answers)
{
    memset(answers, 0, sizeof *answers);
    answers->salvage.said = dv100_salvage(trial->system, trial->frame, trial->frame_bytes, answers->salvage.samples,
                                          PAPER_AUDIO_CHANNELS * trial->map->system->samples, answers->salvage.list,
                                          RECORD * MOST_BLOCKS);
    answers->survey.said =
        dv100_survey(trial->system, trial->frame, trial->frame_bytes, answers->survey.list, RECORD * MOST_BLOCKS);
}

/* The five bytes of every pack of AAUX at random, in whatever block stands there. */
static void randomize_aaux(struct trial *trial)
{
    for (unsigned dif_channel = 0; dif_channel < PAPER_DIF_CHANNELS; dif_channel++)
        for (unsigned dif_sequence = 0; dif_sequence < trial->map->system->dif_sequences; dif_sequence++)
            for (unsigned pack = 0; pack < 9; pack++)
                random_bytes(changing(trial, paper_aaux_pack(trial->map, trial->frame, dif_channel, dif_sequence, pack)),
                             PAPER_PACK_BYTES);
}

/* Salvage and survey of a frame, then with every AS marked, then with its AAUX at random. */
static void compare_unaffected(struct trial *trial, struct tally *tally, const char *pattern)
{
    static struct answers before, after;
    answer(trial, &before);
    mark_all(trial);
    answer(trial, &after);
    compare(tally, memcmp(&before, &after, sizeof before) == 0, "%s, marked", pattern);
    randomize_aaux(trial);
    answer(trial, &after);
    compare(tally, memcmp(&before, &after, sizeof before) == 0, "%s, AAUX at random", pattern);
}

static void compare_all_unaffected(struct trial *trial)
{
    struct tally tally = tally_of_trial(trial, "frames", "marked, dv100_salvage and dv100_survey as unmarked");
    write_undamaged(trial);
    compare_unaffected(trial, &tally, "undamaged");
    for (unsigned at = 0; at < sizeof block_patterns / sizeof block_patterns[0]; at++) {
        memcpy(trial->frame, undamaged, trial->frame_bytes);
        block_patterns[at].damage(trial);
        compare_unaffected(trial, &tally, block_patterns[at].name);
    }
    print_tally(&tally);
}

/* Every audio channel has one AS marked, and so 25: each cause of another number beside it. */
static void mark_with_every_cause(struct trial *trial)
{
    struct tally tallies[ASKED];
    write_undamaged(trial);
    start_tallies(trial, "an AS of every audio channel marked, every cause of a refusal", tallies);
    for (unsigned at = 0; at < CAUSES; at++) {
        memcpy(trial->frame, undamaged, trial->frame_bytes);
        for (unsigned step = 0; step < PAPER_AUDIO_CHANNELS; step++)
            mark_one(trial, step + PAPER_AUDIO_CHANNELS * below(half_of(trial)));
        causes[at].damage(trial, causes[at].step);
        ask_from(FIRST_JUDGING, trial, tallies);
    }
    print_from(FIRST_JUDGING, tallies);
}

/* All that a frame is asked, every AS marked. */
static void mark_and_ask_all(struct trial *trial)
{
    struct tally tallies[ASKED];
    write_undamaged(trial);
    mark_all(trial);
    start_tallies(trial, "every AS marked", tallies);
    ask_from(0, trial, tallies);
    print_from(0, tallies);
}

static void mark_and_compare(struct trial *trial, unsigned system, unsigned count)
{
    set_up(trial, system, count);
    compare_marked_reads(trial);
    mark_and_ask_all(trial);
    damage_judged(trial, marked_patterns, MARKED_PATTERNS);
    mark_with_every_cause(trial);
    compare_every_mode(trial);
    compare_every_marked_size(trial);
    compare_all_unaffected(trial);
}

/* ---- 6. audio channels replaced */

/* New samples of an audio channel: how many of them are lent, and room for one more than any audio channel has. */
struct list {
    unsigned length;
    int32_t samples[PAPER_MOST_SAMPLES + 1];
};

static struct list random_list(unsigned length)
{
    struct list list = {.length = length};
    for (unsigned n = 0; n <= PAPER_MOST_SAMPLES; n++)
        list.samples[n] = random_sample();
    return list;
}

/* Whether the frame is as before but for the bytes of an audio channel's samples below a count. */
static int only_samples_differ(const struct trial *trial, const uint8_t before[MOST_FRAME], unsigned audio_channel,
                               unsigned count)
{
    static uint8_t rest[MOST_FRAME];
    memcpy(rest, trial->frame, MOST_FRAME);
    for (unsigned n = 0; n < count; n++) {
        unsigned start = paper_sample_start(trial->map, audio_channel, n);
        memcpy(rest + start, before + start, 2);
    }
    return memcmp(rest, before, MOST_FRAME) == 0;
}

/* The number; the new samples, by the decoder; every other byte, and the list, as they were. */
static void compare_replacing(struct trial *trial, struct tally *tally, unsigned audio_channel, const struct list *list)
{
    static uint8_t before[MOST_FRAME];
    struct list kept = *list;
    unsigned due = paper_judge_replacing(trial->map, trial->frame, audio_channel, list->samples, list->length);
    unsigned count = due ? 0 : list->length;
    memcpy(before, trial->frame, MOST_FRAME);
    uint32_t said = dv100_replace_audio(trial->system, trial->frame, trial->frame_bytes, audio_channel, list->samples,
                                        list->length);
    tell_answer(tally, said);
    compare(tally, said == due, "audio channel %u, %u samples: decoder %u, library %u", audio_channel, list->length, due, said);
    require(tally, only_samples_differ(trial, before, audio_channel, count), "audio channel %u, refusal %u: another byte",
            audio_channel, due);
    for (unsigned n = 0; n < count; n++) {
        int32_t sample = paper_sample(trial->map, trial->frame, audio_channel, n);
        require(tally, sample == read_back(list->samples[n]), "audio channel %u sample %u: given %d, decoder %d", audio_channel,
                n, list->samples[n], sample);
    }
    require(tally, memcmp(list, &kept, sizeof kept) == 0, "audio channel %u: the list has changed", audio_channel);
}

/* One audio channel after the other in a written frame. */
static void compare_replaced_written(struct trial *trial)
{
    struct tally replaced = tally_of_trial(trial, "audio channels", "replaced in a written frame");
    struct tally read = tally_of_trial(trial, "audio channels", "replaced in a written frame, dv100_read_audio");
    struct tally written = tally_of_trial(trial, "frames", "replaced in a written frame, dv100_write of the changed sound");
    static uint8_t frame[MOST_FRAME];
    random_content(trial);
    write_frame(trial);
    for (unsigned audio_channel = 1; audio_channel <= PAPER_AUDIO_CHANNELS; audio_channel++) {
        struct list list = random_list(trial->count);
        compare_replacing(trial, &replaced, audio_channel, &list);
        compare_audio(trial, &read);
        memcpy(frame, trial->frame, MOST_FRAME);
        memcpy(trial->sound + (audio_channel - 1) * trial->count, list.samples, trial->count * sizeof *list.samples);
        write_frame(trial);
        compare(&written, memcmp(trial->frame, frame, MOST_FRAME) == 0, "audio channel %u", audio_channel);
    }
    print_tally(&replaced);
    print_tally(&read);
    print_tally(&written);
}

/* Noise in all that is not judged: also in the picture, and in every word of sound, those from the count on with them. */
static void scramble_frame(struct trial *trial)
{
    for (unsigned dif_channel = 0; dif_channel < PAPER_DIF_CHANNELS; dif_channel++) {
        scramble_dif_channel(trial, dif_channel);
        for (unsigned dif_sequence = 0; dif_sequence < trial->map->system->dif_sequences; dif_sequence++)
            for (unsigned place = 0; place < PAPER_PLACES; place++) {
                uint8_t *block = trial->frame + paper_place_start(trial->map->system, dif_channel, dif_sequence, place);
                unsigned section = trial->map->figure_3[place].section;
                if (section == PAPER_VIDEO)
                    random_bytes(block + PAPER_PAYLOAD, PAPER_PAYLOAD_BYTES);
                if (section == PAPER_AUDIO)
                    random_bytes(block + PAPER_PAYLOAD + PAPER_PACK_BYTES, PAPER_PAYLOAD_BYTES - PAPER_PACK_BYTES);
            }
    }
}

static void compare_replaced_scrambled(struct trial *trial)
{
    struct tally tally = tally_of_trial(trial, "audio channels", "replaced in a frame with all that is not judged at random");
    random_content(trial);
    write_frame(trial);
    scramble_frame(trial);
    for (unsigned audio_channel = 1; audio_channel <= PAPER_AUDIO_CHANNELS; audio_channel++) {
        struct list list = random_list(trial->count);
        compare_replacing(trial, &tally, audio_channel, &list);
    }
    print_tally(&tally);
}

/* The count that the system has beside the trial's, or at 50 Hz the same. */
static unsigned other_count(const struct trial *trial)
{
    const unsigned *counts = trial->map->system->counts;
    return counts[1] == 0 ? trial->count : counts[0] + counts[1] - trial->count;
}

/* An audio channel of which all AS say the other count is replaced by as many samples. */
static void compare_replaced_recounted(struct trial *trial)
{
    struct tally tally = tally_of_trial(trial, "audio channels", "replaced in a frame that says the other count");
    write_undamaged(trial);
    for (unsigned audio_channel = 1; audio_channel <= PAPER_AUDIO_CHANNELS; audio_channel++) {
        struct list list = random_list(other_count(trial)), old = random_list(trial->count);
        memcpy(trial->frame, undamaged, trial->frame_bytes);
        for (unsigned number = 0; number < half_of(trial); number++)
            flip(as_of_channel(trial, audio_channel, number), 8 + 6);
        compare_replacing(trial, &tally, audio_channel, &old);
        compare_replacing(trial, &tally, audio_channel, &list);
    }
    print_tally(&tally);
}

/* Every audio channel with lists of many lengths, and with numbers that are samples and others at both ends of them. */
static void compare_lists(struct trial *trial, struct tally *tally)
{
    unsigned lengths[] = {0, 1, trial->count - 1, trial->count, trial->count + 1, other_count(trial), trial->map->system->samples};
    static const int32_t numbers[] = {-32768, -32767, 32767, DV100_LOST, -32769, 32769, -65536, 65536, INT32_MIN, INT32_MAX};
    for (unsigned audio_channel = 1; audio_channel <= PAPER_AUDIO_CHANNELS; audio_channel++)
        for (unsigned length = 0; length < sizeof lengths / sizeof lengths[0]; length++)
            for (unsigned number = 0; number < sizeof numbers / sizeof numbers[0]; number++) {
                struct list first = random_list(lengths[length]), last = first;
                first.samples[0] = numbers[number];
                last.samples[last.length > 0 ? last.length - 1 : 0] = numbers[number];
                compare_replacing(trial, tally, audio_channel, &first);
                compare_replacing(trial, tally, audio_channel, &last);
            }
}

static void compare_all_lists(struct trial *trial)
{
    struct tally recorded = tally_of_trial(trial, "lists", "lists of other lengths and numbers, dv100_replace_audio");
    struct tally marked = tally_of_trial(trial, "lists", "marked, lists of other lengths and numbers, dv100_replace_audio");
    random_content(trial);
    write_frame(trial);
    compare_lists(trial, &recorded);
    mark_all(trial);
    compare_lists(trial, &marked);
    print_tally(&recorded);
    print_tally(&marked);
}

/* The audio channel that has its sound in the first sequence with damage; 1 where there is none. */
static unsigned damaged_audio_channel(const struct trial *trial)
{
    unsigned dif_sequences = trial->map->system->dif_sequences, at = 0, end = PAPER_DIF_CHANNELS * dif_sequences;
    while (at < end && memcmp(trial->frame + at * SEQUENCE_BYTES, undamaged + at * SEQUENCE_BYTES, SEQUENCE_BYTES) == 0)
        at++;
    return at < end ? paper_audio_channel(trial->map->system, at / dif_sequences, at % dif_sequences) : 1;
}

static unsigned long replacing_met[LAST_REFUSAL + 1];

/* A damaged frame: samples that are none and one too many, then samples that are right. */
static void replace_in_damaged(struct trial *trial, struct tally *tally)
{
    struct list right = random_list(trial->count), wrong = random_list(trial->count + 1);
    unsigned audio_channel = damaged_audio_channel(trial);
    wrong.samples[below(wrong.length)] = 32769;
    compare_replacing(trial, tally, audio_channel, &wrong);
    compare_replacing(trial, tally, audio_channel, &right);
}

static void finish_damaged(const struct tally *tally)
{
    for (unsigned number = 0; number <= LAST_REFUSAL; number++)
        replacing_met[number] += tally->answered[number];
    print_tally(tally);
}

static struct tally tally_of_damaged(const struct trial *trial, const char *pattern)
{
    return tally_of("lists", "%s, %u samples, %s, dv100_replace_audio", trial->map->system->name, trial->count, pattern);
}

static void replace_in_patterns(struct trial *trial, const struct judged_pattern *patterns, unsigned length)
{
    for (const struct judged_pattern *pattern = patterns; pattern < patterns + length; pattern++) {
        struct tally tally = tally_of_damaged(trial, pattern->name);
        for (unsigned step = 0; step < pattern->steps; step++) {
            memcpy(trial->frame, undamaged, trial->frame_bytes);
            pattern->damage(trial, step);
            replace_in_damaged(trial, &tally);
        }
        finish_damaged(&tally);
    }
}

static void replace_in_all_damaged(struct trial *trial)
{
    write_undamaged(trial);
    for (unsigned at = 0; at < sizeof block_patterns / sizeof block_patterns[0]; at++) {
        struct tally tally = tally_of_damaged(trial, block_patterns[at].name);
        memcpy(trial->frame, undamaged, trial->frame_bytes);
        block_patterns[at].damage(trial);
        replace_in_damaged(trial, &tally);
        finish_damaged(&tally);
    }
    replace_in_patterns(trial, judged_patterns, JUDGED_PATTERNS);
    replace_in_patterns(trial, marked_patterns, MARKED_PATTERNS);
}

static void replace_and_compare(struct trial *trial, unsigned system, unsigned count)
{
    set_up(trial, system, count);
    compare_replaced_written(trial);
    compare_replaced_scrambled(trial);
    if (!trial->map->system->is_50_hz)
        compare_replaced_recounted(trial);
    compare_all_lists(trial);
    replace_in_all_damaged(trial);
}

/* ---- 7. the bits of IDs that name nothing */

/* What a frame is asked that not every frame is asked alike. */
struct questions {
    unsigned macroblocks[SOME_MACROBLOCKS], audio_channel;
    struct list list;
};

static struct questions random_questions(const struct trial *trial)
{
    struct questions questions = {.audio_channel = 1 + below(PAPER_AUDIO_CHANNELS), .list = random_list(trial->count)};
    some_macroblocks(trial, questions.macroblocks);
    return questions;
}

/* What every call gives of a frame; each begins with a number, and what is not given is 0. */
struct all_answers {
    struct answers any_state;
    struct {
        struct dv100_survey said;
        uint32_t list[RECORD * PAPER_PLACES];
    } sequences[PAPER_DIF_CHANNELS][PAPER_MOST_SEQUENCES];
    struct dv100_part views[PAPER_DIF_CHANNELS][PAPER_MOST_SEQUENCES][PAPER_PLACES];
    uint32_t check;
    struct {
        struct dv100_audio said;
        int32_t samples[PAPER_MOST_SAMPLES];
    } audio[PAPER_AUDIO_CHANNELS];
    struct dv100_part macroblocks[SOME_MACROBLOCKS];
    struct dv100_time time;
    struct {
        uint32_t number;
        uint8_t changes[MOST_FRAME]; /* each byte as it was, exclusive or as it is */
    } replacing;
};

static void answer_sequence(const struct trial *trial, struct sequence of, struct all_answers *answers)
{
    unsigned i = of.dif_channel, dseq = of.dif_sequence;
    const uint8_t *bytes = trial->frame + paper_place_start(trial->map->system, i, dseq, 0);
    answers->sequences[i][dseq].said = dv100_survey_sequence(trial->system, i, dseq, bytes, SEQUENCE_BYTES,
                                                             answers->sequences[i][dseq].list, RECORD * PAPER_PLACES);
    for (unsigned place = 0; place < PAPER_PLACES; place++)
        answers->views[i][dseq][place] = dv100_view(trial->system, trial->frame, trial->frame_bytes, i, dseq, place);
}

static void answer_reads(const struct trial *trial, const struct questions *questions, struct all_answers *answers)
{
    answers->check = dv100_check(trial->system, trial->frame, trial->frame_bytes);
    for (unsigned at = 0; at < PAPER_AUDIO_CHANNELS; at++)
        answers->audio[at].said = dv100_read_audio(trial->system, trial->frame, trial->frame_bytes, 1 + at,
                                                   answers->audio[at].samples, trial->map->system->samples);
    for (unsigned at = 0; at < SOME_MACROBLOCKS; at++)
        answers->macroblocks[at] =
            dv100_macroblock(trial->system, trial->frame, trial->frame_bytes, questions->macroblocks[at]);
    answers->time = dv100_read_time(trial->system, trial->frame, trial->frame_bytes);
}

static void answer_replacing(const struct trial *trial, const struct questions *questions, struct all_answers *answers)
{
    uint8_t *changes = answers->replacing.changes;
    memcpy(changes, trial->frame, trial->frame_bytes);
    answers->replacing.number = dv100_replace_audio(trial->system, changes, trial->frame_bytes, questions->audio_channel,
                                                    questions->list.samples, questions->list.length);
    for (size_t byte = 0; byte < trial->frame_bytes; byte++)
        changes[byte] ^= trial->frame[byte];
}

static void answer_all(const struct trial *trial, const struct questions *questions, struct all_answers *answers)
{
    memset(answers, 0, sizeof *answers);
    answer(trial, &answers->any_state);
    for (unsigned dif_channel = 0; dif_channel < PAPER_DIF_CHANNELS; dif_channel++)
        for (unsigned dif_sequence = 0; dif_sequence < trial->map->system->dif_sequences; dif_sequence++)
            answer_sequence(trial, (struct sequence){dif_channel, dif_sequence}, answers);
    answer_reads(trial, questions, answers);
    answer_replacing(trial, questions, answers);
}

#define ANSWER(call, member) {call, offsetof(struct all_answers, member), sizeof((struct all_answers *)0)->member}

/* Of whole frames, as in asked: first the calls that take a frame in any state. */
static const struct {
    const char *call;
    size_t from, size;
} answered[] = {
    ANSWER("dv100_survey", any_state.survey), ANSWER("dv100_survey_sequence", sequences),
    ANSWER("dv100_view", views),              ANSWER("dv100_salvage", any_state.salvage),
    ANSWER("dv100_check", check),             ANSWER("dv100_read_audio", audio),
    ANSWER("dv100_macroblock", macroblocks),  ANSWER("dv100_read_time", time),
    ANSWER("dv100_replace_audio", replacing),
};

enum { ANSWERED = sizeof answered / sizeof answered[0] };

/* How the bits are set, in every block. */
enum spare_bits { ZEROS, ONES, AT_RANDOM, SPARE_BITS };

static struct paper_spare pick_spare(enum spare_bits bits)
{
    switch (bits) {
    case ZEROS:
        return (struct paper_spare){0, 0};
    case ONES:
        return (struct paper_spare){15, 7};
    default:
        return (struct paper_spare){below(16), below(8)};
    }
}

static void set_spare(struct trial *trial, enum spare_bits bits, struct paper_spare set[MOST_BLOCKS])
{
    for (unsigned at = 0; at < blocks_in(trial); at++) {
        uint8_t *block = trial->frame + at * PAPER_BLOCK_BYTES;
        set[at] = pick_spare(bits);
        paper_write_all(paper_read_id(block), set[at], block);
    }
}

/* Tallies of a written frame's answers, and of its IDs. */
struct spare_tallies {
    struct tally calls[ANSWERED], ids;
};

/* Every ID answers the bits as they were set, but one of a reserved section. */
static void compare_spare_ids(const struct trial *trial, struct tally *tally, const struct paper_spare set[MOST_BLOCKS])
{
    for (unsigned at = 0; at < blocks_in(trial); at++) {
        const uint8_t *block = trial->frame + at * PAPER_BLOCK_BYTES;
        struct dv100_id said = dv100_read_id(block, 3);
        struct paper_id named = paper_read_id(block);
        compare(tally,
                named.section < PAPER_RESERVED_FROM ? library_reads(said, named, set[at]) : library_refuses(said, 11),
                "block %u: set %u and %u, library %u and %u", at, set[at].arb, set[at].res, said.arbitrary, said.reserved);
    }
}

/* A frame in any state, then with these bits set otherwise: each call gives the same. The lines tell a call's first number. */
static void compare_spare(struct trial *trial, struct spare_tallies *tallies, const char *pattern)
{
    static struct all_answers before, after;
    static struct paper_spare set[MOST_BLOCKS];
    struct questions questions = random_questions(trial);
    answer_all(trial, &questions, &before);
    for (enum spare_bits bits = ZEROS; bits < SPARE_BITS; bits++) {
        set_spare(trial, bits, set);
        answer_all(trial, &questions, &after);
        for (unsigned at = 0; at < ANSWERED; at++) {
            const char *one = (const char *)&before + answered[at].from, *other = (const char *)&after + answered[at].from;
            if (at >= FIRST_JUDGING)
                tell_answer(&tallies->calls[at], *(const uint32_t *)(const void *)other);
            compare(&tallies->calls[at], memcmp(one, other, answered[at].size) == 0, "%s, bits %u", pattern, bits);
        }
        compare_spare_ids(trial, &tallies->ids, set);
    }
}

/* A written frame, and each damage to it. */
static void spare_and_compare(struct trial *trial, unsigned system, unsigned count)
{
    struct spare_tallies tallies;
    set_up(trial, system, count);
    tallies.ids = tally_of_trial(trial, "IDs", "other spare bits, dv100_read_id");
    for (unsigned at = 0; at < ANSWERED; at++)
        tallies.calls[at] = tally_of("frames", "%s, %u samples, other spare bits, %s", trial->map->system->name, count,
                                     answered[at].call);
    write_undamaged(trial);
    compare_spare(trial, &tallies, "undamaged");
    for (unsigned at = 0; at < sizeof block_patterns / sizeof block_patterns[0]; at++) {
        memcpy(trial->frame, undamaged, trial->frame_bytes);
        block_patterns[at].damage(trial);
        compare_spare(trial, &tallies, block_patterns[at].name);
    }
    for (unsigned at = 0; at < CAUSES; at++) {
        memcpy(trial->frame, undamaged, trial->frame_bytes);
        causes[at].damage(trial, causes[at].step);
        compare_spare(trial, &tallies, "a cause of a refusal");
    }
    print_tally(&tallies.ids);
    for (unsigned at = 0; at < ANSWERED; at++)
        print_tally(&tallies.calls[at]);
}

/* ---- */

static void compare_count(struct trial *trial, unsigned system, unsigned count)
{
    set_up(trial, system, count);
    random_content(trial);
    uint32_t refusal = write_frame(trial);
    if (refusal != 0) {
        lines_that_differ++;
        printf("%s, %u samples, dv100_write: DIFFERS, refusal %u\n", maps[system].system->name, count, refusal);
        return;
    }
    compare_written(trial);
    damage_and_compare(trial);
}

int main(void)
{
    static struct trial trial;
    for (unsigned system = 0; system < PAPER_SYSTEMS; system++)
        paper_build(&maps[system], system);
    for (unsigned system = 0; system < PAPER_SYSTEMS; system++)
        for (unsigned which = 0; which < 2; which++)
            if (maps[system].system->counts[which] > 0)
                compare_count(&trial, system, maps[system].system->counts[which]);
    for (unsigned system = 0; system < PAPER_SYSTEMS; system++) {
        set_up(&trial, system, maps[system].system->counts[0]);
        compare_known(&trial);
    }
    compare_printed(&trial);
    for (unsigned system = 0; system < PAPER_SYSTEMS; system++)
        for (unsigned which = 0; which < 2; which++)
            if (maps[system].system->counts[which] > 0)
                mark_and_compare(&trial, system, maps[system].system->counts[which]);
    for (unsigned system = 0; system < PAPER_SYSTEMS; system++)
        for (unsigned which = 0; which < 2; which++)
            if (maps[system].system->counts[which] > 0)
                replace_and_compare(&trial, system, maps[system].system->counts[which]);
    for (unsigned system = 0; system < PAPER_SYSTEMS; system++)
        for (unsigned which = 0; which < 2; which++)
            if (maps[system].system->counts[which] > 0)
                spare_and_compare(&trial, system, maps[system].system->counts[which]);
    print_numbers_met();
    print_met("dv100_replace_audio", replacing_met);
    return lines_that_differ > 0;
}
