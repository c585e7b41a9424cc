#include "paper.h"

#include <string.h>

/* § 3.2 (DIF sequences), § 3.6.2.1.5 (samples), § 4.1.4 (super blocks), § 4.1.3.1 (macro blocks; at 720 lines 2 700 in each of
 * two video frames), Table 14 (STYPE 1 0 1 0 0 b and 1 1 0 0 0 b). */
static const struct paper_system systems[PAPER_SYSTEMS] = {
    {"1080/60/I", 0, 10, 1620, {1600, 1602}, 10, 5400, 0x14},
    {"1080/50/I", 1, 12, 1944, {1920, 0}, 11, 6075, 0x14},
    {"720/60/P", 0, 10, 1620, {1600, 1602}, 10, 5400, 0x18},
    {"720/50/P", 1, 12, 1944, {1920, 0}, 10, 5400, 0x18},
};

/* ---- blocks and their IDs */

/* Figure 3 by document 01: H0, SC0, SC1, VA0, VA1, VA2, then nine times an audio block and fifteen video blocks. */
static void build_figure_3(struct paper_id figure_3[PAPER_PLACES])
{
    unsigned place = 0;
    figure_3[place++] = (struct paper_id){PAPER_HEADER, 0, 0, 0};
    for (unsigned sc = 0; sc < 2; sc++)
        figure_3[place++] = (struct paper_id){PAPER_SUBCODE, 0, 0, sc};
    for (unsigned va = 0; va < 3; va++)
        figure_3[place++] = (struct paper_id){PAPER_VAUX, 0, 0, va};
    for (unsigned a = 0; a < 9; a++) {
        figure_3[place++] = (struct paper_id){PAPER_AUDIO, 0, 0, a};
        for (unsigned v = 0; v < 15; v++)
            figure_3[place++] = (struct paper_id){PAPER_VIDEO, 0, 0, 15 * a + v};
    }
}

unsigned paper_frame_bytes(const struct paper_system *system)
{
    return PAPER_DIF_CHANNELS * system->dif_sequences * PAPER_PLACES * PAPER_BLOCK_BYTES;
}

/* Figure 2: DIF channels, in each DIF sequences, in each 150 blocks of 80 bytes. */
unsigned paper_place_start(const struct paper_system *system, unsigned dif_channel, unsigned dif_sequence, unsigned place)
{
    return ((system->dif_sequences * dif_channel + dif_sequence) * PAPER_PLACES + place) * PAPER_BLOCK_BYTES;
}

/* The place that has this section and DBN in figure 3; 0 if none has. */
static unsigned place_of(const struct paper_map *map, unsigned section, unsigned dbn)
{
    return dbn < PAPER_VIDEO_BLOCKS ? map->place[section][dbn] : 0;
}

static void build_places(struct paper_map *map)
{
    memset(map->place, 0, sizeof map->place);
    for (unsigned place = 0; place < PAPER_PLACES; place++)
        map->place[map->figure_3[place].section][map->figure_3[place].dbn] = place;
}

unsigned paper_block_start(const struct paper_map *map, struct paper_id id)
{
    return paper_place_start(map->system, id.dif_channel, id.dseq, place_of(map, id.section, id.dbn));
}

/* Table 5: FSC and FSP of DIF channels 0 to 3. The line "FSP bit is reserved" under Table 1 cannot hold beside it. */
static const unsigned table_5[PAPER_DIF_CHANNELS][2] = {{0, 1}, {1, 1}, {0, 0}, {1, 0}};

static unsigned dif_channel_of(unsigned fsc, unsigned fsp)
{
    unsigned dif_channel = 0;
    while (table_5[dif_channel][0] != fsc || table_5[dif_channel][1] != fsp)
        dif_channel++;
    return dif_channel;
}

/* Table 1: ID0 is SCT2-0, Res, Arb x 4; ID1 is Dseq3-0, FSC, FSP, Res x 2; ID2 is DBN7-0. */
struct paper_id paper_read_id(const uint8_t id[3])
{
    return (struct paper_id){id[0] >> 5, dif_channel_of(id[1] >> 3 & 1, id[1] >> 2 & 1), id[1] >> 4, id[2]};
}

/* Table 1: Arb is the low half of ID0; Res is bit 4 of ID0 and bits 1 and 0 of ID1. */
struct paper_spare paper_read_spare(const uint8_t id[3])
{
    return (struct paper_spare){id[0] & 0xf, (id[0] >> 4 & 1) << 2 | (id[1] >> 1 & 1) << 1 | (id[1] & 1)};
}

/* Table 1. */
void paper_write_all(struct paper_id named, struct paper_spare spare, uint8_t id[3])
{
    const unsigned *fsc_fsp = table_5[named.dif_channel];
    id[0] = (uint8_t)(named.section << 5 | (spare.res >> 2) << 4 | spare.arb);
    id[1] = (uint8_t)(named.dseq << 4 | fsc_fsp[0] << 3 | fsc_fsp[1] << 2 | (spare.res & 3));
    id[2] = (uint8_t)named.dbn;
}

/* § 3.3.1: "Default value shall be set to 1". */
void paper_write_id(struct paper_id named, uint8_t id[3])
{
    paper_write_all(named, (struct paper_spare){0xf, 7}, id);
}

struct paper_id paper_id_of_place(const struct paper_map *map, unsigned dif_channel, unsigned dif_sequence, unsigned place)
{
    struct paper_id id = map->figure_3[place];
    id.dif_channel = dif_channel;
    id.dseq = dif_sequence;
    return id;
}

static unsigned id_fault(struct paper_id read, struct paper_id due)
{
    if (read.section >= PAPER_RESERVED_FROM)
        return 11;
    if (read.section != due.section)
        return 12;
    if (read.dif_channel != due.dif_channel)
        return 13;
    if (read.dseq != due.dseq)
        return 14;
    return read.dbn != due.dbn ? 15 : 0;
}

unsigned paper_fault(const struct paper_map *map, const uint8_t *frame, unsigned dif_channel, unsigned dif_sequence,
                     unsigned place)
{
    const uint8_t *block = frame + paper_place_start(map->system, dif_channel, dif_sequence, place);
    return id_fault(paper_read_id(block), paper_id_of_place(map, dif_channel, dif_sequence, place));
}

/* Table 7: byte 3 is DSF, 0, Res; bytes 5 to 7 have TF1 to TF3 as MSB, 0 for valid data; all else is 1. */
void paper_header(const struct paper_system *system, uint8_t payload[PAPER_PAYLOAD_BYTES])
{
    memset(payload, 0xff, PAPER_PAYLOAD_BYTES);
    payload[3 - PAPER_PAYLOAD] = (uint8_t)(system->is_50_hz << 7 | 0x3f);
    for (unsigned byte = 5; byte <= 7; byte++)
        payload[byte - PAPER_PAYLOAD] = 0x7f;
}

/* ---- sound */

/* § 3.6.2.2: i = 0: Audio CH1,CH2; i = 1: CH3,CH4; i = 2: CH5,CH6; i = 3: CH7,CH8. */
static const unsigned audio_ch[PAPER_DIF_CHANNELS][2] = {{1, 2}, {3, 4}, {5, 6}, {7, 8}};

/* § 3.6.2.2, 60-Hz system. second is 0 for Audio CH1,CH3,CH5,CH7, 1 for Audio CH2,CH4,CH6,CH8. */
static struct paper_sample_place shuffle_60(unsigned i, unsigned second, unsigned n)
{
    struct paper_sample_place place;
    place.dif_channel = i;
    place.dif_sequence = (n / 3 + 2 * (n % 3)) % 5;
    if (second)
        place.dif_sequence = (n / 3 + 2 * (n % 3)) % 5 + 5;
    place.audio_dif_block = 3 * (n % 3) + (n % 45) / 15;
    place.byte = 8 + 2 * (n / 45);
    return place;
}

/* § 3.6.2.2, 50-Hz system. */
static struct paper_sample_place shuffle_50(unsigned i, unsigned second, unsigned n)
{
    struct paper_sample_place place;
    place.dif_channel = i;
    place.dif_sequence = (n / 3 + 2 * (n % 3)) % 6;
    if (second)
        place.dif_sequence = (n / 3 + 2 * (n % 3)) % 6 + 6;
    place.audio_dif_block = 3 * (n % 3) + (n % 54) / 18;
    place.byte = 8 + 2 * (n / 54);
    return place;
}

/* § 3.6.2.2: where n = 0 to 1 619, where n = 0 to 1 943. */
static void build_samples(struct paper_map *map)
{
    for (unsigned i = 0; i < PAPER_DIF_CHANNELS; i++)
        for (unsigned second = 0; second < 2; second++)
            for (unsigned n = 0; n < map->system->samples; n++)
                map->sample[audio_ch[i][second]][n] =
                    map->system->is_50_hz ? shuffle_50(i, second, n) : shuffle_60(i, second, n);
}

unsigned paper_sample_start(const struct paper_map *map, unsigned audio_channel, unsigned n)
{
    struct paper_sample_place at = map->sample[audio_channel][n];
    struct paper_id block = {PAPER_AUDIO, at.dif_channel, at.dif_sequence, at.audio_dif_block};
    return paper_block_start(map, block) + at.byte;
}

/* § 3.6.2.2: the upper byte contains the MSB. § 3.6.2.1.3: 8000h is the audio error code. */
static int32_t level(const uint8_t bytes[2])
{
    int32_t word = bytes[0] << 8 | bytes[1];
    if (word == 0x8000)
        return PAPER_LOST;
    return word < 0x8000 ? word : word - 0x10000;
}

int32_t paper_sample(const struct paper_map *map, const uint8_t *frame, unsigned audio_channel, unsigned n)
{
    return level(frame + paper_sample_start(map, audio_channel, n));
}

int32_t paper_salvaged_sample(const struct paper_map *map, const uint8_t *frame, unsigned audio_channel, unsigned n)
{
    struct paper_sample_place at = map->sample[audio_channel][n];
    unsigned place = place_of(map, PAPER_AUDIO, at.audio_dif_block);
    if (paper_fault(map, frame, at.dif_channel, at.dif_sequence, place))
        return PAPER_LOST;
    return paper_sample(map, frame, audio_channel, n);
}

/* § 3.6.2.3.1: an audio block is the 9 DIF blocks of 5 or 6 DIF sequences; the second of a DIF channel begins at 5 or 6. */
unsigned paper_audio_channel(const struct paper_system *system, unsigned dif_channel, unsigned dif_sequence)
{
    return audio_ch[dif_channel][dif_sequence >= (system->is_50_hz ? 6 : 5)];
}

/* Figure 9: the AAUX pack of a number is bytes 3 to 7 of the audio block of that number. */
const uint8_t *paper_aaux_pack(const struct paper_map *map, const uint8_t *frame, unsigned dif_channel,
                               unsigned dif_sequence, unsigned pack)
{
    return frame + paper_block_start(map, (struct paper_id){PAPER_AUDIO, dif_channel, dif_sequence, pack}) + PAPER_PAYLOAD;
}

/* Table 18: AS is pack 3 of an even DIF sequence, pack 0 of an odd one. */
unsigned paper_as_number(unsigned dif_sequence)
{
    return dif_sequence % 2 == 0 ? 3 : 0;
}

/* Table 19, AF SIZE: 0 1 0 1 0 0 b = 1 600, 0 1 0 1 1 0 b = 1 602, 0 1 1 0 0 0 b = 1 920 samples / frame. */
static const unsigned af_size[3][2] = {{0x14, 1600}, {0x16, 1602}, {0x18, 1920}};

static unsigned count_of_af_size(unsigned code)
{
    for (unsigned row = 0; row < 3; row++)
        if (af_size[row][0] == code)
            return af_size[row][1];
    return 0;
}

static unsigned af_size_of_count(unsigned count)
{
    for (unsigned row = 0; row < 3; row++)
        if (af_size[row][1] == count)
            return af_size[row][0];
    return 0;
}

/* Table 19: PC0 50h; PC1 LF, Res, AF SIZE; PC2 0, CHN, Res, AUDIO MODE; PC3 Res, Res, 50/60, STYPE 0 0 0 1 1 b; PC4 Res, Res,
 * SMP, QU. */
void paper_as(const struct paper_system *system, unsigned audio_channel, unsigned count, uint8_t pack[PAPER_PACK_BYTES])
{
    unsigned audio_mode = audio_channel % 2 == 1 ? 0 : 1;
    pack[0] = 0x50;
    pack[1] = (uint8_t)(0x40 | af_size_of_count(count));
    pack[2] = (uint8_t)(0x10 | audio_mode);
    pack[3] = (uint8_t)(0xc0 | system->is_50_hz << 5 | 0x03);
    pack[4] = 0xc0;
}

unsigned paper_count(const struct paper_map *map, const uint8_t *frame, unsigned audio_channel)
{
    unsigned count = 0, packs = 0;
    for (unsigned i = 0; i < PAPER_DIF_CHANNELS; i++)
        for (unsigned dseq = 0; dseq < map->system->dif_sequences; dseq++) {
            if (paper_audio_channel(map->system, i, dseq) != audio_channel)
                continue;
            unsigned read = count_of_af_size(paper_aaux_pack(map, frame, i, dseq, paper_as_number(dseq))[1] & 0x3f);
            if (packs++ > 0 && read != count)
                return 0;
            count = read;
        }
    return count;
}

/* Table 19, AUDIO MODE: 0 0 0 0 b = Audio CH1, CH3, CH5, CH7; 0 0 0 1 b = Audio CH2, CH4, CH6, CH8; 1 1 1 1 b = Invalid audio
 * data; Other = Reserved. */
static enum paper_audio_mode mode_of_code(unsigned code)
{
    switch (code) {
    case 0x0:
        return PAPER_CH1357;
    case 0x1:
        return PAPER_CH2468;
    case 0xf:
        return PAPER_INVALID_AUDIO;
    default:
        return PAPER_RESERVED_MODE;
    }
}

enum paper_audio_mode paper_mode(const struct paper_map *map, const uint8_t *frame, unsigned audio_channel)
{
    unsigned packs[PAPER_MIXED_MODES] = {0}, all = 0;
    for (unsigned i = 0; i < PAPER_DIF_CHANNELS; i++)
        for (unsigned dseq = 0; dseq < map->system->dif_sequences; dseq++)
            if (paper_audio_channel(map->system, i, dseq) == audio_channel) {
                packs[mode_of_code(paper_aaux_pack(map, frame, i, dseq, paper_as_number(dseq))[2] & 0xf)]++;
                all++;
            }
    for (unsigned mode = 0; mode < PAPER_MIXED_MODES; mode++)
        if (packs[mode] == all)
            return (enum paper_audio_mode)mode;
    return PAPER_MIXED_MODES;
}

unsigned paper_read_audio(const struct paper_map *map, const uint8_t *frame, unsigned audio_channel,
                          int32_t samples[PAPER_MOST_SAMPLES])
{
    unsigned count = paper_count(map, frame, audio_channel);
    int invalid = paper_mode(map, frame, audio_channel) == PAPER_INVALID_AUDIO;
    for (unsigned n = 0; n < count; n++)
        samples[n] = invalid ? PAPER_LOST : paper_sample(map, frame, audio_channel, n);
    return count;
}

/* ---- picture */

/* Document 01: ((R h + row) 5 + column) 27 + k with R rows; 5,940 + 27 column + k in the edge unit, row 11. */
unsigned paper_macroblock_number(const struct paper_system *system, struct paper_cm cm)
{
    if (cm.i == 11)
        return 5940 + 27 * cm.j + cm.k;
    return ((system->super_block_rows * cm.h + cm.i) * 5 + cm.j) * 27 + cm.k;
}

/* Whether block and macroblock are the system's, and neither is taken. */
static int is_free(const struct paper_map *map, struct paper_video_place at, unsigned number)
{
    return at.dsn < map->system->dif_sequences && at.dbn < PAPER_VIDEO_BLOCKS && number < map->system->macroblocks &&
           map->macroblock_of[at.h][at.dsn][at.dbn] == PAPER_NO_MACROBLOCK &&
           map->video_place[number].dbn == PAPER_VIDEO_BLOCKS;
}

/* V dbn, h of dsn = CM h,i,j,k. */
static void lay(struct paper_map *map, unsigned dbn, unsigned h, unsigned dsn, struct paper_cm cm)
{
    unsigned number = paper_macroblock_number(map->system, cm);
    struct paper_video_place at = {h, dsn, dbn};
    if (!is_free(map, at, number)) {
        map->misplaced++;
        return;
    }
    map->macroblock_of[h][dsn][dbn] = (int)number;
    map->video_place[number] = at;
}

/* § 3.7.2.1, 60-Hz and 1 280 x 720/50/P systems. */
static void build_ten_rows(struct paper_map *map)
{
    for (unsigned h = 0; h < 4; h++)
        for (unsigned s = 0; s < 2; s++)
            for (unsigned k = 0; k < 27; k++)
                for (unsigned t = 0; t < 5; t++) {
                    unsigned a = (4 * h + s + 2 * t + 2) % 10;
                    unsigned b = (4 * h + s + 2 * t + 6) % 10;
                    unsigned c = (4 * h + s + 2 * t + 8) % 10;
                    unsigned d = (4 * h + s + 2 * t + 0) % 10;
                    unsigned e = (4 * h + s + 2 * t + 4) % 10;
                    unsigned dbn_q = (5 * t + 25 * k) % 135;
                    unsigned dsn_p = (5 * t + 25 * k + 675 * s) / 135;
                    lay(map, dbn_q, h, dsn_p, (struct paper_cm){h, a, 2, k});
                    lay(map, dbn_q + 1, h, dsn_p, (struct paper_cm){h, b, 1, k});
                    lay(map, dbn_q + 2, h, dsn_p, (struct paper_cm){h, c, 3, k});
                    lay(map, dbn_q + 3, h, dsn_p, (struct paper_cm){h, d, 0, k});
                    lay(map, dbn_q + 4, h, dsn_p, (struct paper_cm){h, e, 4, k});
                }
}

/* § 3.7.2.1, 1 920 x 1 080/50/I system, the first loop. */
static void build_eleven_rows(struct paper_map *map)
{
    for (unsigned h = 0; h < 4; h++)
        for (unsigned k = 0; k < 27; k++)
            for (unsigned i = 0; i < 11; i++) {
                unsigned a = (4 * h + i + 2) % 11;
                unsigned b = (4 * h + i + 6) % 11;
                unsigned c = (4 * h + i + 8) % 11;
                unsigned d = (4 * h + i + 0) % 11;
                unsigned e = (4 * h + i + 4) % 11;
                unsigned dbn_q = (5 * i + 55 * k) % 135;
                unsigned dsn_p = (5 * i + 55 * k) / 135;
                lay(map, dbn_q, h, dsn_p, (struct paper_cm){h, a, 2, k});
                lay(map, dbn_q + 1, h, dsn_p, (struct paper_cm){h, b, 1, k});
                lay(map, dbn_q + 2, h, dsn_p, (struct paper_cm){h, c, 3, k});
                lay(map, dbn_q + 3, h, dsn_p, (struct paper_cm){h, d, 0, k});
                lay(map, dbn_q + 4, h, dsn_p, (struct paper_cm){h, e, 4, k});
            }
}

/* § 3.7.2.1, 1 920 x 1 080/50/I system, the second loop. Its text breaks off after CM 0,11,2,k; § 4.1.6 (edge unit: r = 2,
 * s = 3, t = 4) and Table 23 (V 134,0 = CM 0,11,4,26) give the last two lines. */
static void build_edge_unit(struct paper_map *map)
{
    for (unsigned k = 0; k < 27; k++) {
        unsigned dbn_q = 5 * k;
        unsigned dsn_p = 11;
        lay(map, dbn_q, 0, dsn_p, (struct paper_cm){0, 11, 0, k});
        lay(map, dbn_q + 1, 0, dsn_p, (struct paper_cm){0, 11, 1, k});
        lay(map, dbn_q + 2, 0, dsn_p, (struct paper_cm){0, 11, 2, k});
        lay(map, dbn_q + 3, 0, dsn_p, (struct paper_cm){0, 11, 3, k});
        lay(map, dbn_q + 4, 0, dsn_p, (struct paper_cm){0, 11, 4, k});
    }
}

/* No video DIF block has a macroblock, no macroblock a place. */
static void clear_picture(struct paper_map *map)
{
    for (unsigned h = 0; h < PAPER_DIF_CHANNELS; h++)
        for (unsigned dsn = 0; dsn < PAPER_MOST_SEQUENCES; dsn++)
            for (unsigned dbn = 0; dbn < PAPER_VIDEO_BLOCKS; dbn++)
                map->macroblock_of[h][dsn][dbn] = PAPER_NO_MACROBLOCK;
    for (unsigned number = 0; number < PAPER_MOST_MACROBLOCKS; number++)
        map->video_place[number].dbn = PAPER_VIDEO_BLOCKS;
    map->misplaced = 0;
}

static void build_picture(struct paper_map *map)
{
    clear_picture(map);
    if (map->system->super_block_rows == 11) {
        build_eleven_rows(map);
        build_edge_unit(map);
    } else {
        build_ten_rows(map);
    }
}

/* § 3.7.2: the payload is the compressed macro block. */
const uint8_t *paper_macroblock(const struct paper_map *map, const uint8_t *frame, unsigned number)
{
    struct paper_video_place at = map->video_place[number];
    return frame + paper_block_start(map, (struct paper_id){PAPER_VIDEO, at.h, at.dsn, at.dbn}) + PAPER_PAYLOAD;
}

/* § 4.1.6: rows (i + 2), (i + 6), (i + 8), (i + 0), (i + 4), columns 2, 1, 3, 0, 4; in the edge unit row 11, columns 0 to 4.
 * The modulus 11 printed for the 50-Hz system is that of its eleven rows; 1 280 x 720/50/P has ten, by § 4.1.4 and § 3.7.2.1. */
struct paper_cm paper_segment(const struct paper_system *system, unsigned h, unsigned i, unsigned k, unsigned m)
{
    static const unsigned row[5] = {2, 6, 8, 0, 4};
    static const unsigned column[5] = {2, 1, 3, 0, 4};
    if (i == 11)
        return (struct paper_cm){0, 11, m, k};
    return (struct paper_cm){h, (i + row[m]) % system->super_block_rows, column[m], k};
}

/* ---- subcode and VAUX */

/* Figure 4 by document 01: SSYBs 0 to 5 in SC0, 6 to 11 in SC1. § 3.4.2 has "6 SSYBs, each 48 bytes long": the six are 48
 * bytes, each is 8 (ID 2, FFh, pack 5), for with 29 reserved they fill 77. */
const uint8_t *paper_ssyb(const struct paper_map *map, const uint8_t *frame, unsigned dif_channel, unsigned dif_sequence,
                          unsigned ssyb)
{
    struct paper_id sc = {PAPER_SUBCODE, dif_channel, dif_sequence, ssyb / 6};
    return frame + paper_block_start(map, sc) + PAPER_PAYLOAD + 8 * (ssyb % 6);
}

/* Table 8: FR is 1 in the first half of each DIF channel, sequences 0 to 4 or 0 to 5. */
unsigned paper_fr(const struct paper_system *system, unsigned dif_sequence)
{
    return dif_sequence <= (system->is_50_hz ? 5 : 4);
}

/* Table 10: the first half, the second half of each DIF channel. */
static const enum paper_ssyb_pack table_10[PAPER_SSYBS][2] = {
    {PAPER_RESERVED, PAPER_RESERVED}, /* 0 */
    {PAPER_RESERVED, PAPER_RESERVED}, /* 1 */
    {PAPER_RESERVED, PAPER_RESERVED}, /* 2 */
    {PAPER_TC, PAPER_TC},             /* 3 */
    {PAPER_BG, PAPER_RESERVED},       /* 4 */
    {PAPER_TC, PAPER_RESERVED},       /* 5 */
    {PAPER_RESERVED, PAPER_RESERVED}, /* 6 */
    {PAPER_RESERVED, PAPER_RESERVED}, /* 7 */
    {PAPER_RESERVED, PAPER_RESERVED}, /* 8 */
    {PAPER_TC, PAPER_TC},             /* 9 */
    {PAPER_BG, PAPER_RESERVED},       /* 10 */
    {PAPER_TC, PAPER_RESERVED},       /* 11 */
};

enum paper_ssyb_pack paper_table_10(const struct paper_system *system, unsigned dif_sequence, unsigned ssyb)
{
    return table_10[ssyb][paper_fr(system, dif_sequence) ? 0 : 1];
}

/* Tables 11 and 12: PC0 is 13h for the time code, 14h for the binary group. */
static unsigned time_header(enum paper_ssyb_pack kind)
{
    return kind == PAPER_TC ? 0x13 : 0x14;
}

/* Table 11: in the 50-Hz system bit 6 of PC1 is arbitrary. */
static unsigned arbitrary_bits(const struct paper_system *system, enum paper_ssyb_pack kind)
{
    return kind == PAPER_TC && system->is_50_hz ? 0x40 : 0;
}

unsigned paper_read_time(const struct paper_map *map, const uint8_t *frame, enum paper_ssyb_pack kind, uint8_t pc[4])
{
    unsigned packs = 0, arbitrary = arbitrary_bits(map->system, kind);
    for (unsigned i = 0; i < PAPER_DIF_CHANNELS; i++)
        for (unsigned dseq = 0; dseq < map->system->dif_sequences; dseq++)
            for (unsigned ssyb = 0; ssyb < PAPER_SSYBS; ssyb++) {
                if (paper_table_10(map->system, dseq, ssyb) != kind)
                    continue;
                const uint8_t *pack = paper_ssyb(map, frame, i, dseq, ssyb) + 3;
                if (packs++ == 0) {
                    memcpy(pc, pack + 1, 4);
                    pc[0] |= (uint8_t)arbitrary;
                }
                if (pack[0] != time_header(kind) || (pack[1] | arbitrary) != pc[0] || memcmp(pc + 1, pack + 2, 3) != 0)
                    return 0;
            }
    return packs;
}

/* Figure 6 and § 3.5.2: 15 packs of 5 bytes in each VAUX block, numbered 0 to 44. */
const uint8_t *paper_vaux_pack(const struct paper_map *map, const uint8_t *frame, unsigned dif_channel,
                               unsigned dif_sequence, unsigned pack)
{
    struct paper_id va = {PAPER_VAUX, dif_channel, dif_sequence, pack / 15};
    return frame + paper_block_start(map, va) + PAPER_PAYLOAD + PAPER_PACK_BYTES * (pack % 15);
}

/* Table 13: VS is pack 39 of an even DIF sequence, pack 0 of an odd one. */
unsigned paper_vs_number(unsigned dif_sequence)
{
    return dif_sequence % 2 == 0 ? 39 : 0;
}

/* Table 14: PC3 is Res, Res, 50/60, STYPE. It has 0 in the MSB of PC4; document 01, which decides, has FFh. */
void paper_vs(const struct paper_system *system, uint8_t pack[PAPER_PACK_BYTES])
{
    memset(pack, 0xff, PAPER_PACK_BYTES);
    pack[0] = 0x60;
    pack[3] = (uint8_t)(0xc0 | system->is_50_hz << 5 | system->stype);
}

/* ---- judgements, by document 01's table of refusals */

/* Table 7: the MSB of a header's byte; DSF in byte 3, TF1 to TF3 in bytes 5 to 7. */
static unsigned header_msb(const struct paper_map *map, const uint8_t *frame, unsigned dif_channel, unsigned dif_sequence,
                           unsigned byte)
{
    return frame[paper_block_start(map, (struct paper_id){PAPER_HEADER, dif_channel, dif_sequence, 0}) + byte] >> 7;
}

static int some_header_has(const struct paper_map *map, const uint8_t *frame, unsigned byte, unsigned msb)
{
    for (unsigned i = 0; i < PAPER_DIF_CHANNELS; i++)
        for (unsigned dseq = 0; dseq < map->system->dif_sequences; dseq++)
            if (header_msb(map, frame, i, dseq, byte) == msb)
                return 1;
    return 0;
}

/* The number of the first block in stream order that does not name its place. */
static unsigned first_fault(const struct paper_map *map, const uint8_t *frame)
{
    for (unsigned i = 0; i < PAPER_DIF_CHANNELS; i++)
        for (unsigned dseq = 0; dseq < map->system->dif_sequences; dseq++)
            for (unsigned place = 0; place < PAPER_PLACES; place++) {
                unsigned fault = paper_fault(map, frame, i, dseq, place);
                if (fault)
                    return fault;
            }
    return 0;
}

/* Table 14: 60h, 50/60 and STYPE. */
static int vs_agrees(const struct paper_system *system, const uint8_t vs[PAPER_PACK_BYTES])
{
    return vs[0] == 0x60 && (vs[3] >> 5 & 1) == system->is_50_hz && (vs[3] & 0x1f) == system->stype;
}

/* Whether some VS disagrees in a DIF sequence whose own header has TF2 0. */
static int some_vs_disagrees(const struct paper_map *map, const uint8_t *frame)
{
    for (unsigned i = 0; i < PAPER_DIF_CHANNELS; i++)
        for (unsigned dseq = 0; dseq < map->system->dif_sequences; dseq++)
            if (header_msb(map, frame, i, dseq, 6) == 0 &&
                !vs_agrees(map->system, paper_vaux_pack(map, frame, i, dseq, paper_vs_number(dseq))))
                return 1;
    return 0;
}

unsigned paper_judge_frame(const struct paper_map *map, const uint8_t *frame)
{
    unsigned fault = first_fault(map, frame);
    if (fault)
        return fault;
    if (some_header_has(map, frame, 3, !map->system->is_50_hz))
        return 21;
    return some_vs_disagrees(map, frame) ? 22 : 0;
}

static int is_count_of(const struct paper_system *system, unsigned count)
{
    return count != 0 && (count == system->counts[0] || count == system->counts[1]);
}

/* Table 19: the AUDIO MODE that has the audio channel, or the one of invalid audio data. */
static int is_mode_of(unsigned audio_channel, enum paper_audio_mode mode)
{
    return mode == PAPER_INVALID_AUDIO || mode == (audio_channel % 2 == 1 ? PAPER_CH1357 : PAPER_CH2468);
}

/* Table 19: LF, AF SIZE; the zero above CHN, CHN, AUDIO MODE; 50/60, STYPE; SMP, QU. */
static int as_agrees(const struct paper_system *system, unsigned audio_channel, const uint8_t as[PAPER_PACK_BYTES])
{
    return as[0] == 0x50 && as[1] >> 7 == 0 && is_count_of(system, count_of_af_size(as[1] & 0x3f)) && as[2] >> 5 == 0 &&
           is_mode_of(audio_channel, mode_of_code(as[2] & 0xf)) && (as[3] >> 5 & 1) == system->is_50_hz &&
           (as[3] & 0x1f) == 0x03 && (as[4] & 0x3f) == 0;
}

static int some_as_disagrees(const struct paper_map *map, const uint8_t *frame, unsigned audio_channel)
{
    for (unsigned i = 0; i < PAPER_DIF_CHANNELS; i++)
        for (unsigned dseq = 0; dseq < map->system->dif_sequences; dseq++)
            if (paper_audio_channel(map->system, i, dseq) == audio_channel &&
                !as_agrees(map->system, audio_channel, paper_aaux_pack(map, frame, i, dseq, paper_as_number(dseq))))
                return 1;
    return 0;
}

unsigned paper_judge_audio(const struct paper_map *map, const uint8_t *frame, unsigned audio_channel)
{
    unsigned refusal = paper_judge_frame(map, frame);
    if (refusal)
        return refusal;
    if (some_header_has(map, frame, 5, 1))
        return 23;
    if (some_as_disagrees(map, frame, audio_channel))
        return 24;
    int differ = paper_count(map, frame, audio_channel) == 0 || paper_mode(map, frame, audio_channel) == PAPER_MIXED_MODES;
    return differ ? 25 : 0;
}

unsigned paper_judge_picture(const struct paper_map *map, const uint8_t *frame)
{
    unsigned refusal = paper_judge_frame(map, frame);
    if (refusal)
        return refusal;
    return some_header_has(map, frame, 6, 1) ? 23 : 0;
}

/* Units in bits 3-0, above them as many bits of tens as the mask has. */
static int is_number_to(unsigned most, unsigned pc, unsigned tens_mask)
{
    unsigned units = pc & 0xf, tens = pc >> 4 & tens_mask;
    return units <= 9 && 10 * tens + units <= most;
}

/* Table 11: frames, seconds, minutes, hours. */
static int are_digits(const struct paper_system *system, const uint8_t pc[4])
{
    return is_number_to(system->is_50_hz ? 24 : 29, pc[0], 3) && is_number_to(59, pc[1], 7) && is_number_to(59, pc[2], 7) &&
           is_number_to(23, pc[3], 3);
}

unsigned paper_judge_time(const struct paper_map *map, const uint8_t *frame)
{
    const uint8_t *tc = paper_ssyb(map, frame, 0, 0, 3) + 3, *bg = paper_ssyb(map, frame, 0, 0, 4) + 3;
    uint8_t pc[4];
    unsigned refusal = paper_judge_frame(map, frame);
    if (refusal)
        return refusal;
    if (some_header_has(map, frame, 7, 1))
        return 23;
    if (tc[0] != time_header(PAPER_TC) || bg[0] != time_header(PAPER_BG) || !are_digits(map->system, tc + 1))
        return 26;
    return paper_read_time(map, frame, PAPER_TC, pc) == 0 || paper_read_time(map, frame, PAPER_BG, pc) == 0 ? 27 : 0;
}

unsigned paper_judge_replacing(const struct paper_map *map, const uint8_t *frame, unsigned audio_channel, const int32_t *samples,
                               unsigned length)
{
    unsigned refusal = paper_judge_audio(map, frame, audio_channel);
    if (refusal)
        return refusal;
    if (length != paper_count(map, frame, audio_channel))
        return 29;
    for (unsigned n = 0; n < length; n++)
        if (samples[n] < -32768 || samples[n] > PAPER_LOST)
            return 31;
    return paper_mode(map, frame, audio_channel) == PAPER_INVALID_AUDIO ? 33 : 0;
}

/* ---- */

void paper_build(struct paper_map *map, unsigned system)
{
    map->system = &systems[system];
    build_figure_3(map->figure_3);
    build_places(map);
    build_samples(map);
    build_picture(map);
}
