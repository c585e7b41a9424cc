/* A decoder of DIF frames of the 100 Mbit/s DV family, written from Recommendation ITU-R BT.1620-1 and from nothing of the
 * library. The Recommendation's rules are run once, forward, and the places they name are kept in maps.
 *
 * § and Table numbers and the letters h, i, j, k, n, s, t are the Recommendation's. DIF channels are 0 to 3, audio channels 1
 * to 8. Taken from the scope paper, document 01, and not from the Recommendation:
 * - what the lost drawings show: figures 2 and 3 (the places of blocks), 4 (of SSYBs), 6 (of VAUX packs), 9 (of AAUX packs);
 * - the numbers of macroblocks;
 * - 32,768 for a lost sample, also for each sample of an audio channel whose AS packs all say invalid audio data, and the
 *   zeros that are written from the count on;
 * - fault and refusal numbers, what each is given for, their order, and which bits are judged;
 * - that an ID's bits which name nothing are answered, and as which two numbers;
 * - bit 6 of the time code's PC1 at 50 Hz, which is not compared and is answered as 1;
 * - FFh as PC4 of VS; VSC and ASC as a header and four FFh. */
#ifndef PAPER_H
#define PAPER_H

#include <stdint.h>

enum {
    PAPER_SYSTEMS = 4,
    PAPER_DIF_CHANNELS = 4,
    PAPER_MOST_SEQUENCES = 12,
    PAPER_PLACES = 150,
    PAPER_BLOCK_BYTES = 80,
    PAPER_PAYLOAD = 3,
    PAPER_PAYLOAD_BYTES = 77,
    PAPER_AUDIO_CHANNELS = 8,
    PAPER_MOST_SAMPLES = 1944,
    PAPER_VIDEO_BLOCKS = 135,
    PAPER_MOST_MACROBLOCKS = 6075,
    PAPER_SSYBS = 12,
    PAPER_PACK_BYTES = 5,
    PAPER_LOST = 32768,
    PAPER_NO_MACROBLOCK = -1
};

/* Table 2. */
enum paper_section { PAPER_HEADER, PAPER_SUBCODE, PAPER_VAUX, PAPER_AUDIO, PAPER_VIDEO, PAPER_RESERVED_FROM };

/* Table 10. */
enum paper_ssyb_pack { PAPER_RESERVED, PAPER_TC, PAPER_BG };

/* Table 19, AUDIO MODE: what a code says of the audio channel; MIXED is no code's, but of packs that do not say the same. */
enum paper_audio_mode { PAPER_CH1357, PAPER_CH2468, PAPER_INVALID_AUDIO, PAPER_RESERVED_MODE, PAPER_MIXED_MODES };

struct paper_system {
    const char *name;
    unsigned is_50_hz;         /* the value of DSF and of 50/60 */
    unsigned dif_sequences;    /* § 3.2 */
    unsigned samples;          /* § 3.6.2.1.5: what an audio frame is capable of */
    unsigned counts[2];        /* § 3.6.2.1.5: samples of an audio frame; 0 is none */
    unsigned super_block_rows; /* § 4.1.4: vertical super blocks of a divided block */
    unsigned macroblocks;      /* § 4.1.3.1 */
    unsigned stype;            /* Table 14 */
};

/* What an ID names: § 3.3.1. */
struct paper_id {
    unsigned section, dif_channel, dseq, dbn;
};

/* The bits of an ID that name nothing: Table 1's Arb, and its Res, that of ID0 above those of ID1. */
struct paper_spare {
    unsigned arb, res;
};

/* Where the two bytes of a sample lie: § 3.6.2.2. The least significant byte follows the most significant. */
struct paper_sample_place {
    unsigned dif_channel, dif_sequence, audio_dif_block, byte;
};

/* Compressed macro block CM h,i,j,k. */
struct paper_cm {
    unsigned h, i, j, k;
};

/* Video DIF block V DBN, h of a DIF sequence. */
struct paper_video_place {
    unsigned h, dsn, dbn;
};

struct paper_map {
    const struct paper_system *system;
    struct paper_id figure_3[PAPER_PLACES]; /* section and DBN of each place; the other two are 0 */
    unsigned place[PAPER_RESERVED_FROM][PAPER_VIDEO_BLOCKS]; /* by section and DBN; 0 where figure 3 has none */
    struct paper_sample_place sample[PAPER_AUDIO_CHANNELS + 1][PAPER_MOST_SAMPLES]; /* by audio channel; row 0 is unused */
    int macroblock_of[PAPER_DIF_CHANNELS][PAPER_MOST_SEQUENCES][PAPER_VIDEO_BLOCKS];
    struct paper_video_place video_place[PAPER_MOST_MACROBLOCKS];
    unsigned misplaced; /* how often a rule names a block or macroblock that is not the system's, or names it again */
};

/* Runs the rules of a system, 0 to 3. */
void paper_build(struct paper_map *map, unsigned system);

/* Bytes of a frame. */
unsigned paper_frame_bytes(const struct paper_system *system);

/* The first byte of the block at a place, and of the block that an ID names. */
unsigned paper_place_start(const struct paper_system *system, unsigned dif_channel, unsigned dif_sequence, unsigned place);
unsigned paper_block_start(const struct paper_map *map, struct paper_id id);

/* All bits of an ID read, and written; and written with every bit 1 that names nothing, the default. */
struct paper_id paper_read_id(const uint8_t id[3]);
struct paper_spare paper_read_spare(const uint8_t id[3]);
void paper_write_all(struct paper_id named, struct paper_spare spare, uint8_t id[3]);
void paper_write_id(struct paper_id named, uint8_t id[3]);

/* The ID that belongs to a place. */
struct paper_id paper_id_of_place(const struct paper_map *map, unsigned dif_channel, unsigned dif_sequence, unsigned place);

/* 0 where the block names its place; 11 for a reserved section; else the first that differs: 12 section, 13 DIF channel,
 * 14 Dseq, 15 DBN. */
unsigned paper_fault(const struct paper_map *map, const uint8_t *frame, unsigned dif_channel, unsigned dif_sequence,
                     unsigned place);

/* Sample n of an audio channel as it is stored, PAPER_LOST for the audio error code; and PAPER_LOST too where its block does
 * not name its place. */
int32_t paper_sample(const struct paper_map *map, const uint8_t *frame, unsigned audio_channel, unsigned n);
int32_t paper_salvaged_sample(const struct paper_map *map, const uint8_t *frame, unsigned audio_channel, unsigned n);

/* The first of the two bytes of sample n of an audio channel. */
unsigned paper_sample_start(const struct paper_map *map, unsigned audio_channel, unsigned n);

/* The samples per frame that all AS packs of an audio channel agree on, or 0; and their audio mode. */
unsigned paper_count(const struct paper_map *map, const uint8_t *frame, unsigned audio_channel);
enum paper_audio_mode paper_mode(const struct paper_map *map, const uint8_t *frame, unsigned audio_channel);

/* What the reading of an audio channel gives, where it is not refused: its count, and as many samples. */
unsigned paper_read_audio(const struct paper_map *map, const uint8_t *frame, unsigned audio_channel,
                          int32_t samples[PAPER_MOST_SAMPLES]);

/* The number that document 01 gives to a compressed macro block. */
unsigned paper_macroblock_number(const struct paper_system *system, struct paper_cm cm);

/* The 77 bytes of a macroblock. */
const uint8_t *paper_macroblock(const struct paper_map *map, const uint8_t *frame, unsigned number);

/* Member m, 0 to 4, of video segment h, i, k: § 4.1.6. Row 11 is the edge unit. */
struct paper_cm paper_segment(const struct paper_system *system, unsigned h, unsigned i, unsigned k, unsigned m);

/* The SSYB of a number, 8 bytes, and what Table 10 has in it. */
const uint8_t *paper_ssyb(const struct paper_map *map, const uint8_t *frame, unsigned dif_channel, unsigned dif_sequence,
                          unsigned ssyb);
enum paper_ssyb_pack paper_table_10(const struct paper_system *system, unsigned dif_sequence, unsigned ssyb);

/* PC1 to PC4 of the first time code or binary group pack as they are answered, and how many packs of the frame are the same;
 * 0 if one differs. */
unsigned paper_read_time(const struct paper_map *map, const uint8_t *frame, enum paper_ssyb_pack kind, uint8_t pc[4]);

/* What SSYB ID0's FR (bit 7) is in a DIF sequence: Table 8. */
unsigned paper_fr(const struct paper_system *system, unsigned dif_sequence);

/* VAUX pack 0 to 44 and AAUX pack 0 to 8 of a DIF sequence; the pack numbers of VS and AS (VSC and ASC follow them). */
const uint8_t *paper_vaux_pack(const struct paper_map *map, const uint8_t *frame, unsigned dif_channel,
                               unsigned dif_sequence, unsigned pack);
const uint8_t *paper_aaux_pack(const struct paper_map *map, const uint8_t *frame, unsigned dif_channel,
                               unsigned dif_sequence, unsigned pack);
unsigned paper_vs_number(unsigned dif_sequence);
unsigned paper_as_number(unsigned dif_sequence);

/* As they have to be written: a header's payload by Table 7, VS by Table 14 (but PC4, where document 01 has FFh), AS by
 * Table 19. */
void paper_header(const struct paper_system *system, uint8_t payload[PAPER_PAYLOAD_BYTES]);
void paper_vs(const struct paper_system *system, uint8_t pack[PAPER_PACK_BYTES]);
void paper_as(const struct paper_system *system, unsigned audio_channel, unsigned count, uint8_t pack[PAPER_PACK_BYTES]);

/* The audio channel whose samples a DIF sequence carries. */
unsigned paper_audio_channel(const struct paper_system *system, unsigned dif_channel, unsigned dif_sequence);

/* The refusal that document 01 gives to a whole frame, 0 for none: of the frame check, of the reading of an audio channel, of
 * any macroblock, of the time. */
unsigned paper_judge_frame(const struct paper_map *map, const uint8_t *frame);
unsigned paper_judge_audio(const struct paper_map *map, const uint8_t *frame, unsigned audio_channel);
unsigned paper_judge_picture(const struct paper_map *map, const uint8_t *frame);
unsigned paper_judge_time(const struct paper_map *map, const uint8_t *frame);

/* The same for new samples of an audio channel, so many of them. */
unsigned paper_judge_replacing(const struct paper_map *map, const uint8_t *frame, unsigned audio_channel, const int32_t *samples,
                               unsigned length);

#endif
