/* The jobs of tests/ffmpeg.sh that want the library: they make sound and frames, and weigh what ffmpeg made of them.
 * All sound is one function of the audio channel and the sample's number in the stream, so that none of it is stored. */
#include <stdio.h>
#include <stdlib.h>
#include <string.h>

#include "dv100.h"

#define FRAME_MOST 576000
#define POSITIONS_MOST 1944
#define MACROBLOCKS_MOST 6075
#define HEARD_MOST 65536

static uint8_t frame[FRAME_MOST];
static uint8_t macroblocks[77 * MACROBLOCKS_MOST];
static int32_t sound[8 * POSITIONS_MOST];
static int32_t heard[HEARD_MOST];

static uint32_t sequences(uint32_t system) { return system & 1 ? 12 : 10; }
static uint32_t positions(uint32_t system) { return system & 1 ? 1944 : 1620; }
static size_t frame_length(uint32_t system) { return 48000 * (size_t)sequences(system); }
static uint32_t macroblock_count(uint32_t system) { return system == 1 ? 6075 : 5400; }
static size_t picture_length(uint32_t system) { return 77 * (size_t)macroblock_count(system); }

/* A level from -32,767 to 32,767 for every sample of an audio channel. Each step mixes 16 bits one to one, so that a sample in
 * another's place shows: no two of the first 65,536 have the same level, but for one 0 that stands for -32,768. */
static int32_t level(uint32_t audio_channel, uint32_t number)
{
    uint32_t x = (number + 9029 * audio_channel) * 40503 & 0xFFFF;
    x = ((x ^ x >> 7) + 131 * audio_channel) * 30011 & 0xFFFF;
    x = (x ^ x >> 9) * 25717 & 0xFFFF;
    x ^= x >> 8;
    return x == 0x8000 ? 0 : (int16_t)(uint16_t)x;
}

static void put_level(int32_t value)
{
    putchar(value & 0xFF);
    putchar(value >> 8 & 0xFF);
}

/* a file of 16-bit samples, low byte first, into heard: how many there are */
static size_t load(const char *path)
{
    static uint8_t bytes[2 * HEARD_MOST];
    FILE *file = fopen(path, "rb");
    if (!file)
        return 0;
    size_t length = fread(bytes, 2, HEARD_MOST, file);
    fclose(file);
    for (size_t i = 0; i < length; i++)
        heard[i] = (int16_t)(uint16_t)(bytes[2 * i] | bytes[2 * i + 1] << 8);
    return length;
}

static int get_frame(uint32_t system)
{
    return fread(frame, 1, frame_length(system), stdin) == frame_length(system);
}

/* sound PAIR LENGTH: audio channels 2 PAIR - 1 and 2 PAIR as left and right */
static int make_sound(uint32_t pair, uint32_t length)
{
    for (uint32_t number = 0; number < length; number++) {
        put_level(level(2 * pair - 1, number));
        put_level(level(2 * pair, number));
    }
    return 0;
}

/* one frame, its sound from sample number on; of every EVERY samples the first is lost, none where EVERY is 0 */
static uint32_t write_frame(uint32_t system, uint32_t every, uint32_t count, uint32_t number, uint32_t frames)
{
    const uint8_t time_code[4] = {(uint8_t)((system & 1 ? 0x40 : 0) | frames / 10 << 4 | frames % 10), 0x56, 0x34, 0x12};
    const uint8_t binary_group[4] = {0x01, 0x23, 0x45, 0x67};
    for (uint32_t c = 1; c <= 8; c++)
        for (uint32_t t = 0; t < count; t++)
            sound[(c - 1) * count + t] = every && (number + t) % every == 0 ? DV100_LOST : level(c, number + t);
    return dv100_write(system, count, sound, 8 * (size_t)count, macroblocks, picture_length(system), time_code, 4, binary_group, 4,
                       frame, frame_length(system));
}

/* write SYSTEM EVERY COUNT...: a frame for each count, the time code from 12:34:56:07 on */
static int make_frames(uint32_t system, uint32_t every, int counts, char **count)
{
    uint32_t number = 0;
    for (int f = 0; f < counts; f++) {
        uint32_t refusal = write_frame(system, every, (uint32_t)atoi(count[f]), number, 7 + (uint32_t)f);
        if (refusal) {
            fprintf(stderr, "dv100_write refuses with %u\n", refusal);
            return 1;
        }
        fwrite(frame, 1, frame_length(system), stdout);
        number += (uint32_t)atoi(count[f]);
    }
    return 0;
}

/* the blocks that do not name their place: how many, the first, and how many have each fault */
static void print_faults(uint32_t system)
{
    static uint32_t list[4 * FRAME_MOST / 80];
    uint32_t of_fault[16] = {0};
    struct dv100_survey survey = dv100_survey(system, frame, frame_length(system), list, sizeof list / sizeof *list);
    for (uint32_t i = 0; i < survey.kept; i++)
        of_fault[list[4 * i + 3] & 15]++;
    printf("%u blocks misplaced", survey.total);
    if (survey.kept)
        printf(" from DIF channel %u sequence %u place %u on", list[0], list[1], list[2]);
    for (uint32_t fault = 0; fault < 16; fault++)
        if (of_fault[fault])
            printf(", %u with fault %u", of_fault[fault], fault);
}

/* the refusal of new samples for an audio channel, in a copy of the frame: as many as its count, and where the read is refused,
 * as many as a frame may have */
static uint32_t replacing_number(uint32_t system, uint32_t audio_channel)
{
    static uint8_t copy[FRAME_MOST];
    struct dv100_audio read = dv100_read_audio(system, frame, frame_length(system), audio_channel, sound, positions(system));
    memcpy(copy, frame, frame_length(system));
    memset(sound, 0, sizeof sound);
    return dv100_replace_audio(system, copy, frame_length(system), audio_channel, sound,
                               read.number ? system & 1 ? 1920 : 1600 : read.count);
}

/* find SYSTEM: what the library says of each frame */
static int find(uint32_t system)
{
    while (get_frame(system)) {
        print_faults(system);
        printf("; refusals: check %u, audio", dv100_check(system, frame, frame_length(system)));
        for (uint32_t c = 1; c <= 8; c++)
            printf(" %u", dv100_read_audio(system, frame, frame_length(system), c, sound, positions(system)).number);
        printf(", replacing");
        for (uint32_t c = 1; c <= 8; c++)
            printf(" %u", replacing_number(system, c));
        printf(", time %u\n", dv100_read_time(system, frame, frame_length(system)).number);
    }
    return 0;
}

/* spare SYSTEM: the arbitrary and the reserved bits in the IDs of each section, and in how many blocks of the frames */
static int spare(uint32_t system)
{
    static const char *const sections[5] = {"header", "subcode", "VAUX", "audio", "video"};
    uint32_t met[5][16][8] = {0};
    while (get_frame(system))
        for (size_t block = 0; block < frame_length(system); block += 80) {
            struct dv100_id id = dv100_read_id(frame + block, 3);
            if (id.number || id.arbitrary > 15 || id.reserved > 7)
                return 1;
            met[id.section][id.arbitrary][id.reserved]++;
        }
    for (uint32_t section = 0; section < 5; section++) {
        printf("%s%s", section ? "; " : "", sections[section]);
        for (uint32_t bits = 0; bits < 128; bits++)
            if (met[section][bits / 8][bits % 8])
                printf(" %u and %u in %u", bits / 8, bits % 8, met[section][bits / 8][bits % 8]);
    }
    printf("\n");
    return 0;
}

/* LF to 0 in the AS packs of a sequence, and in the first half of the sequences the binary groups that ffmpeg leaves out */
static void mend_sequence(uint8_t *sequence, int first_half)
{
    static const uint8_t binary_group[5] = {0x14, 0xFF, 0xFF, 0xFF, 0xFF};
    for (int a = 0; a < 9; a++) {
        uint8_t *pack = sequence + (6 + 16 * a) * 80 + 3;
        if (pack[0] == 0x50)
            pack[1] &= 0x7F;
    }
    for (int place = 1; first_half && place <= 2; place++)
        memcpy(sequence + place * 80 + 3 + 4 * 8 + 3, binary_group, 5);
}

/* mend SYSTEM: ffmpeg's frames without what the strict reads refuse */
static int mend(uint32_t system)
{
    uint32_t n = sequences(system);
    while (get_frame(system)) {
        for (uint32_t i = 0; i < 4 * n; i++)
            mend_sequence(frame + 12000 * i, i % n < n / 2);
        fwrite(frame, 1, frame_length(system), stdout);
    }
    return 0;
}

/* The sound of no audio channel, for one that is replaced. */
enum { NEW = 9 };

/* replace SYSTEM AUDIO_CHANNEL EVERY: the frames with new sound in an audio channel; of every EVERY samples the first is lost, none
 * where EVERY is 0 */
static int replace(uint32_t system, uint32_t audio_channel, uint32_t every)
{
    uint32_t number = 0;
    while (get_frame(system)) {
        struct dv100_audio read = dv100_read_audio(system, frame, frame_length(system), audio_channel, sound, positions(system));
        for (uint32_t t = 0; t < read.count; t++)
            sound[t] = every && (number + t) % every == 0 ? DV100_LOST : level(NEW, number + t);
        uint32_t refusal = dv100_replace_audio(system, frame, frame_length(system), audio_channel, sound, read.count);
        if (refusal) {
            fprintf(stderr, "dv100_replace_audio refuses with %u\n", refusal);
            return 1;
        }
        fwrite(frame, 1, frame_length(system), stdout);
        number += read.count;
    }
    return 0;
}

/* Samples compared: those that are not what was given, and of these the ones that the 60 Hz step does not explain. */
struct tally {
    uint32_t samples, wrong, unexplained;
};

static void print_tally(struct tally tally)
{
    printf("%u of %u samples wrong, %u unexplained\n", tally.wrong, tally.samples, tally.unexplained);
}

static void weigh(struct tally *tally, int32_t got, int32_t given, int32_t explained)
{
    tally->samples++;
    tally->wrong += got != given;
    tally->unexplained += got != given && got != explained;
}

/* ffmpeg's 720/50 steps 45 samples from word to word of a block, as at 60 Hz, where 54 are right. Its muxer so puts this sample
 * where the paper has sample t. */
static uint32_t muxed(uint32_t t) { return t % 54 + t / 54 * 45; }

/* when ffmpeg comes to the block of sample t, by sequence and audio block */
static uint32_t turn(uint32_t t) { return (t / 3 + 2 * (t % 3)) % 6 * 9 + 3 * (t % 3) + t % 54 / 18; }

/* What its demuxer so takes for sample t: of two words that fall together the later, from 1,629 on nothing. */
static int32_t demuxed(uint32_t audio_channel, uint32_t number, uint32_t t)
{
    uint32_t base = t % 45, word = t / 45, stored = base + 54 * word;
    if (word > 0 && base < 9 && (word > 35 || turn(base + 45) > turn(base)))
        stored = base + 45 + 54 * (word - 1);
    return t < 1629 && stored < 1920 ? level(audio_channel, number + stored) : 0;
}

/* the sound of an audio channel by the strict read, beside that of a source channel from number on: its count, 0 if refused */
static uint32_t listen_channel(struct tally *tally, uint32_t system, uint32_t audio_channel, uint32_t source, uint32_t number)
{
    struct dv100_audio got = dv100_read_audio(system, frame, frame_length(system), audio_channel, sound, positions(system));
    for (uint32_t t = 0; t < got.count; t++)
        weigh(tally, sound[t], level(source, number + t), level(source, number + (system == 3 ? muxed(t) : t)));
    return got.count;
}

/* the eight audio channels of a frame from number on: how far its sound goes. A frame that ffmpeg made of two halves has in 5 to
 * 8 the sound of 1 to 4 that follows. */
static uint32_t listen_frame(struct tally *tally, uint32_t system, uint32_t halves, uint32_t number)
{
    uint32_t low = 0, high = 0;
    for (uint32_t c = 1; c <= 4; c++)
        low = listen_channel(tally, system, c, c, number);
    for (uint32_t c = 5; c <= 8; c++)
        high = listen_channel(tally, system, c, halves ? c - 4 : c, halves ? number + low : number);
    return halves ? low + high : low;
}

/* listen SYSTEM HALVES: ffmpeg's frames by the strict reads, each time code and all the sound */
static int listen(uint32_t system, uint32_t halves)
{
    struct tally tally = {0};
    uint32_t number = 0;
    while (get_frame(system)) {
        struct dv100_time time = dv100_read_time(system, frame, frame_length(system));
        printf("%02X %02X %02X %02X, ", time.time_code[0], time.time_code[1], time.time_code[2], time.time_code[3]);
        number += listen_frame(&tally, system, halves, number);
    }
    print_tally(tally);
    return 0;
}

/* carry SYSTEM: a new frame with the macroblocks of one of ffmpeg's, taken by their numbers */
static int carry(uint32_t system)
{
    if (!get_frame(system))
        return 1;
    for (uint32_t m = 0; m < macroblock_count(system); m++) {
        struct dv100_part part = dv100_macroblock(system, frame, frame_length(system), m);
        if (part.number || part.length != 77)
            return 1;
        memcpy(macroblocks + 77 * m, frame + part.start, 77);
    }
    if (write_frame(system, 0, system & 1 ? 1920 : 1600, 0, 7))
        return 1;
    fwrite(frame, 1, frame_length(system), stdout);
    return 0;
}

/* which audio channel, or the new sound, one side of heard is from its first sample to its last, 0 for none */
static uint32_t audio_channel_of(uint32_t side, uint32_t length)
{
    for (uint32_t c = 1; c <= NEW; c++) {
        uint32_t t = 0;
        while (t < length && heard[2 * t + side] == level(c, t))
            t++;
        if (t == length)
            return c;
    }
    return 0;
}

/* sides LENGTH FILE...: the audio channels that come out as left and right of each stereo file of LENGTH samples a side */
static int sides(uint32_t length, int files, char **file)
{
    for (int i = 0; i < files; i++) {
        int whole = length > 0 && load(file[i]) == 2 * (size_t)length;
        for (uint32_t side = 0; side < 2; side++)
            printf("%s%u", i || side ? " " : "", whole ? audio_channel_of(side, length) : 0);
    }
    printf("\n");
    return 0;
}

/* strides REPLACED FILE...: the four stereo files that ffmpeg reads of 720/50, with one audio channel replaced, or 0 for none */
static int strides(uint32_t replaced, int files, char **file)
{
    struct tally tally = {0};
    for (int i = 0; i < files; i++) {
        size_t length = load(file[i]);
        for (size_t at = 0; at < length; at++) {
            uint32_t audio_channel = 2 * (uint32_t)i + 1 + at % 2, number = (uint32_t)(at / 2), t = number % 1920;
            uint32_t source = audio_channel == replaced ? NEW : audio_channel;
            weigh(&tally, heard[at], level(source, number), demuxed(source, number - t, t));
        }
    }
    print_tally(tally);
    return 0;
}

/* own FILE...: the same of the stream that it muxed itself, by halves: pairs 1, 2 of the first half and 1, 2 of the second */
static int own(int files, char **file)
{
    struct tally tally = {0};
    for (int i = 0; i < files; i++) {
        size_t length = load(file[i]);
        for (size_t at = 0; at < length; at++) {
            uint32_t number = (uint32_t)(at / 2), t = number % 1920, half = number / 1920 * 2 + (uint32_t)i / 2;
            uint32_t audio_channel = 2 * ((uint32_t)i % 2) + 1 + at % 2;
            weigh(&tally, heard[at], level(audio_channel, 1920 * half + t), t < 1629 ? DV100_LOST : 0);
        }
    }
    print_tally(tally);
    return 0;
}

/* how many samples of all audio channels the strict read gives as lost, or that it refuses */
static void print_strict(uint32_t system)
{
    uint32_t lost = 0;
    for (uint32_t c = 1; c <= 8; c++) {
        struct dv100_audio got = dv100_read_audio(system, frame, frame_length(system), c, sound, positions(system));
        if (got.number) {
            printf("dv100_read_audio refuses with %u\n", got.number);
            return;
        }
        for (uint32_t t = 0; t < got.count; t++)
            lost += sound[t] == DV100_LOST;
    }
    printf("dv100_read_audio has %u lost\n", lost);
}

/* What salvage gives beside what ffmpeg hands out: the same level, lost for silence, lost for a level, and anything else. */
struct meeting {
    uint32_t equal, silent, rubbish, different;
};

static void meet(struct meeting *meeting, int32_t ours, int32_t theirs)
{
    meeting->equal += ours == theirs;
    meeting->silent += ours == DV100_LOST && theirs == 0;
    meeting->rubbish += ours == DV100_LOST && theirs != 0;
    meeting->different += ours != DV100_LOST && ours != theirs;
}

/* beside SYSTEM COUNT FILE...: salvage of one frame, and the four stereo files that ffmpeg reads of it */
static int beside(uint32_t system, uint32_t count, char **file)
{
    struct meeting meeting = {0};
    if (!get_frame(system) || dv100_salvage(system, frame, frame_length(system), sound, 8 * positions(system), NULL, 0).number)
        return 1;
    for (uint32_t c = 1; c <= 8; c++) {
        if (load(file[(c - 1) / 2]) != 2 * (size_t)count)
            return 1;
        for (uint32_t t = 0; t < count; t++)
            meet(&meeting, sound[(c - 1) * positions(system) + t], heard[2 * t + (c - 1) % 2]);
    }
    printf("%u equal, %u lost where ffmpeg has 0, %u lost where it has a level, %u different, ", meeting.equal, meeting.silent,
           meeting.rubbish, meeting.different);
    print_strict(system);
    return 0;
}

int main(int words, char **word)
{
    const char *job = words > 1 ? word[1] : "";
    uint32_t first = words > 2 ? (uint32_t)atoi(word[2]) : 0, second = words > 3 ? (uint32_t)atoi(word[3]) : 0;
    if (!strcmp(job, "sound") && words == 4)
        return make_sound(first, second);
    if (!strcmp(job, "write") && words > 4)
        return make_frames(first, second, words - 4, word + 4);
    if (!strcmp(job, "find") && words == 3)
        return find(first);
    if (!strcmp(job, "spare") && words == 3)
        return spare(first);
    if (!strcmp(job, "mend") && words == 3)
        return mend(first);
    if (!strcmp(job, "replace") && words == 5)
        return replace(first, second, (uint32_t)atoi(word[4]));
    if (!strcmp(job, "listen") && words == 4)
        return listen(first, second);
    if (!strcmp(job, "sides") && words > 3)
        return sides(first, words - 3, word + 3);
    if (!strcmp(job, "strides") && words == 7)
        return strides(first, 4, word + 3);
    if (!strcmp(job, "own") && words == 6)
        return own(4, word + 2);
    if (!strcmp(job, "carry") && words == 3)
        return carry(first);
    if (!strcmp(job, "beside") && words == 8)
        return beside(first, second, word + 4);
    fprintf(stderr, "no such job: %s\n", job);
    return 2;
}
