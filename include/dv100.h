/* dv100: reads, writes, surveys and salvages DIF frames of the 100 Mbit/s DV family (Recommendation ITU-R BT.1620-1), and replaces
 * an audio channel in them.
 *
 * Every call takes every input: it does its job and answers number 0, or it refuses with a number from 1 to 33, answers
 * zeros beside it and changes no buffer. No call keeps a pointer, takes memory, or knows anything of another call, so that any
 * thread may call at any time.
 *
 *   system  name        frame, bytes  positions  sample counts  macroblocks
 *   0       1080/60/I   480,000       1,620      1,600, 1,602   5,400
 *   1       1080/50/I   576,000       1,944      1,920          6,075
 *   2       720/60/P    480,000       1,620      1,600, 1,602   5,400
 *   3       720/50/P    576,000       1,944      1,920          5,400
 *
 * A frame is DIF channels 0 to 3, each of 10 (60 Hz) or 12 (50 Hz) sequences, each of 150 places, each of one block of
 * 80 bytes. Audio channels are 1 to 8. A sample is a level, -32,768 to 32,767, or it is lost: DV100_LOST.
 *
 * Refusals, the lowest that fits:
 *    1   the system is above 3
 *    2   the frame's length is not the system's
 *    3   DIF channel, sequence, place, audio channel, macroblock number or sample count is outside the system
 *    4   another buffer's length is wrong; a fault list may have any length
 *   11   a block's section is reserved
 *   12, 13, 14, 15   a block's section, DIF channel, sequence, block number is not its place's
 *   21   some header's rate is not the system's
 *   22   some video source pack disagrees with the system, where its sequence's header does not call the picture invalid
 *   23   some header calls the sound (audio read), the picture (macroblock read) or the subcode (time code read) invalid
 *   24   an audio source pack of the audio channel breaks the rules (docs/RULES.md, "AAUX"); audio mode 1111 breaks none
 *   25   the audio channel's source packs differ in their count or their audio mode
 *   26   the first time code or binary group has a wrong header, or the time code a wrong digit
 *   27   another time code or binary group of the frame differs from the first
 *   29   the new samples of an audio channel are not as many as its source packs say
 *   31   a sample to be written is outside -32,768 to 32,768
 *   32   a time code to be written has a wrong digit, or at 50 Hz a 0 in bit 6 of its first byte
 *   33   the audio channel to be replaced is unrecorded: its source packs all say audio mode 1111
 *
 * Digits of a time code: units 0 to 9; frames to 29 (24 at 50 Hz), seconds and minutes to 59, hours to 23.
 *
 * What C must hold to, and nothing checks: a pointer leads to as many elements as its length says (with length 0 it is not
 * followed and may be NULL), is aligned for them, and a buffer that is written overlaps no other buffer of the same call.
 */
#ifndef DV100_H
#define DV100_H

#include <stddef.h>
#include <stdint.h>

#ifdef __cplusplus
extern "C" {
#endif

/* A lost sample, where a level would be -32,768 to 32,767. */
#define DV100_LOST 32768

/* What a block ID names: section 0 header, 1 subcode, 2 VAUX, 3 audio, 4 video; DIF channel; sequence; block number. Beside it the
 * spare bits as found: arbitrary is bits 3-0 of byte 0; reserved is 4 times bit 4 of byte 0, plus bits 1-0 of byte 1. They name
 * nothing: dv100_write makes them ones, and no call judges them. Any three bytes may be asked, those of a block that a view refuses
 * too; of a reserved section nothing is told but 11. */
struct dv100_id {
    uint32_t number, section, channel, sequence, block, arbitrary, reserved;
};

/* How many blocks do not name their place, and how many of them the fault list holds. */
struct dv100_survey {
    uint32_t number, total, kept;
};

/* A part of the frame that was lent: its first byte, counted from the frame's, and its length. */
struct dv100_part {
    uint32_t number, start, length;
};

/* How many samples were read. */
struct dv100_audio {
    uint32_t number, count;
};

/* Time code (frames, seconds, minutes, hours, as the packs hold them) and binary group. */
struct dv100_time {
    uint32_t number;
    uint8_t time_code[4], binary_group[4];
};

/* What the three bytes of a block ID name, and their spare bits.
 * Refusals: 4 (not 3 bytes), 11. */
struct dv100_id dv100_read_id(const uint8_t *id, size_t id_length);

/* The blocks of a frame that do not name their place, in stream order. A record of the list is four numbers: DIF channel,
 * sequence, place, fault (11 to 15). The first faults are kept, as many as list_length / 4; the other entries of the list
 * stay as they were; the total counts all faults.
 * Refusals: 1, 2. */
struct dv100_survey dv100_survey(uint32_t system, const uint8_t *frame, size_t frame_length, uint32_t *list, size_t list_length);

/* The same for the 12,000 bytes of one sequence of a DIF channel.
 * Refusals: 1, 3, 4 (not 12,000 bytes). */
struct dv100_survey dv100_survey_sequence(uint32_t system, uint32_t channel, uint32_t sequence, const uint8_t *bytes,
                                          size_t bytes_length, uint32_t *list, size_t list_length);

/* Where one block lies: its 80 bytes, if it names its place.
 * Refusals: 1, 2, 3, the block's own 11 to 15. */
struct dv100_part dv100_view(uint32_t system, const uint8_t *frame, size_t frame_length, uint32_t channel, uint32_t sequence,
                             uint32_t place);

/* Whether every block names its place, and headers and video source packs agree with the system: 0, or the refusal.
 * Refusals: 1, 2, 11 to 15 (the first faulty block's), 21, 22. */
uint32_t dv100_check(uint32_t system, const uint8_t *frame, size_t frame_length);

/* The samples of an audio channel, 1 to 8, and their count. The buffer has the system's positions; entries from the count on
 * stay as they were. An unrecorded channel, whose source packs all say audio mode 1111, has its count and every sample lost.
 * The frame check is part of the call.
 * Refusals: 1, 2, 3, 4 (not the system's positions), the frame check's, 23, 24, 25. */
struct dv100_audio dv100_read_audio(uint32_t system, const uint8_t *frame, size_t frame_length, uint32_t audio_channel,
                                    int32_t *samples, size_t samples_length);

/* Where a macroblock lies: its 77 bytes, carried unread. The frame check is part of the call.
 * Refusals: 1, 2, 3, the frame check's, 23. */
struct dv100_part dv100_macroblock(uint32_t system, const uint8_t *frame, size_t frame_length, uint32_t macroblock);

/* Time code and binary group. The frame check is part of the call.
 * Refusals: 1, 2, the frame check's, 23, 26, 27. */
struct dv100_time dv100_read_time(uint32_t system, const uint8_t *frame, size_t frame_length);

/* All positions of all eight audio channels, channel after channel, of a frame in any state: a sample as it is stored where
 * its block names its place, DV100_LOST where it does not; and the list, total and kept of dv100_survey. The buffer has eight
 * times the system's positions.
 * Refusals: 1, 2, 4 (not eight times the positions). */
struct dv100_survey dv100_salvage(uint32_t system, const uint8_t *frame, size_t frame_length, int32_t *samples,
                                  size_t samples_length, uint32_t *list, size_t list_length);

/* Replaces the samples of an audio channel, 1 to 8, with new ones: as many as the count that dv100_read_audio answers, coded as
 * dv100_write codes them, so that a level of -32,768 comes back as -32,767. No other byte of the frame changes: packs, the other
 * audio channels and the positions from the count on stay as they were. A frame that dv100_write made becomes the one that it
 * makes of the changed sound. The frame check is part of the call.
 * Answers 0, or the refusal: 1, 2, 3, the frame check's, 23, 24, 25, 29, 31, 33. */
uint32_t dv100_replace_audio(uint32_t system, uint8_t *frame, size_t frame_length, uint32_t audio_channel,
                             const int32_t *samples, size_t samples_length);

/* Fills a frame: sound of count samples for each of eight audio channels, channel after channel; macroblocks of 77 bytes in
 * the order of their numbers; time code and binary group, 4 bytes each. A level of -32,768 comes back as -32,767; at 50 Hz
 * bit 6 of the time code's first byte has to be 1.
 * Answers 0, or the refusal: 1, 2, 3 (count), 4, 31, 32. */
uint32_t dv100_write(uint32_t system, uint32_t count, const int32_t *sound, size_t sound_length, const uint8_t *macroblocks,
                     size_t macroblocks_length, const uint8_t *time_code, size_t time_code_length, const uint8_t *binary_group,
                     size_t binary_group_length, uint8_t *frame, size_t frame_length);

#ifdef __cplusplus
}
#endif

#endif
