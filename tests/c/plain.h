/* The eleven calls of dv100.h in plain C, with its structs: an implementation of its own, by document 01, to compare the library with. */
#ifndef PLAIN_H
#define PLAIN_H

#include "dv100.h"

struct dv100_id plain_read_id(const uint8_t *id, size_t id_length);

struct dv100_survey plain_survey(uint32_t system, const uint8_t *frame, size_t frame_length, uint32_t *list, size_t list_length);

struct dv100_survey plain_survey_sequence(uint32_t system, uint32_t channel, uint32_t sequence, const uint8_t *bytes,
                                          size_t bytes_length, uint32_t *list, size_t list_length);

struct dv100_part plain_view(uint32_t system, const uint8_t *frame, size_t frame_length, uint32_t channel, uint32_t sequence,
                             uint32_t place);

uint32_t plain_check(uint32_t system, const uint8_t *frame, size_t frame_length);

struct dv100_audio plain_read_audio(uint32_t system, const uint8_t *frame, size_t frame_length, uint32_t audio_channel,
                                    int32_t *samples, size_t samples_length);

struct dv100_part plain_macroblock(uint32_t system, const uint8_t *frame, size_t frame_length, uint32_t macroblock);

struct dv100_time plain_read_time(uint32_t system, const uint8_t *frame, size_t frame_length);

struct dv100_survey plain_salvage(uint32_t system, const uint8_t *frame, size_t frame_length, int32_t *samples,
                                  size_t samples_length, uint32_t *list, size_t list_length);

uint32_t plain_replace_audio(uint32_t system, uint8_t *frame, size_t frame_length, uint32_t audio_channel,
                             const int32_t *samples, size_t samples_length);

uint32_t plain_write(uint32_t system, uint32_t count, const int32_t *sound, size_t sound_length, const uint8_t *macroblocks,
                     size_t macroblocks_length, const uint8_t *time_code, size_t time_code_length, const uint8_t *binary_group,
                     size_t binary_group_length, uint8_t *frame, size_t frame_length);

#endif
