/* Puts a new commentary, a ramp with one sample lost, into audio channel 3 of a 1080/60/I frame on standard input, and reads it back.
   The shipped frame has lost a block of that very audio channel: the call takes no such frame until the block has its ID again. */
#include <stdio.h>
#include <string.h>
#include "dv100.h"

static uint8_t frame[480001];
static int32_t commentary[1600], samples[1620];

int main(void)
{
    static const uint8_t id[3] = {0x7F, 0x3F, 0x01}; /* A1 of DIF channel 1, sequence 3, which stands at place 22 */
    size_t length = fread(frame, 1, sizeof frame, stdin);
    struct dv100_audio answer;
    unsigned same = 0;

    for (int t = 0; t < 1600; t++)
        commentary[t] = 40 * t - 32000;
    commentary[7] = DV100_LOST;
    printf("as it came: %u\n", dv100_replace_audio(0, frame, length, 3, commentary, 1600));
    memcpy(frame + ((10 * 1 + 3) * 150 + 22) * 80, id, 3);
    printf("one sample fewer: %u\n", dv100_replace_audio(0, frame, length, 3, commentary, 1599));
    printf("all of them: %u\n", dv100_replace_audio(0, frame, length, 3, commentary, 1600));
    answer = dv100_read_audio(0, frame, length, 3, samples, 1620);
    for (unsigned t = 0; t < answer.count; t++)
        same += samples[t] == commentary[t];
    printf("read back: %u, %u of %u samples are the new ones\n", answer.number, same, answer.count);
    return answer.number != 0;
}
