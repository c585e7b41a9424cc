/* Salvages the sound of one 1080/60/I frame on standard input: says which blocks are lost, and how many samples with them. */
#include <stdio.h>
#include "dv100.h"

static uint8_t frame[480001];
static int32_t samples[8 * 1620];
static uint32_t list[4 * 64];

int main(void)
{
    size_t length = fread(frame, 1, sizeof frame, stdin);
    struct dv100_survey answer = dv100_salvage(0, frame, length, samples, 8 * 1620, list, 4 * 64);
    unsigned lost = 0;

    if (answer.number != 0) {
        printf("refused with %u\n", answer.number);
        return 1;
    }
    for (unsigned i = 0; i < answer.kept; i++)
        printf("DIF channel %u, sequence %u, place %u: fault %u\n", list[4 * i], list[4 * i + 1], list[4 * i + 2], list[4 * i + 3]);
    for (unsigned i = 0; i < 8 * 1620; i++)
        if (samples[i] == DV100_LOST)
            lost++;
    printf("%u of 6000 blocks do not name their place, %u of 12960 samples are lost\n", answer.total, lost);
    return 0;
}
