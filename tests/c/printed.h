/* The printed rows of Tables 22, 23 and 24 of Recommendation ITU-R BT.1620-1, in their order; ":" rows are left out. */
#ifndef PRINTED_H
#define PRINTED_H

#include "paper.h"

/* DIF channel number, DIF sequence number, DIF block V dbn,i, compressed macro block (h is PRINTED_NONE for a dash). */
struct printed_row {
    unsigned dif_channel, dif_sequence;
    struct {
        unsigned dbn, i;
    } v;
    struct paper_cm cm;
};

enum { PRINTED_NONE = 4 };

#define V(dbn, i) {dbn, i}
#define CM(h, i, j, k) {h, i, j, k}
#define DASH {PRINTED_NONE, 0, 0, 0}

/* The text in English has lost Table 22 (60-Hz system); the Spanish one prints it. */
static const struct printed_row table_22[] = {
    {0, 0, V(0, 0), CM(0, 2, 2, 0)},
    {0, 0, V(1, 0), CM(0, 6, 1, 0)},
    {0, 0, V(2, 0), CM(0, 8, 3, 0)},
    {0, 0, V(3, 0), CM(0, 0, 0, 0)},
    {0, 0, V(4, 0), CM(0, 4, 4, 0)},
    {0, 9, V(134, 0), CM(0, 3, 4, 26)},
    {1, 0, V(0, 1), CM(1, 6, 2, 0)},
    {1, 0, V(1, 1), CM(1, 0, 1, 0)},
    {1, 0, V(2, 1), CM(1, 2, 3, 0)},
    {1, 0, V(3, 1), CM(1, 4, 0, 0)},
    {1, 0, V(4, 1), CM(1, 8, 4, 0)},
    {1, 9, V(134, 1), CM(1, 7, 4, 26)},
    {3, 0, V(0, 3), CM(3, 4, 2, 0)},
    {3, 0, V(1, 3), CM(3, 8, 1, 0)},
    {3, 0, V(2, 3), CM(3, 0, 3, 0)},
    {3, 0, V(3, 3), CM(3, 2, 0, 0)},
    {3, 0, V(4, 3), CM(3, 6, 4, 0)},
    {3, 9, V(134, 3), CM(3, 5, 4, 26)},
};

/* The text sets "11" one row too high, beside the last block of sequence 10: two rows V 134,0 cannot stand in one sequence, and
 * § 3.7.2.1 gives CM 0,3,4,26 at sequence 10. The same in DIF channels 1 and 3. */
static const struct printed_row table_23[] = {
    {0, 0, V(0, 0), CM(0, 2, 2, 0)},
    {0, 0, V(1, 0), CM(0, 6, 1, 0)},
    {0, 0, V(2, 0), CM(0, 8, 3, 0)},
    {0, 0, V(3, 0), CM(0, 0, 0, 0)},
    {0, 0, V(4, 0), CM(0, 4, 4, 0)},
    {0, 10, V(134, 0), CM(0, 3, 4, 26)},
    {0, 11, V(0, 0), CM(0, 11, 0, 0)},
    {0, 11, V(1, 0), CM(0, 11, 1, 0)},
    {0, 11, V(134, 0), CM(0, 11, 4, 26)},
    {1, 0, V(0, 1), CM(1, 6, 2, 0)},
    {1, 0, V(1, 1), CM(1, 10, 1, 0)},
    {1, 0, V(2, 1), CM(1, 1, 3, 0)},
    {1, 0, V(3, 1), CM(1, 4, 0, 0)},
    {1, 0, V(4, 1), CM(1, 8, 4, 0)},
    {1, 10, V(134, 1), CM(1, 7, 4, 26)},
    {1, 11, V(0, 1), DASH},
    {1, 11, V(134, 1), DASH},
    {3, 0, V(0, 3), CM(3, 3, 2, 0)},
    {3, 0, V(1, 3), CM(3, 7, 1, 0)},
    {3, 0, V(2, 3), CM(3, 9, 3, 0)},
    {3, 0, V(3, 3), CM(3, 1, 0, 0)},
    {3, 0, V(4, 3), CM(3, 5, 4, 0)},
    {3, 10, V(134, 3), CM(3, 4, 4, 26)},
    {3, 11, V(0, 3), DASH},
    {3, 11, V(134, 3), DASH},
};

static const struct printed_row table_24[] = {
    {0, 0, V(0, 0), CM(0, 2, 2, 0)},
    {0, 0, V(1, 0), CM(0, 6, 1, 0)},
    {0, 0, V(2, 0), CM(0, 8, 3, 0)},
    {0, 0, V(3, 0), CM(0, 0, 0, 0)},
    {0, 0, V(4, 0), CM(0, 4, 4, 0)},
    {0, 9, V(134, 0), CM(0, 3, 4, 26)},
    {0, 10, V(0, 0), DASH},
    {0, 10, V(134, 0), DASH},
    {0, 11, V(0, 0), DASH},
    {0, 11, V(134, 0), DASH},
    {1, 0, V(0, 1), CM(1, 6, 2, 0)},
    {1, 0, V(1, 1), CM(1, 0, 1, 0)},
    {1, 0, V(2, 1), CM(1, 2, 3, 0)},
    {1, 0, V(3, 1), CM(1, 4, 0, 0)},
    {1, 0, V(4, 1), CM(1, 8, 4, 0)},
    {1, 9, V(134, 1), CM(1, 7, 4, 26)},
    {1, 10, V(0, 1), DASH},
    {1, 10, V(134, 1), DASH},
    {1, 11, V(0, 1), DASH},
    {1, 11, V(134, 1), DASH},
    {3, 0, V(0, 3), CM(3, 4, 2, 0)},
    {3, 0, V(1, 3), CM(3, 8, 1, 0)},
    {3, 0, V(2, 3), CM(3, 0, 3, 0)},
    {3, 0, V(3, 3), CM(3, 2, 0, 0)},
    {3, 0, V(4, 3), CM(3, 6, 4, 0)},
    {3, 9, V(134, 3), CM(3, 5, 4, 26)},
    {3, 10, V(0, 3), DASH},
    {3, 10, V(134, 3), DASH},
    {3, 11, V(0, 3), DASH},
    {3, 11, V(134, 3), DASH},
};

#undef V
#undef CM
#undef DASH

enum {
    TABLE_22_ROWS = sizeof table_22 / sizeof table_22[0],
    TABLE_23_ROWS = sizeof table_23 / sizeof table_23[0],
    TABLE_24_ROWS = sizeof table_24 / sizeof table_24[0]
};

#endif
