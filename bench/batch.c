/* batch.c - times a batch beside as many single calls, in one run: batch TYPE DOCUMENT.. Each document is read 200 times, from one string that holds it so
 * often, each time into a stretch of its own. The best of many runs, batch and single calls in turn. */
#include "sgml.h"
#include "timing.h"
#include <stdio.h>
#include <stdlib.h>
#include <string.h>

enum { MANY = 200, LONGEST = 4096, STRETCH = SGML_EVENT_BYTES * 400 };

static uint8_t type[SGML_TYPE_LIMIT + 1], text[MANY * LONGEST], buffer[MANY * STRETCH], single[MANY * STRETCH];
static size_t starts[MANY], lengths[MANY], froms[MANY], sizes[MANY];
static uint32_t answers[MANY * SGML_ANSWER_SIZE], each[MANY * SGML_ANSWER_SIZE];

int main(int argc, char **argv)
{
    size_t t = argc > 1 ? load(argv[1], type, sizeof type) : 0;
    int i, k;
    for (i = 2; i < argc; i++) {
        double batch = 1e12, singles = 1e12;
        uint32_t answer[SGML_ANSWER_SIZE];
        size_t d = load(argv[i], text, LONGEST), j;
        for (j = 0; j < MANY; j++) {
            memcpy(text + j * d, text, d);
            starts[j] = j * d;
            lengths[j] = d;
            froms[j] = j * STRETCH;
            sizes[j] = STRETCH;
        }
        for (k = 0; k < 100; k++) {
            double start = now(), middle;
            if (sgml_read_batch(type, t, text, MANY * d, starts, MANY, lengths, MANY, buffer, sizeof buffer, froms, MANY, sizes, MANY, answers, MANY * SGML_ANSWER_SIZE,
                                answer, SGML_NAMELEN, SGML_FIRST_EDITION)) {
                fprintf(stderr, "%s: the batch is refused\n", argv[i]);
                return 1;
            }
            middle = now();
            for (j = 0; j < MANY; j++)
                if (sgml_read(type, t, text + j * d, d, single + j * STRETCH, STRETCH, each + j * SGML_ANSWER_SIZE, SGML_NAMELEN, SGML_FIRST_EDITION)) {
                    fprintf(stderr, "%s: refused %u at %u\n", argv[i], (unsigned)each[j * SGML_ANSWER_SIZE], (unsigned)each[j * SGML_ANSWER_SIZE + SGML_ANSWER_POSITION]);
                    return 1;
                }
            start = middle - start;
            middle = now() - middle;
            if (start < batch)
                batch = start;
            if (middle < singles)
                singles = middle;
        }
        if (memcmp(buffer, single, sizeof buffer) || memcmp(answers, each, sizeof answers)) {
            fprintf(stderr, "%s: batch and single calls differ\n", argv[i]);
            return 1;
        }
        printf("%s %.2f %.2f %.3f\n", argv[i], batch, singles, batch / singles);
    }
    return 0;
}
