/* reader.c - times the document reader on documents of one type: reader [-n LENGTH] [-e EDITION] TYPE DOCUMENT.. The best of many calls, the buffer
 * cleared before each. Names have at most LENGTH bytes, 8 where it is not given. */
#include "sgml.h"
#include "timing.h"
#include <stdio.h>
#include <stdlib.h>
#include <string.h>

static uint8_t type[SGML_TYPE_LIMIT + 1], document[65536], buffer[SGML_EVENT_BYTES * 20480];

int main(int argc, char **argv)
{
    int i = argc > 2 && !strcmp(argv[1], "-n") ? 3 : 1, k;
    uint32_t length = i > 1 ? (uint32_t)atoi(argv[2]) : SGML_NAMELEN, edition = SGML_FIRST_EDITION;
    size_t t;
    if (i + 1 < argc && !strcmp(argv[i], "-e")) {
        edition = (uint32_t)atoi(argv[i + 1]);
        i += 2;
    }
    t = i < argc ? load(argv[i++], type, sizeof type) : 0;
    for (; i < argc; i++) {
        uint32_t answer[SGML_ANSWER_SIZE], number = 0;
        double best = 1e12;
        size_t d = load(argv[i], document, sizeof document);
        for (k = 0; k < 300; k++) {
            double start;
            memset(buffer, 0, sizeof buffer);
            start = now();
            number = sgml_read(type, t, document, d, buffer, sizeof buffer, answer, length, edition);
            start = now() - start;
            if (start < best)
                best = start;
        }
        if (number) {
            fprintf(stderr, "%s: refused %u at %u\n", argv[i], (unsigned)number, (unsigned)answer[SGML_ANSWER_POSITION]);
            return 1;
        }
        printf("%s %.2f %u\n", argv[i], best, (unsigned)answer[SGML_ANSWER_COUNT]);
    }
    return 0;
}
