/* judge.c - times the judge on type files: judge [-n LENGTH] TYPE.. The best of many calls, the buffer cleared before each. Names have
 * at most LENGTH bytes, 8 where it is not given. */
#include "sgml.h"
#include "timing.h"
#include <stdio.h>
#include <stdlib.h>
#include <string.h>

int main(int argc, char **argv)
{
    static uint8_t type[SGML_TYPE_LIMIT + 1], buffer[16384 * 4];
    int i = argc > 2 && !strcmp(argv[1], "-n") ? 3 : 1, k;
    uint32_t length = i > 1 ? (uint32_t)atoi(argv[2]) : SGML_NAMELEN;
    for (; i < argc; i++) {
        uint32_t answer[SGML_ANSWER_SIZE], number = 0;
        double best = 1e12;
        size_t n = load(argv[i], type, sizeof type);
        if (!n)
            return 2;
        for (k = 0; k < 300; k++) {
            double t = now();
            memset(buffer, 0, sizeof buffer);
            number = sgml_judge(type, n, buffer, sizeof buffer, answer, length, SGML_FIRST_EDITION);
            t = now() - t;
            if (t < best)
                best = t;
        }
        printf("%s %.2f %u\n", argv[i], best, (unsigned)number);
    }
    return 0;
}
