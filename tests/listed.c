/* listed.c - holds the judge against listed cases: NUMBER [FIRST SECOND] | TYPE FILE, with "^" before the byte at fault. */
#include "sgml.h"
#include <stdio.h>
#include <string.h>

int main(int argc, char **argv)
{
    static uint8_t buffer[SGML_MOST_RECORD_BYTES];
    static char line[4096];
    int passed = 0, failed = 0;
    FILE *file = argc == 2 ? fopen(argv[1], "r") : NULL;
    if (!file)
        return 2;
    while (fgets(line, sizeof line, file)) {
        uint32_t answer[SGML_ANSWER_SIZE], given;
        unsigned number, first = 0, second = 0;
        char *type = strstr(line, " | "), *at;
        size_t position = 0;
        if (line[0] == '#')
            continue;
        line[strcspn(line, "\n")] = 0;
        if (!type || sscanf(line, "%u %u %u |", &number, &first, &second) < 1) {
            printf("not a case: %s\n", line);
            failed++;
            continue;
        }
        type += 3;
        at = strchr(type, '^');
        if (at) {
            position = (size_t)(at - type);
            memmove(at, at + 1, strlen(at));
        }
        given = sgml_judge((const uint8_t *)type, strlen(type), buffer, sizeof buffer, answer, SGML_NAMELEN, SGML_FIRST_EDITION);
        if (given == number && answer[SGML_ANSWER_NUMBER] == number && answer[SGML_ANSWER_POSITION] == position && answer[SGML_ANSWER_FIRST] == first &&
            answer[SGML_ANSWER_SECOND] == second) {
            passed++;
        } else {
            failed++;
            printf("%s\n  judged %u at %u, places %u and %u", type, (unsigned)answer[SGML_ANSWER_NUMBER],
                   (unsigned)answer[SGML_ANSWER_POSITION], (unsigned)answer[SGML_ANSWER_FIRST], (unsigned)answer[SGML_ANSWER_SECOND]);
            printf("; expected %u at %u, places %u and %u\n", number, (unsigned)position, first, second);
        }
    }
    fclose(file);
    printf("%d passed, %d failed\n", passed, failed);
    return failed != 0 || passed == 0;
}
