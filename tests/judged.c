/* judged.c - holds the judge against vectors: folders with type.sgm and the expected output of the small program.
 * "refused N in type" is the judge's answer too, and events, or a refusal of the document that comes after the type was
 * judged (10 on), mean that the type is accepted. A file args gives the length of names where it is not 8. */
#include "sgml.h"
#include <stdio.h>
#include <string.h>

static int passed, failed;

static void hold(const char *folder, int is_right, const char *expected, const uint32_t *answer)
{
    if (is_right) {
        passed++;
        return;
    }
    failed++;
    printf("%s: expected %s, judged %u at %u\n", folder, expected, (unsigned)answer[SGML_ANSWER_NUMBER],
           (unsigned)answer[SGML_ANSWER_POSITION]);
}

static size_t content_of(const char *folder, const char *name, uint8_t *to, size_t room)
{
    char path[512];
    FILE *file;
    size_t n = 0;
    snprintf(path, sizeof path, "%s/%s", folder, name);
    file = fopen(path, "rb");
    if (file) {
        n = fread(to, 1, room, file);
        fclose(file);
    } else {
        printf("%s: cannot be read\n", path);
        failed++;
    }
    return n;
}

/* The number behind this word in the file args; the one given where there is none. */
static uint32_t setting_of(const char *folder, const char *word, uint32_t otherwise)
{
    char path[512], found[16];
    FILE *file;
    unsigned number;
    snprintf(path, sizeof path, "%s/args", folder);
    file = fopen(path, "r");
    while (file && fscanf(file, "%15s %u", found, &number) == 2)
        if (!strcmp(found, word))
            otherwise = number;
    if (file)
        fclose(file);
    return otherwise;
}

int main(int argc, char **argv)
{
    static uint8_t type[70000], buffer[SGML_MOST_RECORD_BYTES];
    char expected[64];
    int i;
    for (i = 1; i < argc; i++) {
        uint32_t answer[SGML_ANSWER_SIZE], given;
        unsigned number, position;
        size_t n = content_of(argv[i], "expected", (uint8_t *)expected, sizeof expected - 1);
        expected[n] = 0;
        expected[strcspn(expected, "\n")] = 0;
        n = content_of(argv[i], "type.sgm", type, sizeof type);
        given = sgml_judge(type, n, buffer, sizeof buffer, answer, setting_of(argv[i], "namelen", SGML_NAMELEN),
                           setting_of(argv[i], "edition", SGML_FIRST_EDITION));
        if (sscanf(expected, "refused %u in type at %u", &number, &position) == 2)
            hold(argv[i],
                 given == number && answer[SGML_ANSWER_NUMBER] == number && answer[SGML_ANSWER_INPUT] == SGML_IN_TYPE &&
                     answer[SGML_ANSWER_POSITION] == position,
                 expected, answer);
        else if (sscanf(expected, "refused %u in document", &number) == 1 && number < 10)
            continue;
        else
            hold(argv[i], given == 0 && answer[SGML_ANSWER_NUMBER] == 0 && answer[SGML_ANSWER_COUNT] > 0, expected, answer);
    }
    printf("%d passed, %d failed\n", passed, failed);
    return failed != 0 || passed == 0;
}
