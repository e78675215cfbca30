/* batched.c - the documents of vectors in batches beside the single calls: batched FOLDER/.. Each folder has a type file (type.sgm) and a document (doc.sgm), and
 * perhaps args with how long a name may be. Under each type its own document is read with those of the folders before it, good and faulty ones mixed, as parts of
 * one string in an order that changes; a few parts pass the string's end. Settings that no call takes refuse the whole of it. */
#include "sgml.h"
#include <stdio.h>
#include <stdlib.h>
#include <string.h>

enum { KEPT = 24, LONGEST = 65536 + 1, STRETCH = 4 * 20480, GUARD = 20 };

static uint8_t string[KEPT * LONGEST], type[SGML_TYPE_LIMIT + 1], buffer[KEPT * (STRETCH + GUARD)], expected[sizeof buffer];
static size_t kept[KEPT], where[KEPT];

static size_t load(const char *folder, const char *name, uint8_t *to, size_t room)
{
    char path[4096];
    FILE *file;
    size_t n;
    snprintf(path, sizeof path, "%s/%s", folder, name);
    file = fopen(path, "rb");
    n = file ? fread(to, 1, room, file) : 0;
    if (file)
        fclose(file);
    return n;
}

/* The number behind a word of the case's arguments, or another. */
static uint32_t setting(const char *folder, const char *word, uint32_t other)
{
    char args[256];
    size_t n = load(folder, "args", (uint8_t *)args, sizeof args - 1);
    char *found;
    args[n] = 0;
    found = strstr(args, word);
    return found ? (uint32_t)strtoul(found + strlen(word), NULL, 10) : other;
}

static size_t starts[KEPT], lengths[KEPT], froms[KEPT], sizes[KEPT];
static uint32_t answers[KEPT * SGML_ANSWER_SIZE];

static int is_offered(uint32_t length, uint32_t edition)
{
    return SGML_NAMELEN <= length && length <= SGML_MOST_NAMELEN && SGML_FIRST_EDITION <= edition && edition <= SGML_SECOND_EDITION;
}

/* Each of the n answers and its stretch is the single call's, and the rest of the buffer is as it was. */
static int are_single(size_t t, size_t end, size_t n, uint32_t length, uint32_t edition)
{
    static const uint8_t none[SGML_DOCUMENT_LIMIT + 1];
    uint32_t own[SGML_ANSWER_SIZE];
    size_t k;
    int is_right = 1;
    memset(expected, 0xA5, sizeof expected);
    for (k = 0; k < n; k++) {
        int passes = lengths[k] > end - starts[k];
        is_right &= sgml_read(type, t, passes ? none : string + starts[k], passes ? sizeof none : lengths[k], expected + froms[k], sizes[k], own, length, edition) == own[0];
        is_right &= !memcmp(own, answers + SGML_ANSWER_SIZE * k, sizeof own);
    }
    return is_right && !memcmp(buffer, expected, sizeof buffer);
}

/* The whole buffer is zero, and the answers are as they were. */
static int are_untold(void)
{
    size_t k;
    int is_right = 1;
    for (k = 0; k < sizeof answers / sizeof *answers; k++)
        is_right &= answers[k] == 0xA5A5A5A5;
    memset(expected, 0, sizeof expected);
    return is_right && !memcmp(buffer, expected, sizeof buffer);
}

int main(int argc, char **argv)
{
    size_t i, k, end = 0;
    uint32_t answer[SGML_ANSWER_SIZE];
    int passed = 0, failed = 0;
    for (i = 1; i < (size_t)argc; i++) {
        size_t slot = (i - 1) % KEPT, n = i < KEPT ? i : KEPT, t = load(argv[i], "type.sgm", type, sizeof type);
        uint32_t length = setting(argv[i], "namelen ", SGML_NAMELEN), edition = setting(argv[i], "edition ", SGML_FIRST_EDITION), number;
        int is_right;
        where[slot] = slot * LONGEST;
        kept[slot] = load(argv[i], "doc.sgm", string + where[slot], LONGEST);
        if (where[slot] + kept[slot] > end)
            end = where[slot] + kept[slot];
        for (k = 0; k < n; k++) {
            size_t j = (k * 7 + i) % n;
            starts[k] = where[j];
            lengths[k] = kept[j];
            if (n > 5 && k % 11 == 5)
                lengths[k] = end - starts[k] + 1; /* passes the end */
            froms[k] = ((k * 5 + 3) % KEPT) * (STRETCH + GUARD);
            sizes[k] = STRETCH;
        }
        memset(buffer, 0xA5, sizeof buffer);
        memset(answers, 0xA5, sizeof answers);
        number = sgml_read_batch(type, t, string, end, starts, n, lengths, n, buffer, sizeof buffer, froms, n, sizes, n, answers, SGML_ANSWER_SIZE * n, answer, length, edition);
        is_right = is_offered(length, edition) ? number == SGML_ACCEPTED && are_single(t, end, n, length, edition) : number == SGML_ERR_SETTINGS && are_untold();
        if (!is_right)
            printf("failed: %s\n", argv[i]);
        is_right ? passed++ : failed++;
    }
    printf("%d passed, %d failed\n", passed, failed);
    return failed != 0 || passed == 0;
}
