/* boundary_batch.c - the batch's C boundary: each answer and each stretch beside the single call's, guard bytes between stretches, lists of 0, 1, 200 and 201
 * documents, stretches in any order, touching, sharing a byte, passing the end by one, sums past what a size_t holds, lists of unequal length, the order of
 * refusals with a type that is refused, lengths of names and editions; a call that is refused as a whole leaves a buffer of zeros and the answers as they were. */
#include "check.h"

enum { MOST = SGML_BATCH_LIMIT + 1, ROOM = 4096 };

static const char stock[] = "<!ELEMENT LIST O O (ITEM+)><!ELEMENT ITEM O O (NAME,QTY?)>"
                            "<!ELEMENT NAME O O (#PCDATA)><!ELEMENT QTY - O (#PCDATA)>";
/* documents that are good and faulty, one behind the other; one is empty */
static const char *const parts[] = { "clamp<QTY>40<ITEM>tape", "x", "", "<NO>", "a\x7f", "a<QTY>1<QTY>2", "swab<ITEM>tape<ITEM>clip", "</LIST>", "a</ITEM" };
enum { PARTS = sizeof parts / sizeof *parts };

static char string[1024], dirty[sizeof stock + 1], longer[SGML_TYPE_LIMIT + 1];
static size_t string_len;
static size_t starts[MOST], lengths[MOST], froms[MOST], sizes[MOST];
static uint8_t buffer[MOST * ROOM];
static uint32_t answers[MOST * SGML_ANSWER_SIZE];
static uint32_t edition = SGML_FIRST_EDITION;

static uint32_t batch(const char *type, size_t type_len, size_t n, uint32_t *answer, uint32_t name_length)
{
    memset(buffer, FILL, sizeof buffer);
    memset(answers, FILL, sizeof answers);
    memset(answer, FILL, SGML_ANSWER_SIZE * sizeof *answer);
    return sgml_read_batch((const uint8_t *)type, type_len, (const uint8_t *)string, string_len, starts, n, lengths, n, buffer, sizeof buffer, froms, n, sizes, n,
                           answers, SGML_ANSWER_SIZE * n, answer, name_length, edition);
}

static void check_refused(uint32_t number, const uint32_t *answer, uint32_t expected)
{
    check(number == expected && answer[SGML_ANSWER_NUMBER] == expected, "the whole call is refused");
    check(answer[SGML_ANSWER_INPUT] == SGML_IN_TYPE && answer[SGML_ANSWER_POSITION] == 0 && answer[SGML_ANSWER_FIRST] == 0 && answer[SGML_ANSWER_SECOND] == 0
              && answer[SGML_ANSWER_COUNT] == 0,
          "in the type at 0");
    check(all(buffer, sizeof buffer, 0), "the buffer is zero");
    check(all((const uint8_t *)answers, sizeof answers, FILL), "the answers are as they were");
}

/* The n documents as the single calls have them, and every byte outside the stretches as it was; or all of it refused, where the settings are not offered. */
static void check_single(const char *type, size_t type_len, size_t n, uint32_t name_length)
{
    static uint8_t expected[sizeof buffer];
    uint32_t answer[SGML_ANSWER_SIZE], own[SGML_ANSWER_SIZE];
    size_t i;
    uint32_t number = batch(type, type_len, n, answer, name_length);
    if (!(SGML_NAMELEN <= name_length && name_length <= SGML_MOST_NAMELEN && SGML_FIRST_EDITION <= edition && edition <= SGML_SECOND_EDITION)) {
        check_refused(number, answer, SGML_ERR_SETTINGS);
        return;
    }
    check(number == SGML_ACCEPTED, "the lists are fit");
    check(answer[SGML_ANSWER_NUMBER] == 0 && answer[SGML_ANSWER_INPUT] == 0 && answer[SGML_ANSWER_POSITION] == 0 && answer[SGML_ANSWER_FIRST] == 0
              && answer[SGML_ANSWER_SECOND] == 0 && answer[SGML_ANSWER_COUNT] == n,
          "the whole answer");
    memset(expected, FILL, sizeof expected);
    for (i = 0; i < n; i++) {
        if (starts[i] <= string_len && lengths[i] <= string_len - starts[i]) {
            number = sgml_read((const uint8_t *)type, type_len, (const uint8_t *)string + starts[i], lengths[i], expected + froms[i], sizes[i], own, name_length, edition);
            check(number == own[SGML_ANSWER_NUMBER], "the single call");
        } else {
            static const uint8_t none[SGML_DOCUMENT_LIMIT + 1];
            check(sgml_read((const uint8_t *)type, type_len, none, sizeof none, expected + froms[i], sizes[i], own, name_length, edition) != 0, "a document that is too long");
        }
        check(!memcmp(own, answers + SGML_ANSWER_SIZE * i, sizeof own), "an answer is the single call's");
    }
    check(!memcmp(expected, buffer, sizeof buffer), "stretches are the single calls', and the rest stays");
    check(all((const uint8_t *)(answers + SGML_ANSWER_SIZE * n), sizeof answers - SGML_ANSWER_SIZE * n * sizeof *answers, FILL), "no answer behind the last");
}

static void refused(size_t n)
{
    uint32_t answer[SGML_ANSWER_SIZE], number = batch(stock, sizeof stock - 1, n, answer, SGML_NAMELEN);
    check_refused(number, answer, SGML_ERR_BATCH);
    number = batch(dirty, sizeof dirty, n, answer, SGML_NAMELEN);
    check_refused(number, answer, SGML_ERR_BATCH);
    number = batch(stock, sizeof stock - 1, n, answer, SGML_NAMELEN - 1);
    check_refused(number, answer, SGML_ERR_SETTINGS);
}

/* n documents in turn, in stretches with guard bytes between them. */
static void lay(size_t n)
{
    size_t i;
    for (i = 0; i < n; i++) {
        const char *part = parts[i % PARTS];
        lengths[i] = strlen(part);
        starts[i] = i % PARTS ? starts[i - 1] + lengths[i - 1] : 0;
        froms[i] = i * ROOM + 8;
        sizes[i] = i % 7 == 3 ? 40 : 600 + i % 5;
    }
}

/* Settings that no call takes, with lists that are fit and a stretch that leaves 80 of 200 bytes: all 200 are zeroed. */
static void not_offered(uint32_t name_length, uint32_t other)
{
    uint32_t answer[SGML_ANSWER_SIZE];
    size_t start = 0, length = string_len, from = 40, size = 120;
    memset(buffer, FILL, sizeof buffer);
    memset(answers, FILL, sizeof answers);
    check(sgml_read_batch((const uint8_t *)stock, sizeof stock - 1, (const uint8_t *)string, string_len, &start, 1, &length, 1, buffer, 200, &from, 1, &size, 1, answers,
                          SGML_ANSWER_SIZE, answer, name_length, other)
              == SGML_ERR_SETTINGS,
          "settings that no call takes");
    check(all(buffer, 200, 0), "the whole buffer is zero");
    check(all(buffer + 200, sizeof buffer - 200, FILL), "nothing behind it is");
    check(all((const uint8_t *)answers, sizeof answers, FILL), "the answers are as they were");
}

int main(void)
{
    uint32_t answer[SGML_ANSWER_SIZE];
    size_t i;
    for (i = 0; i < PARTS; i++) {
        strcpy(string + string_len, parts[i]);
        string_len += strlen(parts[i]);
    }
    memcpy(dirty, stock, sizeof stock);
    dirty[sizeof stock - 1] = dirty[sizeof stock] = 1;
    memset(longer, ' ', sizeof longer);

    /* lists of 0, 1, some, 200 and 201, under types that are accepted, refused for their bytes and too long */
    for (i = 0; i <= SGML_BATCH_LIMIT; i = i < 3 ? i + 1 : i < 30 ? 30 : i + 170) {
        lay(i);
        check_single(stock, sizeof stock - 1, i, SGML_NAMELEN);
        check_single(dirty, sizeof dirty, i, SGML_NAMELEN);
        check_single(longer, sizeof longer, i, SGML_NAMELEN);
        check_single("<!ELEMENT A - O (B,", 19, i, SGML_NAMELEN);
        check_single(stock, sizeof stock - 1, i, SGML_MOST_NAMELEN);
        check_single(stock, sizeof stock - 1, i, SGML_NAMELEN - 1);
        for (edition = 0; edition < 4; edition++)
            check_single(stock, sizeof stock - 1, i, SGML_NAMELEN);
        edition = SGML_FIRST_EDITION;
    }
    not_offered(SGML_NAMELEN - 1, SGML_FIRST_EDITION);
    not_offered(SGML_MOST_NAMELEN + 1, SGML_SECOND_EDITION);
    not_offered(SGML_NAMELEN, SGML_FIRST_EDITION - 1);
    not_offered(SGML_NAMELEN, SGML_SECOND_EDITION + 1);
    lay(MOST);
    refused(MOST);
    check(sgml_read_batch(NULL, 0, NULL, 0, NULL, 0, NULL, 0, NULL, 0, NULL, 0, NULL, 0, NULL, 0, answer, SGML_NAMELEN, SGML_FIRST_EDITION) == SGML_ACCEPTED, "no documents, null lists");

    /* stretches in reverse order, and touching */
    lay(9);
    for (i = 0; i < 9; i++) {
        froms[i] = (8 - i) * 700;
        sizes[i] = 700;
    }
    check_single(stock, sizeof stock - 1, 9, SGML_NAMELEN);
    /* one byte shared */
    sizes[5]++;
    refused(9);
    sizes[5]--;
    froms[2]--;
    refused(9);
    froms[2]++;
    /* the same stretch twice; one within another; both empty, which share nothing */
    froms[1] = froms[7];
    refused(9);
    froms[1] = froms[7] + 3;
    sizes[1] = 5;
    refused(9);
    sizes[1] = 0;
    check_single(stock, sizeof stock - 1, 9, SGML_NAMELEN);
    sizes[7] = 0;
    froms[1] = froms[7];
    check_single(stock, sizeof stock - 1, 9, SGML_NAMELEN);
    /* at the buffer's end, and one past it; empty at the end, and one behind it; sums past what a size_t holds */
    froms[1] = sizeof buffer - 100;
    sizes[1] = 100;
    check_single(stock, sizeof stock - 1, 9, SGML_NAMELEN);
    sizes[1]++;
    refused(9);
    sizes[1] = 0;
    froms[1] = sizeof buffer;
    check_single(stock, sizeof stock - 1, 9, SGML_NAMELEN);
    froms[1]++;
    refused(9);
    froms[1] = SIZE_MAX;
    sizes[1] = 2;
    refused(9);
    froms[1] = 10;
    sizes[1] = SIZE_MAX - 3;
    refused(9);
    /* parts at the string's end, one past it, and far past it; they may share bytes */
    lay(9);
    starts[0] = string_len;
    lengths[0] = 0;
    lengths[1] = string_len - starts[1];
    starts[2] = 0;
    lengths[2] = string_len;
    check_single(stock, sizeof stock - 1, 9, SGML_NAMELEN);
    lengths[0] = 1;
    lengths[1]++;
    starts[2] = string_len + 1;
    lengths[2] = 0;
    starts[3] = SIZE_MAX;
    lengths[3] = SIZE_MAX;
    starts[4] = 5;
    lengths[4] = SIZE_MAX - 4;
    starts[5] = SIZE_MAX;
    lengths[5] = 1;
    check_single(stock, sizeof stock - 1, 9, SGML_NAMELEN);
    check_single(dirty, sizeof dirty, 9, SGML_NAMELEN);
    check_single(longer, sizeof longer, 9, SGML_NAMELEN);
    check_single(stock, sizeof stock - 1, 9, SGML_NAMELEN - 1);

    /* lists of unequal length, and room for fewer and for more answers */
    lay(9);
    for (i = 0; i < 10; i++) {
        size_t k = 5 - i % 2, n = i / 2, number;
        memset(buffer, FILL, sizeof buffer);
        memset(answers, FILL, sizeof answers);
        k = i % 2 ? 4 : 6;
        number = sgml_read_batch((const uint8_t *)stock, sizeof stock - 1, (const uint8_t *)string, string_len, starts, n == 0 ? k : 5, lengths, n == 1 ? k : 5, buffer,
                                 sizeof buffer, froms, n == 2 ? k : 5, sizes, n == 3 ? k : 5, answers, n == 4 ? 30 + 2 * k - 10 : 30, answer, SGML_NAMELEN, edition);
        check_refused((uint32_t)number, answer, SGML_ERR_BATCH);
    }
    printf("%d passed, %d failed\n", passed, failed);
    return failed != 0;
}
