/* numbers.c - holds the reader against vectors that have a file numbers: the numbers of each event, a line each. They stand so in the lent buffer
 * where there is just room for them, behind them a byte more stays as it was, and a byte less is number 19. A file args gives the length of
 * names where it is not 8. */
#include "check.h"

static uint8_t type[70000], document[70000];
static uint32_t numbers[200000];

static FILE *opened(const char *folder, const char *name)
{
    char path[512];
    snprintf(path, sizeof path, "%s/%s", folder, name);
    return fopen(path, "rb");
}

static size_t content_of(const char *folder, const char *name, uint8_t *to, size_t room)
{
    FILE *file = opened(folder, name);
    size_t n = file ? fread(to, 1, room, file) : 0;
    check(file != NULL, folder);
    if (file)
        fclose(file);
    return n;
}

static size_t numbers_of(const char *folder)
{
    FILE *file = opened(folder, "numbers");
    unsigned number;
    size_t n = 0;
    if (!file)
        return 0;
    while (n < sizeof numbers / sizeof *numbers && fscanf(file, "%u", &number) == 1)
        numbers[n++] = number;
    fclose(file);
    check(n && n % SGML_EVENT_SIZE == 0, folder);
    return n;
}

/* The number behind this word in the file args; the one given where there is none. */
static uint32_t setting_of(const char *folder, const char *word, uint32_t otherwise)
{
    FILE *file = opened(folder, "args");
    char found[16];
    unsigned number;
    while (file && fscanf(file, "%15s %u", found, &number) == 2)
        if (!strcmp(found, word))
            otherwise = number;
    if (file)
        fclose(file);
    return otherwise;
}

static int are_numbers(const uint8_t *buffer, size_t n)
{
    size_t k;
    for (k = 0; k < n; k++)
        if (sgml_number(buffer, k) != numbers[k])
            return 0;
    return 1;
}

int main(int argc, char **argv)
{
    int i;
    for (i = 1; i < argc; i++) {
        size_t n = numbers_of(argv[i]), used = 4 * n, t, d;
        uint32_t answer[SGML_ANSWER_SIZE], length = setting_of(argv[i], "namelen", SGML_NAMELEN), edition = setting_of(argv[i], "edition", SGML_FIRST_EDITION);
        struct slice buffer;
        if (!n)
            continue;
        t = content_of(argv[i], "type.sgm", type, sizeof type);
        d = content_of(argv[i], "doc.sgm", document, sizeof document);
        buffer = lend(NULL, used + 1, 0);
        check(sgml_read(type, t, document, d, buffer.bytes, used + 1, answer, length, edition) == 0 && answer[SGML_ANSWER_COUNT] == n / SGML_EVENT_SIZE, argv[i]);
        check(are_numbers(buffer.bytes, n) && buffer.bytes[used] == FILL, argv[i]);
        check(is_whole(buffer), argv[i]);
        buffer = lend(NULL, used - 1, 0);
        check(sgml_read(type, t, document, d, buffer.bytes, used - 1, answer, length, edition) == SGML_ERR_NO_ROOM && all(buffer.bytes, used - 1, 0), argv[i]);
        check(is_whole(buffer), argv[i]);
    }
    return told();
}
