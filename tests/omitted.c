/* omitted.c - holds the reader against listed cases: lines "type ..", lines "doc  ..", then what the small program prints, up to an
 * empty line. Lines of one kind are joined by byte 10; a case without a type file has that of the case before. A line "edition 2" before the
 * document has it read in edition 2, its lines joined by bytes 13 and 10: a record end, and the start of the next record. */
#include "sgml.h"
#include <stdio.h>
#include <string.h>

#define TEXT 8192
#define LENT (4 * 20480)

static char type[TEXT], document[TEXT], expected[TEXT], printed[TEXT];
static uint32_t edition = SGML_FIRST_EDITION;

/* Adds a line to a text, after this if it is not the first. */
static void add_behind(char *text, const char *between, const char *line)
{
    size_t used = strlen(text);
    snprintf(text + used, TEXT - used, "%s%s", used ? between : "", line);
}

static void add_line(char *text, const char *line)
{
    add_behind(text, "\n", line);
}

/* An element's name in upper case, by the judge's record of it. */
static void name_of(uint32_t element, char name[SGML_NAMELEN + 1])
{
    static uint8_t records[SGML_MOST_RECORD_BYTES];
    uint32_t answer[SGML_ANSWER_SIZE];
    if (sgml_judge((const uint8_t *)type, strlen(type), records, sizeof records, answer, SGML_NAMELEN, SGML_FIRST_EDITION) == SGML_ACCEPTED)
        sgml_copy_name((const uint8_t *)type, records, answer[SGML_ANSWER_COUNT], element, name, SGML_NAMELEN + 1);
}

/* What the small program prints of the type file and the document at hand. */
static void print_reading(void)
{
    static uint8_t buffer[LENT];
    uint32_t answer[SGML_ANSWER_SIZE], k;
    char line[80], name[SGML_NAMELEN + 1];
    printed[0] = 0;
    if (sgml_read((const uint8_t *)type, strlen(type), (const uint8_t *)document, strlen(document), buffer, sizeof buffer, answer, SGML_NAMELEN, edition)) {
        snprintf(line, sizeof line, "refused %u in %s at %u", (unsigned)answer[SGML_ANSWER_NUMBER],
                 answer[SGML_ANSWER_INPUT] == SGML_IN_TYPE ? "type" : "document", (unsigned)answer[SGML_ANSWER_POSITION]);
        add_line(printed, line);
        return;
    }
    snprintf(line, sizeof line, "events %u", (unsigned)answer[SGML_ANSWER_COUNT]);
    add_line(printed, line);
    for (k = 0; k < answer[SGML_ANSWER_COUNT]; k++) {
        struct sgml_event event = sgml_event_at(buffer, k);
        strcpy(name, "-");
        if (event.kind != SGML_KIND_DATA)
            name_of(event.element, name);
        snprintf(line, sizeof line, "%u %s %u %u", (unsigned)event.kind, name, (unsigned)event.offset, (unsigned)event.length);
        add_line(printed, line);
    }
}

/* Runs the case at hand; 1 if it passed. */
static int passes(void)
{
    int same;
    print_reading();
    same = strcmp(printed, expected) == 0;
    if (!same)
        printf("%s\n%s\nexpected\n%s\nprinted\n%s\n\n", type, document, expected, printed);
    return same;
}

int main(int argc, char **argv)
{
    static char line[TEXT];
    int passed = 0, failed = 0, more = 1, fresh = 1;
    FILE *file = argc == 2 ? fopen(argv[1], "r") : NULL;
    if (!file)
        return 2;
    while (more) {
        /* The end of the file ends the last case as an empty line does. */
        more = fgets(line, sizeof line, file) != NULL;
        line[more ? strcspn(line, "\n") : 0] = 0;
        if (line[0] == 0 && expected[0]) {
            if (passes())
                passed++;
            else
                failed++;
            document[0] = expected[0] = 0;
            edition = SGML_FIRST_EDITION;
            fresh = 1;
        } else if (strncmp(line, "type ", 5) == 0) {
            if (fresh)
                type[0] = 0;
            fresh = 0;
            add_line(type, line + 5);
        } else if (strcmp(line, "edition 2") == 0) {
            edition = SGML_SECOND_EDITION;
        } else if (strncmp(line, "doc  ", 5) == 0) {
            add_behind(document, edition == SGML_SECOND_EDITION ? "\r\n" : "\n", line + 5);
        } else if (line[0] && line[0] != '#') {
            add_line(expected, line);
        }
    }
    fclose(file);
    printf("%d passed, %d failed\n", passed, failed);
    return failed != 0 || passed == 0;
}
