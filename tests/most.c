/* most.c - documents that bring as many events as SGML_MOST_EVENTS says, or nearly: the macro is enough and not far too large.
 * Tag Z and data "." bring 23 starts each, by turns, and each calls for the ends of those before. A round begins with tag P, since
 * nothing can be required where a repeated group begins again. Where each element has a list, every start brings its defaults. With "time" the longest of them is read, and a type file judged that
 * takes long, and the times are told. */
#define _POSIX_C_SOURCE 199309L
#include "check.h"
#include <time.h>

#define PAIRS 45 /* of Q and R in a round: with P, the groups and the first R the model has SGML_GRPGTCNT content tokens */

static char type[SGML_TYPE_LIMIT], document[SGML_DOCUMENT_LIMIT];
static size_t type_len, document_len;

static void declare(const char *text)
{
    type_len += (size_t)sprintf(type + type_len, "%s", text);
}

/* Elements that hold each other, the last one what is said. */
static void declare_chain(const char *name, char inner, int depth, const char *last)
{
    char text[64];
    int i;
    sprintf(text, "<!ELEMENT %s O O (%c1)>", name, inner);
    declare(text);
    for (i = 1; i < depth; i++) {
        sprintf(text, "<!ELEMENT %c%d O O (%c%d)>", inner, i, inner, i + 1);
        declare(text);
    }
    sprintf(text, "<!ELEMENT %c%d O O (%s)>", inner, depth, last);
    declare(text);
}

/* Q leads to Z, 22 below the document element, and R to data, 23 below it. The content of the document element is given. */
static void make_type(const char *content)
{
    type_len = 0;
    declare("<!ELEMENT D O O ");
    declare(content);
    declare(">");
    declare_chain("Q", 'C', 21, "Z");
    declare_chain("R", 'B', 22, "#PCDATA");
    declare("<!ELEMENT Z - O EMPTY><!ELEMENT P - O EMPTY>");
}

/* Each of these elements gets as many attributes as there may be, all with a default. */
static void declare_lists(void)
{
    char name[8];
    int k, a;
    for (k = 0; k < 48; k++) {
        if (k < 5)
            sprintf(name, "%c", "DQRZP"[k]);
        else
            sprintf(name, "%c%d", k < 26 ? 'C' : 'B', k < 26 ? k - 4 : k - 25);
        type_len += (size_t)sprintf(type + type_len, "<!ATTLIST %s", name);
        for (a = 0; a < SGML_ATTCNT; a++)
            type_len += (size_t)sprintf(type + type_len, " A%d CDATA ''", a);
        declare(">");
    }
}

static void make_rounds_type(void)
{
    static const int sizes[] = { 32, 32, 26 };
    char content[1024] = "(R,(P";
    int g, k;
    for (g = 0; g < 3; g++) {
        strcat(content, ",(");
        for (k = 0; k < sizes[g]; k++)
            strcat(content, k % 2 ? ",R" : k ? ",Q" : "Q");
        strcat(content, ")");
    }
    strcat(content, ")+)");
    make_type(content);
}

/* "." and then as many pairs "<Z>." */
static void put_pairs(int pairs)
{
    while (pairs--) {
        memcpy(document + document_len, "<Z>.", 4);
        document_len += 4;
    }
}

static uint32_t count_in(size_t room, uint32_t *number)
{
    uint32_t answer[SGML_ANSWER_SIZE];
    uint8_t *buffer = malloc(room);
    if (!buffer)
        abort();
    *number = sgml_read((const uint8_t *)type, type_len, (const uint8_t *)document, document_len, buffer, room, answer, SGML_NAMELEN, SGML_FIRST_EDITION);
    free(buffer);
    return answer[SGML_ANSWER_COUNT];
}

/* The document is accepted with so many events, and the macro's room is enough; most is what it says. */
static void check_count(size_t least, size_t most)
{
    uint32_t number, count = count_in(SGML_EVENT_BYTES * most, &number);
    check(number == 0, "the room that the macro says is enough");
    check(count <= most && count >= least, "as many events as were worked out");
}

static void make_longest(void)
{
    make_rounds_type();
    document_len = 1;
    document[0] = '.';
    while (document_len + 3 + 4 * PAIRS <= sizeof document) {
        memcpy(document + document_len, "<P>", 3);
        document_len += 3;
        put_pairs(PAIRS);
    }
}

static uint32_t read_longest(void)
{
    uint32_t number;
    return count_in(SGML_EVENT_BYTES * SGML_MOST_EVENTS_WITH(document_len, 0), &number);
}

static uint32_t judge_type(void)
{
    uint8_t records[SGML_MOST_RECORD_BYTES];
    uint32_t answer[SGML_ANSWER_SIZE];
    return sgml_judge((const uint8_t *)type, type_len, records, sizeof records, answer, SGML_NAMELEN, SGML_FIRST_EDITION) ? 0 : answer[SGML_ANSWER_COUNT];
}

/* As many models as there may be, each of one name 93 times: each two of its places are compared. */
static void make_same_type(void)
{
    int k, g, n;
    type_len = 0;
    for (k = 0; k < SGML_ELEMENT_LIMIT; k++) {
        type_len += (size_t)sprintf(type + type_len, "<!ELEMENT E%d - O (", k);
        for (g = 0; g < 3; g++) {
            declare(g ? ",(A" : "(A");
            for (n = 1; n < 31; n++)
                declare(",A");
            declare(")");
        }
        declare(")>");
    }
}

/* The best time of some calls, in milliseconds. */
static double best_of(uint32_t (*call)(void), uint32_t *count)
{
    double best = 1e9;
    int k;
    for (k = 0; k < 30; k++) {
        struct timespec a, b;
        double taken;
        clock_gettime(CLOCK_MONOTONIC, &a);
        *count = call();
        clock_gettime(CLOCK_MONOTONIC, &b);
        taken = (double)(b.tv_sec - a.tv_sec) * 1e3 + (double)(b.tv_nsec - a.tv_nsec) / 1e6;
        if (taken < best)
            best = taken;
    }
    return best;
}

static void tell_times(void)
{
    uint32_t count;
    double best = best_of(read_longest, &count);
    printf("%zu bytes, %u events of at most %zu: %.2f ms\n", document_len, (unsigned)count, SGML_MOST_EVENTS_WITH(document_len, 0), best);
    make_same_type();
    best = best_of(judge_type, &count);
    printf("type file of %zu bytes, %u elements: %.2f ms\n", type_len, (unsigned)count, best);
}

int main(int argc, char **argv)
{
    char content[256] = "(R";
    int pairs;
    document[0] = '.';
    for (pairs = 0; pairs < 15; pairs++) {
        char whole[260];
        sprintf(whole, "%s)", content);
        make_type(whole);
        document_len = 1;
        put_pairs(pairs);
        check_count(SGML_MOST_EVENTS_WITH(document_len, 0), SGML_MOST_EVENTS_WITH(document_len, 0));
        declare_lists();
        check_count(SGML_MOST_EVENTS(document_len), SGML_MOST_EVENTS(document_len));
        strcat(content, ",Q,R");
    }
    make_longest();
    if (argc > 1 && !strcmp(argv[1], "time")) {
        tell_times();
        return 0;
    }
    check_count(SGML_MOST_EVENTS_WITH(document_len, 0) / 100 * 98, SGML_MOST_EVENTS_WITH(document_len, 0));
    return told();
}
