/* judge.c - judges a type file and prints its element records, or where and why it is refused. */
#include "sgml.h"
#include <errno.h>
#include <stdio.h>
#include <string.h>

static uint8_t type[SGML_TYPE_LIMIT + 1], records[SGML_MOST_RECORD_BYTES]; /* a byte more: a file that is too long is refused */

static int refused(const uint32_t *answer)
{
    printf("refused %u in type at %u: %s", (unsigned)answer[SGML_ANSWER_NUMBER], (unsigned)answer[SGML_ANSWER_POSITION],
           sgml_refusal_text(answer[SGML_ANSWER_NUMBER]));
    if (answer[SGML_ANSWER_NUMBER] == SGML_ERR_AMBIGUOUS)
        printf(", places %u and %u", (unsigned)answer[SGML_ANSWER_FIRST], (unsigned)answer[SGML_ANSWER_SECOND]);
    printf("\n");
    return 1;
}

int main(int argc, char **argv)
{
    uint32_t answer[SGML_ANSWER_SIZE], k;
    char name[SGML_NAMELEN + 1];
    FILE *file;
    size_t length;
    if (argc != 2) {
        fprintf(stderr, "usage: judge TYPE-FILE\n");
        return 2;
    }
    file = fopen(argv[1], "rb");
    if (!file) {
        fprintf(stderr, "judge: %s: %s\n", argv[1], strerror(errno));
        return 2;
    }
    length = fread(type, 1, sizeof type, file);
    fclose(file);
    if (sgml_judge(type, length, records, sizeof records, answer, SGML_NAMELEN, SGML_FIRST_EDITION))
        return refused(answer);
    printf("elements %u\n", (unsigned)answer[SGML_ANSWER_COUNT]);
    for (k = 0; k < answer[SGML_ANSWER_COUNT]; k++) {
        struct sgml_record r = sgml_record_at(records, k);
        sgml_copy_name(type, records, answer[SGML_ANSWER_COUNT], k + 1, name, sizeof name);
        printf("%s %c %c ", name, r.start_tag ? 'O' : '-', r.end_tag ? 'O' : '-');
        if (r.content)
            printf("model of %u content tokens\n", (unsigned)r.tokens);
        else
            printf("EMPTY\n");
    }
    return 0;
}
