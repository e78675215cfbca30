/* messages.c - a program over what is installed: prints the message of a refusal, and lends what its
 * arguments say.
 *
 *   messages TYPE DOCUMENT [MEMORY [ROOM]] */
#include <sgml_messages.h>
#include <stdio.h>
#include <stdlib.h>

static size_t load(const char *name, uint8_t *bytes, size_t room)
{
    FILE *file = fopen(name, "rb");
    size_t length = file ? fread(bytes, 1, room, file) : 0;
    if (file)
        fclose(file);
    return length;
}

int main(int argc, char **argv)
{
    static uint8_t type[SGML_TYPE_LIMIT + 1], document[SGML_DOCUMENT_LIMIT + 1], events[65536];
    uint32_t answer[SGML_ANSWER_SIZE];
    size_t type_len, document_len, memory_len, room, length, from = 0, at = 0;
    struct sgml_refused r;
    struct sgml_position p;
    void *memory;
    char *text;
    if (argc < 3)
        return 2;
    type_len = load(argv[1], type, sizeof type);
    document_len = load(argv[2], document, sizeof document);
    memory_len = argc > 3 ? (size_t)atol(argv[3]) : (size_t)SGML_MESSAGE_MEMORY;
    room = argc > 4 ? (size_t)atol(argv[4]) : (size_t)SGML_MESSAGE_SIZE;
    if (!sgml_read(type, type_len, document, document_len, events, sizeof events, answer, SGML_NAMELEN,
                   SGML_FIRST_EDITION))
        return 0;
    memory = malloc(memory_len + 1);
    text = (char *)malloc(room + 1);
    if (!memory || !text)
        return 2;
    r.type_name = argv[1];
    r.type = type;
    r.type_length = type_len;
    r.document_name = argv[2];
    r.document = document;
    r.document_length = document_len;
    r.name_length = SGML_NAMELEN;
    r.edition = SGML_FIRST_EDITION;
    r.answer = answer;
    text[room] = 'x';
    length = sgml_message(&r, (uint8_t *)memory + 1, memory_len, text, room); /* with any alignment */
    if (text[room] != 'x')
        return 3;
    printf("%s\n", room ? text : "");
    if (argc > 4)
        printf("%lu\n", (unsigned long)length);
    p = answer[SGML_ANSWER_INPUT] == SGML_IN_TYPE
            ? sgml_position_of(type, type_len, answer[SGML_ANSWER_POSITION])
            : sgml_position_of(document, document_len, answer[SGML_ANSWER_POSITION]);
    if (argc == 3) {
        char line[256], warning[SGML_MESSAGE_SIZE];
        if (answer[SGML_ANSWER_INPUT] == SGML_IN_TYPE)
            sgml_source_line(type, type_len, answer[SGML_ANSWER_POSITION], line, sizeof line);
        else
            sgml_source_line(document, document_len, answer[SGML_ANSWER_POSITION], line, sizeof line);
        printf("%s", line);
        while (sgml_warning(&r, memory, memory_len, &from, &at, warning, sizeof warning)) {
            sgml_source_line(type, type_len, at, line, sizeof line);
            printf("%s\n%s", warning, line);
        }
        sgml_message_text(&r, memory, memory_len, text, room);
        printf("%lu:%lu %s\n", (unsigned long)p.line, (unsigned long)p.column, text);
    }
    free(memory);
    free(text);
    return 1;
}
