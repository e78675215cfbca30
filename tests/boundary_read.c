/* boundary_read.c - the reader's C boundary: null and empty slices, buffers of every length modulo 20, which an event has, exactly enough
 * room and one number or byte short, guard bytes around every slice, both inputs as they were, and the odd bytes at the end; lengths of names. With an argument
 * there are no guards. */
#include "check.h"

static const char stock[] = "<!ELEMENT LIST O O (ITEM+)><!ELEMENT ITEM O O (NAME,QTY?)>"
                            "<!ELEMENT NAME O O (#PCDATA)><!ELEMENT QTY - O (#PCDATA)>";
static const char clamp[] = "clamp<QTY>40<ITEM>tape";
/* the events of clamp under stock, from the paper's shelf, with the places that their starts took */
static const uint32_t clamp_events[] = {
    2, 1, 0,  0, 0, 2, 2, 0,  0, 1, 2, 3, 0,  0, 1, 5, 0, 0,  5, 0, 4, 3, 5,  0, 0, 1, 4, 5,  5, 2, 5, 0, 10, 2, 0, 4, 4, 12, 0, 0,
    4, 2, 12, 0, 0, 1, 2, 12, 6, 1, 2, 3, 18, 0, 1, 5, 0, 18, 4, 0, 4, 3, 22, 0, 0, 4, 2, 22, 0, 0, 4, 1, 22, 0, 0,
};
/* one element after the other in the order of a model's names, and each at its place */
static const char row[] = "<!ELEMENT R - O (A?,(B|C),A?,E*)><!ELEMENT A - O EMPTY><!ELEMENT B - O EMPTY><!ELEMENT C - O EMPTY><!ELEMENT E - O EMPTY>";

static int are_clamp_events(const uint8_t *buffer)
{
    size_t k;
    for (k = 0; k < sizeof clamp_events / 4; k++)
        if (sgml_number(buffer, k) != clamp_events[k])
            return 0;
    return 1;
}

/* The places of the starts that a document has under row, as digits. */
static void check_places(const char *text, const char *places)
{
    uint32_t answer[SGML_ANSWER_SIZE];
    uint8_t buffer[40 * SGML_EVENT_BYTES];
    char found[48] = "";
    size_t k, n = 0;
    check(sgml_read((const uint8_t *)row, strlen(row), (const uint8_t *)text, strlen(text), buffer, sizeof buffer, answer, SGML_NAMELEN, SGML_FIRST_EDITION) == SGML_ACCEPTED, text);
    for (k = 0; k < answer[SGML_ANSWER_COUNT] && k < 40; k++) {
        struct sgml_event e = sgml_event_at(buffer, k);
        if (e.kind == SGML_KIND_START || e.kind == SGML_KIND_START_INFERRED)
            found[n++] = (char)('0' + e.place);
        else
            check(e.place == 0, "no place but of a start");
    }
    check(!strcmp(found, places), places);
}

/* What the buffer holds after an answer, and what the answer says beside its number. */
static void check_answer(const uint32_t *answer, struct slice buffer)
{
    size_t used = answer[SGML_ANSWER_COUNT] * SGML_EVENT_SIZE * 4;
    if (answer[SGML_ANSWER_NUMBER]) {
        check(all(buffer.bytes, buffer.length, 0), "a refusal zeroes the whole buffer, odd bytes too");
        check(answer[SGML_ANSWER_COUNT] == 0, "no events with a refusal");
        check(answer[SGML_ANSWER_NUMBER] != SGML_ERR_SETTINGS || (answer[SGML_ANSWER_INPUT] == SGML_IN_TYPE && answer[SGML_ANSWER_POSITION] == 0),
              "24 stands in the type at 0");
        check(answer[SGML_ANSWER_INPUT] == SGML_IN_TYPE || answer[SGML_ANSWER_INPUT] == SGML_IN_DOCUMENT, "a refusal names an input");
    } else {
        check(answer[SGML_ANSWER_INPUT] == SGML_IN_NEITHER && answer[SGML_ANSWER_POSITION] == 0, "input and position of an acceptance");
        check(used <= buffer.length && all(buffer.bytes + used, buffer.length - used, FILL), "what lies behind is as it was");
    }
    check(answer[SGML_ANSWER_NUMBER] == SGML_ERR_AMBIGUOUS || (answer[SGML_ANSWER_FIRST] == 0 && answer[SGML_ANSWER_SECOND] == 0),
          "places only under 9");
}

/* Reads a document into a fresh buffer of `room` bytes, and checks what must hold whatever the answer. */
static uint32_t number_with(uint32_t name_length, const char *type_text, const char *text, size_t room, size_t skew)
{
    struct slice type = lend(type_text, strlen(type_text), (skew + 1) % 4), document = lend(text, strlen(text), (skew + 3) % 4);
    struct slice buffer = lend(NULL, room, skew), lent = lend(NULL, 4 * SGML_ANSWER_SIZE, 0);
    uint32_t *answer = (uint32_t *)(void *)lent.bytes, number;
    number = sgml_read(type.bytes, type.length, document.bytes, document.length, buffer.bytes, room, answer, name_length, SGML_FIRST_EDITION);
    check(number == answer[SGML_ANSWER_NUMBER], "the call gives back the answer's number");
    check_answer(answer, buffer);
    if (text == clamp && !number)
        check(answer[SGML_ANSWER_COUNT] == 15 && are_clamp_events(buffer.bytes), "the events of the shelf's document");
    check(!memcmp(type.bytes, type_text, type.length), "the type file is as it was");
    check(!memcmp(document.bytes, text, document.length), "the document is as it was");
    check(is_whole(type), "guards of the type file");
    check(is_whole(document), "guards of the document");
    check(is_whole(buffer), "guards of the buffer");
    check(is_whole(lent), "guards of the answer");
    return number;
}

static uint32_t number_of(const char *type_text, const char *text, size_t room, size_t skew)
{
    return number_with(SGML_NAMELEN, type_text, text, room, skew);
}

/* Tags with names of 1 to 40 bytes under each length. The element has the longest name that is allowed, so a shorter one is not
 * declared. */
static void check_lengths(void)
{
    static const char letters[] = "ABCDEFGHIJKLMNOPQRSTUVWXYZabcdefghijklmn";
    static char too_long[SGML_TYPE_LIMIT + 2];
    char type[80], document[64];
    uint32_t k, n;
    memset(too_long, ' ', SGML_TYPE_LIMIT + 1);
    for (k = 0; k < LENGTHS; k++) {
        uint32_t length = length_at(k);
        int is_offered = length >= SGML_NAMELEN && length <= SGML_MOST_NAMELEN;
        uint32_t above = is_offered ? SGML_ERR_NAME_TOO_LONG : SGML_ERR_SETTINGS, below = is_offered ? SGML_ERR_UNDECLARED : SGML_ERR_SETTINGS;
        snprintf(type, sizeof type, "<!ELEMENT %.*s - O EMPTY>", is_offered ? (int)length : 8, letters);
        for (n = 1; n <= 40; n++) {
            snprintf(document, sizeof document, "<%.*s>", (int)n, letters);
            check(number_with(length, type, document, 2 * SGML_EVENT_BYTES + n, n % 4) ==
                      (is_offered && n == length ? SGML_ACCEPTED : n < length ? below : above),
                  "a tag of every length");
        }
        check(number_with(length, too_long, "", 5, 0) == (is_offered ? SGML_ERR_TOO_LONG : SGML_ERR_SETTINGS), "24 comes before 1");
        check(number_with(length, "", "\001", 5, 0) == (is_offered ? SGML_ERR_BYTE : SGML_ERR_SETTINGS), "24 comes before 2");
    }
}

static void check_rooms(void)
{
    const size_t enough = sizeof clamp_events;
    size_t room, skew;
    for (skew = 0; skew < 4; skew++) {
        for (room = 0; room < enough + 2 * SGML_EVENT_BYTES; room++)
            check(number_of(stock, clamp, room, skew) == (room / 4 < enough / 4 ? SGML_ERR_NO_ROOM : 0), "19 exactly if it does not fit");
        for (room = 0; room < SGML_EVENT_BYTES; room++) {
            check(number_of(stock, "<LIST></LIST>", room, skew) == SGML_ERR_INCOMPLETE, "13 comes before 19");
            check(number_of(stock, "a\001", room, skew) == SGML_ERR_BYTE, "2 comes before 19");
            check(number_of(stock, "", room, skew) == SGML_ERR_NO_DOCUMENT, "18 comes before 19");
            check(number_of("<!ELEMENT A - O (B?,B)>", clamp, room, skew) == SGML_ERR_AMBIGUOUS, "9 comes before 19");
            check(number_of("", clamp, room, skew) == SGML_ERR_ELEMENTS, "8 comes before 19");
        }
    }
}

/* The whole answer to slices given as they are. */
static void check_slices(const char *type, size_t type_len, const char *document, size_t document_len, uint32_t number,
                         uint32_t input, uint32_t position, const char *what)
{
    uint32_t answer[SGML_ANSWER_SIZE];
    memset(answer, FILL, sizeof answer);
    check(sgml_read((const uint8_t *)type, type_len, (const uint8_t *)document, document_len, NULL, 0, answer, SGML_NAMELEN, SGML_FIRST_EDITION) == number, what);
    check(answer[SGML_ANSWER_NUMBER] == number && answer[SGML_ANSWER_INPUT] == input && answer[SGML_ANSWER_POSITION] == position &&
              answer[SGML_ANSWER_FIRST] == 0 && answer[SGML_ANSWER_SECOND] == 0 && answer[SGML_ANSWER_COUNT] == 0, what);
}

int main(int argc, char **argv)
{
    const size_t n = sizeof stock - 1, m = sizeof clamp - 1;
    (void)argv;
    if (argc > 1)
        guard = 0;
    check_rooms();
    check_places("<R><B>", "02");
    check_places("<R><A><B>", "012");
    check_places("<R><B><A>", "024");
    check_places("<R><A><C><A><E><E>", "013455");
    check_places("<R><C></R>", "03");
    check_lengths();
    check_slices(NULL, 0, NULL, 0, SGML_ERR_ELEMENTS, SGML_IN_TYPE, 0, "all null");
    check_slices(stock, 0, clamp, 0, SGML_ERR_ELEMENTS, SGML_IN_TYPE, 0, "all empty");
    check_slices(NULL, 0, clamp, m, SGML_ERR_ELEMENTS, SGML_IN_TYPE, 0, "null type file");
    check_slices(stock, n, NULL, 0, SGML_ERR_NO_DOCUMENT, SGML_IN_DOCUMENT, 0, "null document");
    check_slices(stock, n, clamp, m, SGML_ERR_NO_ROOM, SGML_IN_DOCUMENT, 0, "null buffer");
    check_slices(stock, n, stock, n, SGML_ERR_LEFT_OUT, SGML_IN_DOCUMENT, 0, "one slice for both inputs");
    check_slices(stock, n, stock + n, 0, SGML_ERR_NO_DOCUMENT, SGML_IN_DOCUMENT, 0, "an empty document at the type file's end");
    return told();
}
