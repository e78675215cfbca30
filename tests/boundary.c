/* boundary.c - the judge's C boundary: null and empty slices, buffers of every length modulo 4, exactly enough room and one
 * number short, guard bytes around every slice, and the odd bytes at the end; lengths of names; then the helpers of the header. With an
 * argument there are no guards. */
#include "check.h"

/* Judges a type file into a fresh buffer of `room` bytes, and checks what must hold whatever the answer. */
static uint32_t judged_with(uint32_t name_length, const char *text, size_t room, size_t count)
{
    struct slice type = lend(text, strlen(text), room % 3), buffer = lend(NULL, room, room % 5);
    struct slice lent = lend(NULL, 4 * SGML_ANSWER_SIZE, 0);
    uint32_t *answer = (uint32_t *)(void *)lent.bytes, number;
    size_t used;
    number = sgml_judge(type.bytes, type.length, buffer.bytes, room, answer, name_length, SGML_FIRST_EDITION);
    check(number == answer[SGML_ANSWER_NUMBER], "the call gives back the answer's number");
    if (number) {
        check(all(buffer.bytes, room, 0), "a refusal zeroes the whole buffer, odd bytes too");
        check(answer[SGML_ANSWER_COUNT] == 0 && answer[SGML_ANSWER_INPUT] == SGML_IN_TYPE, "count and input of a refusal");
        check(number != SGML_ERR_SETTINGS || answer[SGML_ANSWER_POSITION] == 0, "24 stands at 0");
    } else {
        used = answer[SGML_ANSWER_COUNT] * SGML_RECORD_SIZE * 4;
        check(answer[SGML_ANSWER_COUNT] == count, "count");
        check(used <= room && all(buffer.bytes + used, room - used, FILL), "what lies behind the records is as it was");
    }
    check(!memcmp(type.bytes, text, type.length), "the type file is as it was");
    check(is_whole(type), "guards of the type file");
    check(is_whole(buffer), "guards of the buffer");
    check(is_whole(lent), "guards of the answer");
    return number;
}

static uint32_t judged(const char *text, size_t room, size_t count)
{
    return judged_with(SGML_NAMELEN, text, room, count);
}

/* Names of 1 to 40 bytes under each length. */
static void check_lengths(void)
{
    static const char letters[] = "ABCDEFGHIJKLMNOPQRSTUVWXYZabcdefghijklmn";
    static char too_long[SGML_TYPE_LIMIT + 2];
    char text[80];
    uint32_t k, n;
    memset(too_long, ' ', SGML_TYPE_LIMIT + 1);
    for (k = 0; k < LENGTHS; k++) {
        uint32_t length = length_at(k);
        int is_offered = length >= SGML_NAMELEN && length <= SGML_MOST_NAMELEN;
        for (n = 1; n <= 40; n++) {
            snprintf(text, sizeof text, "<!ELEMENT %.*s - O EMPTY>", (int)n, letters);
            check(judged_with(length, text, 24 + n, 1) ==
                      (is_offered ? n <= length ? SGML_ACCEPTED : SGML_ERR_NAME_TOO_LONG : SGML_ERR_SETTINGS),
                  "a name of every length");
        }
        check(judged_with(length, too_long, 3, 0) == (is_offered ? SGML_ERR_TOO_LONG : SGML_ERR_SETTINGS), "24 comes before 1");
        check(judged_with(length, "\001", 3, 0) == (is_offered ? SGML_ERR_BYTE : SGML_ERR_SETTINGS), "24 comes before 2");
        check(judged_with(length, "<!ELEMENTAL>", 3, 0) ==
                  (!is_offered ? SGML_ERR_SETTINGS : length < 9 ? SGML_ERR_NAME_TOO_LONG : SGML_ERR_LEFT_OUT),
              "a keyword that is none");
    }
}

/* The short text of every number; people look them up, so a change is meant. */
static void check_texts(void)
{
    static const char *const texts[] = {
        "accepted",
        "longer than the limit",
        "a byte that is not allowed",
        "a name longer than the limit",
        "malformed, or ends too early",
        "a form of ISO 8879 that is not supported",
        "too many content tokens or group levels",
        "an element or attribute declared twice",
        "too many elements, or none",
        "an ambiguous content model",
        "a tag or attribute list of an undeclared element",
        "an end tag, but no such element is open",
        "this start tag or data is not allowed here",
        "an element ends before its content is complete",
        "an end tag that may not be omitted is missing",
        "too many elements are open",
        "a start tag or data after the document element",
        "]]> outside tags and comments",
        "there is no document element",
        "the lent buffer is too small",
        "an attribute that is not declared, or is there twice",
        "a required attribute is missing",
        "a value that does not fit its declared value",
        "lists of documents and stretches that do not fit",
        "a name length or an edition that is not supported",
        "an \"&\" group that is repeated",
        "no refusal has this number",
    };
    uint32_t number;
    for (number = 0; number < sizeof texts / sizeof *texts; number++)
        check(!strcmp(sgml_refusal_text(number), texts[number]), texts[number]);
}

/* The records of two elements by their fields, and a name as far as there is room. */
static void check_records(const char *two)
{
    uint8_t records[SGML_MOST_RECORD_BYTES];
    uint32_t answer[SGML_ANSWER_SIZE];
    char name[SGML_MOST_NAMELEN + 1];
    struct sgml_record a, b;
    check(sgml_judge((const uint8_t *)two, strlen(two), records, sizeof records, answer, SGML_NAMELEN, SGML_FIRST_EDITION) == SGML_ACCEPTED, "two elements");
    a = sgml_record_at(records, 0);
    b = sgml_record_at(records, 1);
    check(a.name_offset == 10 && a.name_length == 3 && !a.start_tag && a.end_tag && a.content == 1 && a.tokens == 2, "a record");
    check(b.name_length == 1 && b.start_tag && b.end_tag && !b.content && !b.tokens, "the record of an EMPTY element");
    check(sgml_copy_name((const uint8_t *)two, records, 2, 1, name, sizeof name) == 3 && !strcmp(name, "A.1"), "a name in upper case");
    check(sgml_copy_name((const uint8_t *)two, records, 2, 1, name, 3) == 3 && !strcmp(name, "A."), "a name without room");
    check(sgml_copy_name((const uint8_t *)two, records, 2, 1, NULL, 0) == 3, "a name without any room");
}

int main(int argc, char **argv)
{
    const char *two = "<!ELEMENT A - O (B)><!ELEMENT B O O EMPTY>";
    uint32_t answer[SGML_ANSWER_SIZE];
    size_t room;
    (void)argv;
    if (argc > 1)
        guard = 0;
    for (room = 0; room < 60; room++)
        check(judged(two, room, 2) == (room / 4 < 12 ? SGML_ERR_NO_ROOM : 0), "19 exactly if the numbers do not fit");
    for (room = 0; room < 8; room++)
        check(judged("<!ELEMENT A - O (B?,B)>", room, 0) == SGML_ERR_AMBIGUOUS, "9 comes before 19");
    memset(answer, FILL, sizeof answer);
    check(sgml_judge(NULL, 0, NULL, 0, answer, SGML_NAMELEN, SGML_FIRST_EDITION) == SGML_ERR_ELEMENTS, "null and empty, given back");
    check(answer[SGML_ANSWER_NUMBER] == SGML_ERR_ELEMENTS && answer[SGML_ANSWER_POSITION] == 0, "null and empty");
    check_lengths();
    check_texts();
    check_records("<!ELEMENT a.1 - O (B,#PCDATA)><!ELEMENT B O O EMPTY>");
    return told();
}
