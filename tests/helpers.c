/* helpers.c - the functions that the header defines, on every event of some documents and on every number: each is right, or
 * harmless and empty. Records, events and inputs have memory of their own, of just their length, so that a tool that watches memory
 * sees the first byte outside. Then sgml_read_alloc, with a malloc that fails when it is told to. */
#include "check.h"

static size_t allowed = SIZE_MAX; /* of how many bytes one allocation may be */
static unsigned allocations, freed;

static void *counted_malloc(size_t size)
{
    allocations++;
    return size <= allowed ? malloc(size) : NULL;
}

static void counted_free(void *memory)
{
    freed += memory != NULL;
    free(memory);
}

/* The header is there already, without sgml_read_alloc: asked for again, it gives that too. */
#define SGML_WITH_MALLOC
#define malloc counted_malloc
#define free counted_free
#include "sgml.h"
#undef malloc
#undef free

static const char type_text[] = "<!ELEMENT l O O (ITEM|box|#PCDATA)*><!ELEMENT ITEM - O (NAME,Qty?)><!ELEMENT NAME O O (#PCDATA)>"
                                "<!ELEMENT QTY - O (#PCDATA)><!ELEMENT BOX - O EMPTY>"
                                "<!ATTLIST ITEM a1 CDATA #IMPLIED a2 CDATA #IMPLIED a3 CDATA #IMPLIED a4 CDATA #IMPLIED"
                                " a5 CDATA #IMPLIED a6 CDATA #IMPLIED PAR NUMBER '40' UNIT (ea|bx) 'ea'>";
static const char document_text[] = "<ITEM a6='six' UNIT=\"bx\">clamp<QTY>40</ITEM>text<BOX>\n<ITEM PAR='7'>tape<!-- c -->d";

static struct slice type, document, events, records, lists;
static uint32_t event_count, record_count, list_count;

static struct slice exactly(const uint8_t *bytes, size_t length)
{
    return lend((const char *)bytes, length, 0);
}

/* Judges, lists and reads; keeps what was written, and no byte more. */
static void read_all(void)
{
    static uint8_t room[100 * SGML_EVENT_BYTES];
    uint32_t answer[SGML_ANSWER_SIZE];
    guard = 0;
    type = exactly((const uint8_t *)type_text, sizeof type_text - 1);
    document = exactly((const uint8_t *)document_text, sizeof document_text - 1);
    check(!sgml_judge(type.bytes, type.length, room, sizeof room, answer, SGML_NAMELEN, SGML_FIRST_EDITION), "the type is accepted");
    record_count = answer[SGML_ANSWER_COUNT];
    records = exactly(room, record_count * SGML_RECORD_BYTES);
    check(!sgml_attributes(type.bytes, type.length, room, sizeof room, answer, SGML_NAMELEN, SGML_FIRST_EDITION), "its lists too");
    list_count = answer[SGML_ANSWER_COUNT];
    lists = exactly(room, list_count * SGML_ATTRIBUTE_BYTES);
    check(!sgml_read(type.bytes, type.length, document.bytes, document.length, room, sizeof room, answer, SGML_NAMELEN, SGML_FIRST_EDITION),
          "the document is accepted");
    event_count = answer[SGML_ANSWER_COUNT];
    events = exactly(room, event_count * SGML_EVENT_BYTES);
    check(record_count == 5 && list_count == 8, "five elements and eight attributes");
}

/* One event as a line: kind, the name of its element, of its attribute, and its bytes. */
static void put_line(char *to, size_t room, size_t k)
{
    struct sgml_event e = sgml_event_at(events.bytes, k);
    int is_attribute = e.kind == SGML_KIND_ATTRIBUTE || e.kind == SGML_KIND_ATTRIBUTE_DEFAULTED;
    uint32_t element = sgml_element_at(events.bytes, event_count, k);
    char name[SGML_MOST_NAMELEN + 1], own[SGML_MOST_NAMELEN + 1];
    size_t length = sgml_copy_name(type.bytes, records.bytes, record_count, element, name, sizeof name);
    check(length == strlen(name), "a name's length");
    length = sgml_copy_attribute_name(type.bytes, sgml_attribute_of(lists.bytes, list_count, is_attribute ? element : 0, e.element), own, sizeof own);
    check(length == strlen(own), "an attribute name's length");
    snprintf(to, room, "%u %s %s [%.*s]", (unsigned)e.kind, name, own, (int)e.length, (const char *)sgml_value(type.bytes, document.bytes, e));
}

/* Every event of the document through every helper. */
static void check_events(void)
{
    static const char *const lines[] = {
        "2 L  []",         "7 ITEM A6 [six]", "8 ITEM PAR [40]", "7 ITEM UNIT [bx]", "1 ITEM  [<ITEM a6='six' UNIT=\"bx\">]",
        "2 NAME  []",      "5   [clamp]",     "4 NAME  []",      "1 QTY  [<QTY>]",   "5   [40]",
        "4 QTY  []",       "3 ITEM  [</ITEM>]", "5   [text]",    "1 BOX  [<BOX>]",   "6 BOX  []",
        "7 ITEM PAR [7]",  "8 ITEM UNIT [ea]", "1 ITEM  [<ITEM PAR='7'>]", "2 NAME  []", "5   [tape]",
        "5   [d]",         "4 NAME  []",      "4 ITEM  []",      "4 L  []",
    };
    char line[120];
    size_t k;
    check(event_count == sizeof lines / sizeof *lines, "as many events");
    for (k = 0; k < event_count && k < sizeof lines / sizeof *lines; k++) {
        put_line(line, sizeof line, k);
        check(!strcmp(line, lines[k]), line);
    }
}

/* The number of every event as that of an element and of an attribute, and numbers that nothing has. */
static void check_any_number(uint32_t number)
{
    struct sgml_record r = sgml_record_of(records.bytes, record_count, number);
    char name[SGML_MOST_NAMELEN + 1] = "not touched";
    size_t length = sgml_copy_name(type.bytes, records.bytes, record_count, number, name, sizeof name);
    int is_one = number >= 1 && number <= record_count;
    check(is_one ? r.name_length != 0 : !r.name_offset && !r.name_length && !r.start_tag && !r.end_tag && !r.content && !r.tokens,
          "the record of a number that no element has is zero");
    check(length == strlen(name) && (length != 0) == is_one, "its name is empty");
    check(sgml_copy_name(type.bytes, NULL, 0, number, name, sizeof name) == 0 && !*name, "a name without records");
    check(sgml_copy_name(type.bytes, records.bytes, record_count, number, NULL, 0) == length, "a name without room");
    check((sgml_attribute_of(lists.bytes, list_count, number, 1).name_length != 0) == (number == 2), "attributes of every element");
    check((sgml_attribute_of(lists.bytes, list_count, 2, number).name_length != 0) == (number >= 1 && number <= 8), "every attribute of one");
    check(sgml_attribute_of(NULL, 0, number, number).name_length == 0, "no attributes");
    check(sgml_copy_attribute_name(type.bytes, sgml_attribute_of(lists.bytes, list_count, 99, number), name, sizeof name) == 0 && !*name,
          "the name of no attribute");
    check(*sgml_refusal_text(number) != 0, "a text for every number");
}

static void check_numbers(void)
{
    static const uint32_t others[] = { 255, 256, 0x7FFFFFFF, 0x80000000, UINT32_MAX - 1, UINT32_MAX };
    uint8_t alone[2 * SGML_EVENT_BYTES] = { SGML_KIND_ATTRIBUTE, 0, 0, 0, 3 };
    struct sgml_event none = { 0, 0, 0, 0, 0 };
    uint32_t number;
    size_t k;
    for (number = 0; number < 100; number++)
        check_any_number(number);
    for (k = 0; k < sizeof others / sizeof *others; k++)
        check_any_number(others[k]);
    for (k = 0; k < event_count; k++)
        check_any_number(sgml_event_at(events.bytes, k).element);
    for (k = event_count; k < event_count + 3; k++)
        check(sgml_element_at(events.bytes, event_count, k) == 0, "the element of no event");
    check(sgml_element_at(NULL, 0, 0) == 0, "the element among no events");
    check(sgml_element_at(alone, 1, 0) == 0, "an attribute without a start belongs to no element");
    check(sgml_value(type.bytes, document.bytes, none) == document.bytes, "the bytes of an event that is all zero");
}

/* Reads `text` by sgml_read_alloc and beside it by sgml_read. */
static uint32_t check_alloc(const char *text, size_t length, unsigned expected_allocations)
{
    uint32_t answer[SGML_ANSWER_SIZE], single[SGML_ANSWER_SIZE];
    size_t room = SGML_EVENT_BYTES * SGML_MOST_EVENTS_WITH(length, 8);
    uint8_t *found = (uint8_t *)1, *buffer = malloc(room);
    uint32_t number;
    if (!buffer)
        abort();
    allocations = freed = 0;
    number = sgml_read_alloc(type.bytes, type.length, (const uint8_t *)text, length, &found, answer, SGML_NAMELEN, SGML_FIRST_EDITION);
    check(number == answer[SGML_ANSWER_NUMBER], "the number is returned");
    check(allocations == expected_allocations, "as many allocations");
    check(!number == !!found, "there are events exactly if it is accepted");
    if (allowed == SIZE_MAX) {
        check(sgml_read(type.bytes, type.length, (const uint8_t *)text, length, buffer, room, single, SGML_NAMELEN, SGML_FIRST_EDITION) == number,
              "the number of sgml_read");
        check(!memcmp(answer, single, sizeof answer), "the answer of sgml_read");
        check(number || !memcmp(found, buffer, answer[SGML_ANSWER_COUNT] * SGML_EVENT_BYTES), "the events of sgml_read");
        check(freed == expected_allocations - !number, "nothing else is kept");
    } else {
        check(freed < expected_allocations, "the last allocation failed");
    }
    free(found);
    free(buffer);
    return number;
}

static void check_allocating(void)
{
    static char full[SGML_DOCUMENT_LIMIT + 1];
    size_t n;
    for (n = 0; n + 7 <= SGML_DOCUMENT_LIMIT; n += 7)
        memcpy(full + n, "<ITEM>x", 7);
    check(check_alloc(document_text, sizeof document_text - 1, 1) == SGML_ACCEPTED, "one allocation is enough");
    check(check_alloc("", 0, 1) == SGML_ERR_NO_DOCUMENT, "a refusal");
    check(check_alloc(full, sizeof full, 1) == SGML_ERR_TOO_LONG, "a document that is too long");
    /* 9,362 items of seven events each */
    check(check_alloc(full, n, 6) == SGML_ACCEPTED, "64, 128 and so on to 2,048 KB");
    check(check_alloc("<ITEM></BOX>", 12, 1) == SGML_ERR_NOT_OPEN, "a refusal takes the first 64 KB and no more");
    allowed = 300 * 1024;
    check(check_alloc(full, n, 4) == SGML_ERR_NO_ROOM, "19 where malloc fails");
    allowed = 0;
    check(check_alloc(document_text, sizeof document_text - 1, 1) == SGML_ERR_NO_ROOM, "19 where malloc fails at once");
    check(check_alloc("<ITEM></BOX>", 12, 1) == SGML_ERR_NOT_OPEN, "and what is wrong, where something is");
    allowed = SIZE_MAX;
}

int main(void)
{
    read_all();
    check_events();
    check_numbers();
    check_allocating();
    check(is_whole(type) && is_whole(document) && is_whole(events) && is_whole(records) && is_whole(lists), "nothing was written");
    return told();
}
