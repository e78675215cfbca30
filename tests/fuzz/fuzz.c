/* fuzz.c - the calls on arbitrary bytes, held to what is true of every answer. A first byte from 128 on says how long a name may be,
 * 128 for 0; else that is 8. What stands before the first byte 0 is the type file, what stands behind it the document. */
#include "sgml.h"
#include <ctype.h>
#include <stdio.h>
#include <stdlib.h>
#include <string.h>

#define GUARD 64
#define FILL 0xA5

struct slice {
    const uint8_t *bytes;
    size_t length;
};

struct answer {
    uint32_t before, numbers[SGML_ANSWER_SIZE], behind;
};

/* How long a name may be in this input, and its edition. */
static uint32_t name_length, edition;

/* What was answered leads libFuzzer on, since the library itself counts nothing for it. */
__attribute__((section("__libfuzzer_extra_counters"))) uint8_t seen[8192];

static void see(uint32_t what, uint32_t k)
{
    uint8_t *counter = seen + (what * 256 + k % 256) % sizeof seen;
    *counter += *counter < 255;
}

static void must(int is_right, const char *what)
{
    if (!is_right) {
        fprintf(stderr, "does not hold: %s\n", what);
        abort();
    }
}

static int all(const uint8_t *b, size_t n, uint8_t x)
{
    return n == 0 || (b[0] == x && !memcmp(b, b + 1, n - 1));
}

/* A buffer of `room` bytes between guards, filled and anyhow aligned, good until the next one is lent. */
static uint8_t *lend(size_t room)
{
    static uint8_t *memory;
    static size_t size;
    if (size < room + 2 * GUARD + 4) {
        size = room + 2 * GUARD + 4;
        free(memory);
        memory = malloc(size);
        must(memory != NULL, "there is memory");
    }
    memset(memory, FILL, room + 2 * GUARD + 4);
    return memory + GUARD + room % 4;
}

/* What is true of an answer and its buffer, whichever the call. */
static void check_answer(const struct answer *a, const uint8_t *buffer, size_t room, size_t record, const size_t *lengths)
{
    const uint32_t *n = a->numbers;
    size_t used = record * n[SGML_ANSWER_COUNT];
    must(a->before == FILL && a->behind == FILL, "the answer's guards");
    must(all(buffer - GUARD, GUARD, FILL) && all(buffer + room, GUARD, FILL), "the buffer's guards");
    must(n[SGML_ANSWER_NUMBER] <= SGML_ERR_VALUE || n[SGML_ANSWER_NUMBER] == SGML_ERR_SETTINGS || n[SGML_ANSWER_NUMBER] == SGML_ERR_REPEATED,
         "a number is below 23, or 24 or 25");
    must((n[SGML_ANSWER_NUMBER] == SGML_ERR_SETTINGS) == (name_length < SGML_NAMELEN || name_length > SGML_MOST_NAMELEN),
         "24 exactly if names may not be so long");
    must(n[SGML_ANSWER_NUMBER] != SGML_ERR_SETTINGS || (n[SGML_ANSWER_INPUT] == SGML_IN_TYPE && n[SGML_ANSWER_POSITION] == 0), "24 in the type at 0");
    must((n[SGML_ANSWER_FIRST] || n[SGML_ANSWER_SECOND]) == (n[SGML_ANSWER_NUMBER] == SGML_ERR_AMBIGUOUS), "places under 9 alone");
    must(n[SGML_ANSWER_NUMBER] != SGML_ERR_AMBIGUOUS || (n[SGML_ANSWER_FIRST] && n[SGML_ANSWER_FIRST] < n[SGML_ANSWER_SECOND]), "the smaller place first");
    if (n[SGML_ANSWER_NUMBER]) {
        must(n[SGML_ANSWER_INPUT] == SGML_IN_TYPE || n[SGML_ANSWER_INPUT] == SGML_IN_DOCUMENT, "a refusal's input");
        must(n[SGML_ANSWER_POSITION] <= lengths[n[SGML_ANSWER_INPUT] - 1] && n[SGML_ANSWER_COUNT] == 0, "a refusal's position and count");
        must(all(buffer, room, 0), "a refusal zeroes the buffer");
    } else {
        must(n[SGML_ANSWER_INPUT] == 0 && n[SGML_ANSWER_POSITION] == 0, "input and position of an acceptance");
        must(used <= room && all(buffer + used, room - used, FILL), "what lies behind the records is as it was");
    }
}

static uint8_t *judge(struct slice type, size_t room, struct answer *a)
{
    size_t lengths[2] = { type.length, 0 };
    uint8_t *buffer = lend(room);
    a->before = a->behind = FILL;
    must(sgml_judge(type.bytes, type.length, buffer, room, a->numbers, name_length, edition) == a->numbers[SGML_ANSWER_NUMBER], "the judge gives back the number");
    check_answer(a, buffer, room, SGML_RECORD_BYTES, lengths);
    must(a->numbers[SGML_ANSWER_INPUT] != SGML_IN_DOCUMENT, "the judge looks at the type only");
    return buffer;
}

static uint8_t *list_attributes(struct slice type, size_t room, struct answer *a)
{
    size_t lengths[2] = { type.length, 0 };
    uint8_t *buffer = lend(room);
    a->before = a->behind = FILL;
    must(sgml_attributes(type.bytes, type.length, buffer, room, a->numbers, name_length, edition) == a->numbers[SGML_ANSWER_NUMBER],
         "the list of attributes gives back the number");
    check_answer(a, buffer, room, SGML_ATTRIBUTE_BYTES, lengths);
    return buffer;
}

static uint8_t *read_events(struct slice type, struct slice document, size_t room, struct answer *a)
{
    size_t lengths[2] = { type.length, document.length };
    uint8_t *buffer = lend(room);
    a->before = a->behind = FILL;
    must(sgml_read(type.bytes, type.length, document.bytes, document.length, buffer, room, a->numbers, name_length, edition) == a->numbers[SGML_ANSWER_NUMBER],
         "the reader gives back the number");
    check_answer(a, buffer, room, SGML_EVENT_BYTES, lengths);
    return buffer;
}

static void check_records(const uint8_t *records, uint32_t count, size_t type_length)
{
    uint32_t k, before = 0;
    must(count >= 1 && count <= SGML_ELEMENT_LIMIT, "1 to 64 elements");
    for (k = 0; k < count; k++) {
        const uint8_t *r = records + SGML_RECORD_BYTES * k;
        uint32_t offset = sgml_number(r, SGML_RECORD_NAME_OFFSET), length = sgml_number(r, SGML_RECORD_NAME_LENGTH);
        uint32_t tokens = sgml_number(r, SGML_RECORD_TOKENS);
        must(length >= 1 && length <= name_length && offset > before && offset + length < type_length, "a name's place");
        must(sgml_number(r, SGML_RECORD_START_TAG) <= 1 && sgml_number(r, SGML_RECORD_END_TAG) <= 1, "omission is 0 or 1");
        must(sgml_number(r, SGML_RECORD_CONTENT) == (tokens > 0) && tokens <= SGML_GRPGTCNT, "tokens of a model, none of EMPTY");
        before = offset + length;
        see(1, tokens);
    }
}

/* Attributes come in the order of their elements and of each list, and what is declared of them lies in the type file. */
static void check_attributes(const uint8_t *lists, uint32_t count, struct slice type, uint32_t elements)
{
    struct sgml_attribute before = { 0, 0, 0, 0, 0, 0, 0, 0, 0 };
    uint32_t k;
    for (k = 0; k < count; k++) {
        struct sgml_attribute a = sgml_attribute_at(lists, k);
        must(a.element >= 1 && a.element <= elements && a.number >= 1 && a.number <= SGML_ATTCNT, "an attribute's numbers");
        must(a.element == before.element ? a.number == before.number + 1 : a.element > before.element && a.number == 1, "attributes in order");
        must(a.name_length >= 1 && a.name_length <= name_length && a.name_offset + a.name_length < type.length, "an attribute's name");
        must(a.value <= SGML_TOKENS && (a.value == SGML_TOKENS) == (a.group_offset > 0), "a declared value");
        must(!a.group_offset || type.bytes[a.group_offset] == '(', "a group stands there");
        must(a.preset <= SGML_LITERAL && (a.preset == SGML_LITERAL) == (a.preset_offset > 0), "a default");
        must(!a.preset_offset || type.bytes[a.preset_offset - 1] == type.bytes[a.preset_offset + a.preset_length], "a default stands in quotes");
        see(10, a.value * 4 + a.preset);
        before = a;
    }
}

/* An attribute of the element that starts next: in the order of declaration, its value between two quotes of one kind. */
static void check_attribute(struct sgml_event e, struct sgml_event before, struct sgml_attribute a, struct slice document, struct slice type)
{
    struct slice text = e.kind == SGML_KIND_ATTRIBUTE ? document : type;
    const uint8_t *value = text.bytes + e.offset;
    must(a.name_length > 0, "an attribute is declared");
    must(e.offset > 0 && e.offset + e.length < text.length && value[-1] == value[e.length] && (value[-1] == '"' || value[-1] == '\''), "a value stands in quotes");
    must(!memchr(value, value[-1], e.length), "a value has no quote of its own");
    must(e.kind == SGML_KIND_ATTRIBUTE || (e.offset == a.preset_offset && e.length == a.preset_length), "a default is the type's");
    must((before.kind != SGML_KIND_ATTRIBUTE && before.kind != SGML_KIND_ATTRIBUTE_DEFAULTED) || before.element < e.element, "attributes in order");
    must(e.place == 0, "an attribute has no place");
    see(11, e.kind * 64 + e.element);
}

/* The bytes of a tag: "<" or "</", the element's name, whatever its case, and ">" last. */
static int is_tag(struct slice document, struct sgml_event e, size_t lead, struct slice type, const uint8_t *records)
{
    const uint8_t *r = records + SGML_RECORD_BYTES * (e.element - 1), *name = type.bytes + sgml_number(r, SGML_RECORD_NAME_OFFSET);
    const uint8_t *tag = document.bytes + e.offset;
    size_t i, length = sgml_number(r, SGML_RECORD_NAME_LENGTH);
    if (e.length < lead + length + 1 || memcmp(tag, "</", lead) || tag[e.length - 1] != '>')
        return 0;
    for (i = 0; i < length; i++)
        if (toupper(tag[lead + i]) != toupper(name[i]))
            return 0;
    return 1;
}

/* What an event's own numbers must be. */
static void check_event(struct sgml_event e, struct slice document, struct slice type, const uint8_t *records, uint32_t elements)
{
    must(e.kind >= SGML_KIND_START && e.kind <= SGML_KIND_END_OF_EMPTY, "a kind is 1 to 6");
    must(e.offset <= document.length && e.length <= document.length - e.offset, "an event lies in the document");
    if (e.kind == SGML_KIND_DATA) {
        must(e.element == 0 && e.length > 0, "data has no element, and bytes");
        must(!memchr(document.bytes + e.offset, '\n', e.length), "byte 10 is no data");
        return;
    }
    must(e.element >= 1 && e.element <= elements, "an element is declared");
    if (e.kind == SGML_KIND_START)
        must(is_tag(document, e, 1, type, records), "a start tag stands there");
    else if (e.kind == SGML_KIND_END)
        must(is_tag(document, e, 2, type, records), "an end tag stands there");
    else
        must(e.length == 0, "what is not written has length 0");
}

/* Events follow each other in the document, and an inferred one stands where the next one does, or at the end. */
static void check_order(struct sgml_event before, struct sgml_event e)
{
    must(e.offset >= before.offset + before.length, "offsets never fall");
    if (before.kind == SGML_KIND_START_INFERRED || before.kind == SGML_KIND_END_INFERRED)
        must(e.offset == before.offset, "an inferred tag stands at what called for it");
    if (e.kind == SGML_KIND_END_OF_EMPTY)
        must(before.kind == SGML_KIND_START && before.element == e.element && e.offset == before.offset + before.length,
             "an EMPTY element ends after its tag");
    if (e.kind == SGML_KIND_DATA && before.kind == SGML_KIND_DATA)
        must(e.offset > before.offset + before.length, "a run is longest");
}

/* A start has a place of its parent's model, but for the document element; a place has one name. No other event has a place. */
static void check_place(struct sgml_event e, uint32_t parent, const uint8_t *records, uint32_t names[SGML_ELEMENT_LIMIT + 1][SGML_GRPGTCNT + 1])
{
    if ((e.kind != SGML_KIND_START && e.kind != SGML_KIND_START_INFERRED) || !parent) {
        must(e.place == 0, "no place but of a start in an element");
        return;
    }
    must(e.place >= 1 && e.place <= sgml_record_at(records, parent - 1).tokens, "a place of the parent's model");
    must(!names[parent][e.place] || names[parent][e.place] == e.element, "a place has one name");
    names[parent][e.place] = e.element;
    see(9, e.place);
}

/* Starts and ends nest: never more than 24 open, none before the document element and after it. */
static void check_events(const uint8_t *events, uint32_t count, struct slice document, struct slice type, const uint8_t *records,
                         uint32_t elements, const uint8_t *lists, uint32_t attributes)
{
    uint32_t open[SGML_TAGLVL], depth = 0, k;
    uint32_t names[SGML_ELEMENT_LIMIT + 1][SGML_GRPGTCNT + 1];
    struct sgml_event before = { 0, 0, 0, 0, 0 }, last = before;
    int is_begun = 0;
    memset(names, 0, sizeof names);
    must(count >= 2, "a document has an element");
    must(count <= SGML_MOST_EVENTS(document.length), "no more events than the header says");
    for (k = 0; k < count; k++) {
        struct sgml_event e = sgml_event_at(events, k);
        if (e.kind == SGML_KIND_ATTRIBUTE || e.kind == SGML_KIND_ATTRIBUTE_DEFAULTED) {
            check_attribute(e, last, sgml_attribute_of(lists, attributes, sgml_element_at(events, count, k), e.element), document, type);
            last = e;
            continue;
        }
        must(last.kind < SGML_KIND_ATTRIBUTE || e.kind == SGML_KIND_START || e.kind == SGML_KIND_START_INFERRED, "attributes stand before a start");
        last = e;
        check_event(e, document, type, records, elements);
        check_order(before, e);
        check_place(e, depth ? open[depth - 1] : 0, records, names);
        must(depth > 0 || !is_begun, "nothing stands outside the document element");
        if (e.kind == SGML_KIND_START || e.kind == SGML_KIND_START_INFERRED) {
            must(depth < SGML_TAGLVL && (is_begun || e.element == 1), "at most 24 open, the document element first");
            open[depth++] = e.element;
            is_begun = 1;
        } else if (e.kind == SGML_KIND_DATA) {
            must(depth > 0, "data stands in an element");
        } else {
            must(depth > 0 && open[--depth] == e.element, "an end is of the innermost open element");
        }
        see(2 + e.kind, before.kind * 32 + depth);
        before = e;
    }
    must(depth == 0, "every element ends");
    must(before.kind != SGML_KIND_END_INFERRED || before.offset == document.length, "the last inferred end stands at the end");
}

/* The same answer in exactly as much room, odd bytes included, and 19 with one number less. */
static void check_room(struct slice type, struct slice document, uint32_t count, size_t odd)
{
    struct answer a;
    read_events(type, document, (size_t)count * SGML_EVENT_BYTES + odd % SGML_EVENT_BYTES, &a);
    must(a.numbers[SGML_ANSWER_NUMBER] == 0 && a.numbers[SGML_ANSWER_COUNT] == count, "exactly enough room is enough");
    read_events(type, document, (size_t)count * SGML_EVENT_BYTES - 4 + odd % 4, &a);
    must(a.numbers[SGML_ANSWER_NUMBER] == SGML_ERR_NO_ROOM && a.numbers[SGML_ANSWER_INPUT] == SGML_IN_DOCUMENT && a.numbers[SGML_ANSWER_POSITION] == 0,
         "one number short is 19");
    read_events(type, document, (size_t)count * SGML_EVENT_BYTES - 1 - odd % SGML_EVENT_BYTES, &a);
    must(a.numbers[SGML_ANSWER_NUMBER] == SGML_ERR_NO_ROOM, "a byte or more short is 19");
}

/* What is accepted is accepted where names may be longer, with the same events: it has no name that was too long. */
static void check_longer(struct slice type, struct slice document, size_t room, const uint8_t *events, uint32_t count)
{
    static uint8_t before[1 << 20];
    uint32_t given = name_length;
    struct answer a;
    size_t used = (size_t)count * SGML_EVENT_BYTES;
    if (used > sizeof before)
        return;
    memcpy(before, events, used);
    name_length = SGML_MOST_NAMELEN;
    events = read_events(type, document, room, &a);
    must(a.numbers[SGML_ANSWER_NUMBER] == 0 && a.numbers[SGML_ANSWER_COUNT] == count && !memcmp(before, events, used), "longer names change nothing");
    name_length = given;
}

/* The document in two parts, a part that passes the end and the whole, in one batch beside the single calls. The stretches stand in another order. Settings that
 * no call takes refuse all of it. */
static void check_batch(struct slice type, struct slice document)
{
    enum { ROOM = 4096, PARTS = 4 };
    static uint8_t buffer[PARTS * ROOM], expected[PARTS * ROOM];
    size_t cut = document.length ? document.bytes[0] % (document.length + 1) : 0, k;
    size_t starts[PARTS] = { 0, cut, cut, 0 }, lengths[PARTS] = { cut, document.length - cut, document.length - cut + 1, document.length };
    size_t froms[PARTS] = { 3 * ROOM, 7, 2 * ROOM, ROOM }, sizes[PARTS] = { ROOM, ROOM - 7, cut % ROOM, ROOM };
    uint32_t answers[PARTS * SGML_ANSWER_SIZE], answer[SGML_ANSWER_SIZE], own[SGML_ANSWER_SIZE], number;
    memset(buffer, FILL, sizeof buffer);
    memset(answers, FILL, sizeof answers);
    memset(expected, FILL, sizeof expected);
    number = sgml_read_batch(type.bytes, type.length, document.bytes, document.length, starts, PARTS, lengths, PARTS, buffer, sizeof buffer, froms, PARTS, sizes, PARTS,
                             answers, PARTS * SGML_ANSWER_SIZE, answer, name_length, edition);
    if (name_length < SGML_NAMELEN || SGML_MOST_NAMELEN < name_length) {
        must(number == SGML_ERR_SETTINGS && answer[SGML_ANSWER_COUNT] == 0, "a length of names that is not offered refuses a batch");
        must(all(buffer, sizeof buffer, 0), "24 zeroes the buffer");
        must(all((const uint8_t *)answers, sizeof answers, FILL), "24 leaves the answers as they were");
        return;
    }
    must(number == SGML_ACCEPTED, "the lists are fit");
    must(answer[SGML_ANSWER_COUNT] == PARTS, "a batch says how many documents it has");
    for (k = 0; k < PARTS; k++) {
        static const uint8_t none[SGML_DOCUMENT_LIMIT + 1];
        must(sgml_read(type.bytes, type.length, k == 2 ? none : document.bytes + starts[k], k == 2 ? sizeof none : lengths[k], expected + froms[k], sizes[k], own, name_length, edition) == own[0],
             "the reader gives back the number");
        must(!memcmp(own, answers + SGML_ANSWER_SIZE * k, sizeof own), "a batch answers as the single calls");
    }
    must(!memcmp(buffer, expected, sizeof buffer), "a batch leaves in its stretches what the single calls do, and the rest as it was");
    froms[1]++;
    must(sgml_read_batch(type.bytes, type.length, document.bytes, document.length, starts, PARTS, lengths, PARTS, buffer, sizeof buffer, froms, PARTS, sizes, PARTS,
                         answers, PARTS * SGML_ANSWER_SIZE, answer, name_length, edition) == SGML_ERR_BATCH,
         "one byte in two stretches is 23");
    must(all(buffer, sizeof buffer, 0), "23 zeroes the buffer");
}

static void check_calls(struct slice type, struct slice document)
{
    static uint8_t records[SGML_RECORD_BYTES * SGML_ELEMENT_LIMIT], lists[SGML_MOST_ATTRIBUTE_BYTES];
    struct answer judged, listed, a;
    size_t room = 65536;
    const uint8_t *events, *buffer = judge(type, sizeof records + type.length % 4, &judged);
    memcpy(records, buffer, sizeof records);
    if (!judged.numbers[SGML_ANSWER_NUMBER])
        check_records(records, judged.numbers[SGML_ANSWER_COUNT], type.length);
    buffer = list_attributes(type, sizeof lists + type.length % 4, &listed);
    memcpy(lists, buffer, sizeof lists);
    must(judged.numbers[SGML_ANSWER_NUMBER] ? !memcmp(&listed, &judged, sizeof listed) : !listed.numbers[SGML_ANSWER_NUMBER], "attributes are listed of what the judge accepts");
    if (!listed.numbers[SGML_ANSWER_NUMBER])
        check_attributes(lists, listed.numbers[SGML_ANSWER_COUNT], type, judged.numbers[SGML_ANSWER_COUNT]);
    for (events = read_events(type, document, room, &a); a.numbers[SGML_ANSWER_NUMBER] == SGML_ERR_NO_ROOM; room *= 2)
        events = read_events(type, document, room * 2, &a);
    see(0, a.numbers[SGML_ANSWER_NUMBER] * 2 + a.numbers[SGML_ANSWER_INPUT] % 2);
    if (a.numbers[SGML_ANSWER_INPUT] == SGML_IN_TYPE)
        must(!memcmp(&a, &judged, sizeof a), "reader and judge refuse a type alike");
    else
        must(!judged.numbers[SGML_ANSWER_NUMBER] || a.numbers[SGML_ANSWER_NUMBER] == SGML_ERR_TOO_LONG || a.numbers[SGML_ANSWER_NUMBER] == SGML_ERR_BYTE,
             "a type that the judge refuses is not read under");
    if (a.numbers[SGML_ANSWER_NUMBER] == 0) {
        check_events(events, a.numbers[SGML_ANSWER_COUNT], document, type, records, judged.numbers[SGML_ANSWER_COUNT], lists,
                     listed.numbers[SGML_ANSWER_COUNT]);
        check_longer(type, document, room, events, a.numbers[SGML_ANSWER_COUNT]);
        check_room(type, document, a.numbers[SGML_ANSWER_COUNT], document.length);
    }
    check_batch(type, document);
}

int LLVMFuzzerTestOneInput(const uint8_t *data, size_t size)
{
    static uint8_t copy[1 << 20];
    const uint8_t *parting, *whole = data;
    size_t whole_size = size;
    struct slice type, document;
    if (size > sizeof copy)
        return 0;
    name_length = SGML_NAMELEN;
    edition = SGML_FIRST_EDITION;
    if (size && data[0] >= 128) {
        name_length = data[0] % 64;
        edition = 1 + data[0] / 64 % 2;
        data++;
        size--;
    }
    parting = size ? memchr(data, 0, size) : NULL;
    type.bytes = data;
    type.length = parting ? (size_t)(parting - data) : size;
    document.bytes = data + size;
    document.length = 0;
    if (parting) {
        document.bytes = parting + 1;
        document.length = size - type.length - 1;
    }
    if (whole_size)
        memcpy(copy, whole, whole_size);
    check_calls(type, document);
    must(!whole_size || !memcmp(copy, whole, whole_size), "the inputs are as they were");
    return 0;
}
