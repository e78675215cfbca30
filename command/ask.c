/* ask.c - questions to the library about a refused input. */
#include "ask.h"

enum {
    DEPTH = 8, /* start tags and data put behind a beginning, where all are tried */
    STEPS = 40 /* and where one is tried */
};

/* What was answered to a beginning with a tail. Nothing is lent, so what would be accepted is "no room". */
struct reply {
    uint32_t number, input;
    size_t position;
};

static struct reply reply_of(uint32_t number, const uint32_t *answer)
{
    struct reply r = { number, answer[SGML_ANSWER_INPUT], answer[SGML_ANSWER_POSITION] };
    return r;
}

/* The beginning of an input, with a tail behind it. */
static struct input joined(const struct input *input, size_t cut, const char *tail, uint8_t *room)
{
    struct input whole = { input->name, room, cut + strlen(tail) };
    if (cut)
        memmove(room, input->bytes, cut);
    memcpy(room + cut, tail, strlen(tail));
    return whole;
}

static struct reply ask_type(struct question *q, size_t cut, const char *tail)
{
    struct input whole = joined(q->type, cut, tail, q->room);
    uint32_t answer[SGML_ANSWER_SIZE];
    q->work += QUESTION + 5 * whole.length;
    return reply_of(sgml_judge(whole.bytes, whole.length, NULL, 0, answer, q->name_limit, q->edition),
                    answer);
}

/* Judging a byte of a type takes some five times as long as reading one of a document. */
static struct reply ask(struct question *q, const struct input *type, struct input document)
{
    uint32_t answer[SGML_ANSWER_SIZE];
    q->work += QUESTION + 5 * type->length + document.length;
    return reply_of(sgml_read(type->bytes, type->length, document.bytes, document.length, NULL, 0, answer,
                              q->name_limit, q->edition),
                    answer);
}

static struct reply ask_document(struct question *q, size_t cut, const char *tail)
{
    return ask(q, &q->asked, joined(q->document, cut, tail, q->room));
}

static void judge(struct question *q, struct input type)
{
    uint32_t answer[SGML_ANSWER_SIZE];
    q->attributes =
        sgml_attributes(type.bytes, type.length, q->lists, sizeof q->lists, answer, q->name_limit, q->edition)
            ? 0
            : answer[SGML_ANSWER_COUNT];
    q->elements =
        sgml_judge(type.bytes, type.length, q->records, sizeof q->records, answer, q->name_limit, q->edition)
            ? 0
            : answer[SGML_ANSWER_COUNT];
}

/* Declares a name for the question, if there is room. Its start tag may not be omitted: so nothing is
 * inferred that was not before. */
static void declare(struct question *q, const char *name)
{
    char text[SGML_MOST_NAMELEN + 32] = "<!ELEMENT ";
    uint32_t before = q->elements;
    struct input longer;
    if (before == SGML_ELEMENT_LIMIT || q->asked.length + sizeof text > SGML_TYPE_LIMIT)
        return;
    append(text, sizeof text, name);
    append(text, sizeof text, " - O EMPTY>");
    longer = joined(&q->asked, q->asked.length, text, q->asked_room);
    judge(q, longer);
    if (q->elements == before + 1)
        q->asked = longer;
    else
        judge(q, q->asked);
}

/* Declares each name in a content model that has no declaration. */
static void declare_missing(struct question *q)
{
    char name[SGML_MOST_NAMELEN + 1];
    uint32_t k;
    for (k = 1; k <= q->declared; k++) {
        size_t at, end = model_of(q, k, &at);
        for (end += at; at < end;) {
            size_t length = word_length(&q->asked, at);
            if (length && q->asked.bytes[at] != '#') {
                fold(&q->asked, at, length, name, sizeof name);
                if (!element_named(q, name))
                    declare(q, name);
            }
            at += length ? length : 1;
        }
    }
}

void begin_question(struct question *q, const struct input *type, const struct input *document, size_t cut)
{
    q->type = type;
    q->document = document;
    q->cut = cut;
    q->event_count = 0;
    q->work = 0;
    q->is_form_known = 0;
    q->asked = *type;
    judge(q, *type);
    q->declared = q->elements;
    if (q->declared && type->length <= SGML_TYPE_LIMIT) {
        q->asked = joined(type, type->length, "", q->asked_room);
        declare_missing(q);
    }
}

void judge_beginning(struct question *q, size_t cut, const char *tail)
{
    q->asked = joined(q->type, cut, tail, q->asked_room);
    judge(q, q->asked);
    q->declared = q->elements;
}

/* 3 to 8, 10, 20 and 22 come by position, and before 25, 9 and 19. A word is unfit if 3 to 6 stands at it, or
 * any of them before it; the others say of a word that may stand there that it is the wrong one. */
int may_stand(struct question *q, size_t cut, const char *tail, size_t before)
{
    struct reply r = ask_type(q, cut, tail);
    if (r.number == SGML_ERR_NO_ROOM || r.number == SGML_ERR_AMBIGUOUS || r.number == SGML_ERR_REPEATED)
        return 1;
    return r.number >= SGML_ERR_NAME_TOO_LONG && r.position >= cut + before &&
           (r.position > cut + before || r.number > SGML_ERR_QUANTITY);
}

int ends_within(struct question *q, const struct input *input, size_t cut)
{
    struct reply r = input == q->document ? ask_document(q, cut, "") : ask_type(q, cut, "");
    return r.number == SGML_ERR_MALFORMED && r.position == cut;
}

/* "[" in place of a name is refused there by number 5 exactly if a content token stands there, and not a word
 * of a declaration or of a comment. */
int is_token(struct question *q, size_t at, size_t length)
{
    uint32_t answer[SGML_ANSWER_SIZE];
    uint8_t *changed = q->room;
    memcpy(changed, q->type->bytes, at);
    changed[at] = '[';
    memcpy(changed + at + 1, q->type->bytes + at + length, q->type->length - at - length);
    return sgml_judge(changed, q->type->length - length + 1, NULL, 0, answer, q->name_limit, q->edition) ==
               SGML_ERR_LEFT_OUT &&
           answer[SGML_ANSWER_POSITION] == at;
}

/* The document's tokens are settled in turn: a token may come exactly if nothing is refused at it or before
 * it. */
int may_come(struct question *q, const char *tail, size_t before)
{
    struct reply r = ask_document(q, q->cut, tail);
    return r.number == SGML_ERR_NO_ROOM || (r.input == SGML_IN_DOCUMENT && r.position > q->cut + before);
}

/* Of an end tag 11 is looked for before 13 and 14. */
int is_open_after(struct question *q, const char *tail, size_t before)
{
    struct reply r = ask_document(q, q->cut, tail);
    return may_come(q, tail, before) || (r.position == q->cut + before && (r.number == SGML_ERR_INCOMPLETE ||
                                                                           r.number == SGML_ERR_END_MISSING));
}

/* 3, 4 and 5 come before everything else in a tag, by position. */
int may_go_on(struct question *q, const char *tail)
{
    struct reply r = ask_document(q, q->cut, tail);
    return r.input != SGML_IN_DOCUMENT || r.position > q->cut ||
           (r.number != SGML_ERR_NAME_TOO_LONG && r.number != SGML_ERR_MALFORMED &&
            r.number != SGML_ERR_LEFT_OUT);
}

/* An attribute that is given twice is refused by 20 at the second, which comes before 22 and 21. */
int has_attribute(struct question *q, size_t at, const char *attribute, size_t end)
{
    struct input whole = joined(q->document, at, attribute, q->room);
    struct reply r;
    memcpy(q->room + whole.length, q->document->bytes + at, end - at);
    whole.length += end - at;
    r = ask(q, &q->asked, whole);
    return r.number == SGML_ERR_ATTRIBUTE && r.position > at + strlen(attribute);
}

void copy_name(const struct question *q, uint32_t element, char name[SGML_MOST_NAMELEN + 1])
{
    struct sgml_record r = sgml_record_at(q->records, element - 1);
    fold(&q->asked, r.name_offset, r.name_length, name, SGML_MOST_NAMELEN + 1);
}

uint32_t element_named(const struct question *q, const char *name)
{
    char other[SGML_MOST_NAMELEN + 1];
    uint32_t k;
    for (k = 1; k <= q->elements; k++) {
        copy_name(q, k, other);
        if (!strcmp(name, other))
            return k;
    }
    return 0;
}

/* Of a group the first token fits, which only separators part from the "(". */
void add_attribute(const struct question *q, char *text, size_t room, struct sgml_attribute a)
{
    char name[SGML_MOST_NAMELEN + 1], value[SGML_MOST_NAMELEN + 1] = "A";
    size_t at = a.group_offset + 1, n = 0;
    if (a.value == SGML_NUMBER)
        value[0] = '1';
    if (a.value == SGML_TOKENS) {
        while (is_separator(byte_at(&q->asked, at)))
            at++;
        for (n = 0; n < SGML_MOST_NAMELEN && is_name_byte(byte_at(&q->asked, at + n)); n++)
            value[n] = (char)q->asked.bytes[at + n];
        value[n] = 0;
    }
    sgml_copy_attribute_name(q->asked.bytes, a, name, sizeof name);
    if (strlen(text) + strlen(name) + strlen(value) + 6 <= room) {
        append(text, room, " ");
        append(text, room, name);
        append(text, room, "=\"");
        append(text, room, value);
        append(text, room, "\"");
    }
}

void add_start_tag(const struct question *q, char *text, size_t room, uint32_t element)
{
    size_t before = strlen(text);
    uint32_t k;
    add_tag(q, text, room, "<", element);
    if (strlen(text) == before)
        return;
    text[strlen(text) - 1] = 0;
    for (k = 0; k < q->attributes; k++) {
        struct sgml_attribute a = sgml_attribute_at(q->lists, k);
        if (a.element == element && a.preset == SGML_REQUIRED)
            add_attribute(q, text, room - 1, a);
    }
    append(text, room, ">");
}

void add_tag(const struct question *q, char *text, size_t room, const char *before, uint32_t element)
{
    char name[SGML_MOST_NAMELEN + 1];
    copy_name(q, element, name);
    if (strlen(text) + strlen(before) + strlen(name) + 2 <= room) {
        append(text, room, before);
        append(text, room, name);
        append(text, room, ">");
    }
}

/* Appends a start tag, or data where the element is 0; a dot is data whatever stands before it. */
static void add_token(const struct question *q, char *tail, uint32_t element)
{
    if (element)
        add_start_tag(q, tail, TAIL, element);
    else
        append(tail, TAIL, ".");
}

/* Appends the end tag that is missing: only that of the innermost element that does not end by itself may
 * come. */
static int add_end(struct question *q, char *tail)
{
    size_t before = strlen(tail);
    uint32_t k;
    for (k = 1; k <= q->elements; k++)
        if (!sgml_record_at(q->records, k - 1).end_tag) {
            add_tag(q, tail, TAIL, "</", k);
            if (strlen(tail) > before && may_come(q, tail, before))
                return 1;
            tail[before] = 0;
        }
    return 0;
}

/* Appends the end tags that are missing, and says what is wrong then. */
static uint32_t ended(struct question *q, char *tail)
{
    uint32_t number;
    do
        number = ask_document(q, q->cut, tail).number;
    while (number == SGML_ERR_END_MISSING && q->work < WORK && add_end(q, tail));
    return number;
}

/* More content may make the document whole: an element is incomplete, or there is none. */
static int is_continued(uint32_t number)
{
    return number == SGML_ERR_INCOMPLETE || number == SGML_ERR_NO_DOCUMENT;
}

/* Tries all tails of so many start tags and data. */
static int is_completed_by(struct question *q, char *tail, int depth)
{
    uint32_t k, number = ended(q, tail);
    size_t before = strlen(tail);
    if (!is_continued(number) || !depth)
        return number == SGML_ERR_NO_ROOM;
    for (k = 0; k <= q->elements && q->work < WORK; k++) {
        add_token(q, tail, k);
        if (strlen(tail) > before && may_come(q, tail, before) && is_completed_by(q, tail, depth - 1))
            return 1;
        tail[before] = 0;
    }
    return 0;
}

/* Appends what was used least so far and, of these, what has the least content of its own. used[0] is for
 * data. */
static int add_content(struct question *q, char *tail, uint32_t *used)
{
    size_t before = strlen(tail);
    uint32_t k, best = 0, cost = UINT32_MAX;
    for (k = 0; k <= q->elements; k++) {
        uint32_t tokens = k ? sgml_record_at(q->records, k - 1).tokens : 0,
                 own = (SGML_GRPGTCNT + 1) * used[k] + tokens;
        add_token(q, tail, k);
        if (own < cost && strlen(tail) > before && may_come(q, tail, before)) {
            best = k;
            cost = own;
        }
        tail[before] = 0;
    }
    if (cost == UINT32_MAX)
        return 0;
    used[best]++;
    add_token(q, tail, best);
    return 1;
}

/* Finds a tail that makes a whole document of what stands before the fault: a short one if there is one, else
 * one that takes everything in turn. There may be none, and not every one is found. */
static int is_completed(struct question *q, char *tail)
{
    uint32_t used[SGML_ELEMENT_LIMIT + 1] = { 0 };
    int step;
    q->work = 0;
    for (step = 0; step <= DEPTH && q->work < WORK; step++) {
        tail[0] = 0;
        if (is_completed_by(q, tail, step))
            return 1;
    }
    q->work = 0;
    tail[0] = 0;
    for (step = 0; step < STEPS && q->work < WORK; step++) {
        uint32_t number = ended(q, tail);
        if (!is_continued(number))
            return number == SGML_ERR_NO_ROOM;
        if (!add_content(q, tail, used))
            return 0;
    }
    return 0;
}

/* A refusal zeroes all that is lent: so little is lent first. */
static int read_events(struct question *q, struct input document, uint32_t *answer)
{
    size_t room = q->events_length < 65536 ? q->events_length : 65536;
    for (;;) {
        if (!sgml_read(q->asked.bytes, q->asked.length, document.bytes, document.length, q->events, room,
                       answer, q->name_limit, q->edition))
            return 1;
        if (answer[SGML_ANSWER_NUMBER] != SGML_ERR_NO_ROOM || room == q->events_length)
            return 0;
        room = q->events_length / 4 < room ? q->events_length : 4 * room;
    }
}

int read_beginning(struct question *q, size_t cut)
{
    uint32_t answer[SGML_ANSWER_SIZE];
    if (!read_events(q, joined(q->document, cut, "", q->room), answer))
        return 0;
    q->event_count = answer[SGML_ANSWER_COUNT];
    return 1;
}

/* The events before the fault do not depend on the tail. What the tail calls for stands at the cut or behind
 * it, but for the end of an EMPTY element, which stands just behind its tag. */
int open_at(struct question *q, struct open open[SGML_TAGLVL])
{
    uint32_t answer[SGML_ANSWER_SIZE], k;
    int depth = 0;
    q->event_count = 0;
    if (!is_completed(q, q->tail) || !read_events(q, joined(q->document, q->cut, q->tail, q->room), answer))
        return -1;
    for (k = 0; k < answer[SGML_ANSWER_COUNT]; k++) {
        struct sgml_event e = sgml_event_at(q->events, k);
        if (e.kind == SGML_KIND_ATTRIBUTE || e.kind == SGML_KIND_ATTRIBUTE_DEFAULTED)
            continue;
        if (e.offset >= q->cut && e.kind != SGML_KIND_END_OF_EMPTY)
            break;
        q->event_count = k + 1;
        if (e.kind == SGML_KIND_START || e.kind == SGML_KIND_START_INFERRED) {
            struct open o = { e.element, e.offset, k, e.kind == SGML_KIND_START };
            open[depth++] = o;
        } else if (e.kind != SGML_KIND_DATA) {
            depth--;
        }
    }
    return depth;
}
