/* model.c - the small question: a type of one element with a content model of the type file, whose
 * subelements are all EMPTY. So it is asked what may come in an element, and what is missing, whatever stands
 * in its subelements. */
#include "ask.h"

/* The group stands behind the name, two words and comments; inside it there are no comments. */
size_t model_of(const struct question *q, uint32_t element, size_t *start)
{
    const struct input *type = &q->asked;
    struct sgml_record r = sgml_record_at(q->records, element - 1);
    size_t at = r.name_offset + r.name_length, level = 0;
    *start = at;
    if (!r.content)
        return 0;
    while (at < type->length && type->bytes[at] != '(')
        if (stands(type, at, "--")) {
            for (at += 2; at < type->length && !stands(type, at, "--"); at++)
                ;
            at += 2;
        } else {
            at++;
        }
    *start = at;
    for (; at < type->length; at++) {
        level += type->bytes[at] == '(';
        if (type->bytes[at] == ')' && !--level)
            break;
    }
    at++;
    return at + (byte_at(type, at) == '?' || byte_at(type, at) == '+' || byte_at(type, at) == '*') - *start;
}

/* The name stands in the content model of the small type. */
static int is_name_in(const struct input *small, const char *name)
{
    struct input text = { "", (const uint8_t *)name, strlen(name) };
    char own[SGML_MOST_NAMELEN + 1], other[SGML_MOST_NAMELEN + 1];
    size_t at = 0;
    fold(&text, 0, text.length, own, sizeof own);
    while (byte_at(small, at) != '(')
        at++;
    while (at < small->length && small->bytes[at] != '<') {
        size_t length = word_length(small, at);
        fold(small, at, length, other, sizeof other);
        if (length && !strcmp(own, other))
            return 1;
        at += length ? length : 1;
    }
    return 0;
}

int is_in_model(const struct question *q, uint32_t element)
{
    char name[SGML_MOST_NAMELEN + 1] = "#PCDATA";
    if (element)
        copy_name(q, element, name);
    return is_name_in(&q->small, name);
}

static int put(struct input *small, uint8_t *room, const char *text)
{
    if (small->length + strlen(text) > TAIL)
        return 0;
    memcpy(room + small->length, text, strlen(text));
    small->length += strlen(text);
    return 1;
}

/* The small type. Its own element has a name that is none of the others. */
static int is_small_type(struct question *q, uint32_t element)
{
    static const char *const own[] = { "Q", "Q1", "Q2", "Q3" };
    struct input small = { "", q->small_room, 0 };
    size_t at, k, end = model_of(q, element, &at);
    char name[SGML_MOST_NAMELEN + 1], byte[2] = "";
    uint32_t n, count = 1;
    for (k = 0; k < 3 && element_named(q, own[k]); k++)
        ;
    if (element_named(q, own[k]) || !put(&small, q->small_room, "<!ELEMENT ") ||
        !put(&small, q->small_room, own[k]) || !put(&small, q->small_room, " - O "))
        return 0;
    if (!end)
        put(&small, q->small_room, "(#PCDATA)");
    for (end += at; at < end; at++) {
        byte[0] = (char)q->asked.bytes[at];
        if (!is_separator((uint8_t)byte[0]) && !put(&small, q->small_room, byte))
            return 0;
    }
    if (!put(&small, q->small_room, ">"))
        return 0;
    q->small = small;
    for (n = 1; n <= q->elements; n++)
        if (is_in_model(q, n)) {
            copy_name(q, n, name);
            if (++count > SGML_ELEMENT_LIMIT || !put(&small, q->small_room, "<!ELEMENT ") ||
                !put(&small, q->small_room, name) || !put(&small, q->small_room, " - O EMPTY>"))
                return 0;
        }
    q->small.length = small.length;
    memcpy(q->own, "<", 2);
    append(q->own, sizeof q->own, own[k]);
    append(q->own, sizeof q->own, ">");
    return 1;
}

/* What stands directly in the open element; neighbouring data is one child. */
static int has_children(struct question *q, struct open o)
{
    uint32_t k, level = 0;
    q->child_count = 0;
    for (k = o.event + 1; k < q->event_count; k++) {
        struct sgml_event e = sgml_event_at(q->events, k);
        int is_start = e.kind == SGML_KIND_START || e.kind == SGML_KIND_START_INFERRED;
        struct child c = { is_start ? e.element : 0, e.offset };
        if (e.kind == SGML_KIND_ATTRIBUTE || e.kind == SGML_KIND_ATTRIBUTE_DEFAULTED)
            continue;
        if (!level && (is_start || (e.kind == SGML_KIND_DATA &&
                                    !(q->child_count && !q->children[q->child_count - 1].element)))) {
            if (q->child_count == MOST_CHILDREN)
                return 0;
            q->children[q->child_count++] = c;
        }
        if (is_start)
            level++;
        else if (e.kind != SGML_KIND_DATA && level)
            level--;
    }
    return 1;
}

int begin_small(struct question *q, struct open o)
{
    return sgml_record_at(q->records, o.element - 1).content && has_children(q, o) &&
           is_small_type(q, o.element);
}

/* Appends a child to the small document; 0 where it is full. */
static int add_child(struct question *q, size_t *length, uint32_t element)
{
    char tag[SGML_MOST_NAMELEN + 3] = "";
    if (element)
        add_tag(q, tag, sizeof tag, "<", element);
    else
        append(tag, sizeof tag, ".");
    if (*length + strlen(tag) > SGML_DOCUMENT_LIMIT)
        return 0;
    memcpy(q->room + *length, tag, strlen(tag));
    *length += strlen(tag);
    return 1;
}

/* The small document with so many children; its length, or 0. */
static size_t small_document(struct question *q, uint32_t count)
{
    size_t length = strlen(q->own);
    uint32_t k;
    memcpy(q->room, q->own, length);
    for (k = 0; k < count; k++)
        if (!add_child(q, &length, q->children[k].element))
            return 0;
    return length;
}

/* A refusal of the small document: its number, and its position; "no room" where it is accepted. */
static uint32_t ask_small(const struct question *q, size_t length, size_t *position)
{
    uint32_t answer[SGML_ANSWER_SIZE];
    uint32_t number = sgml_read(q->small.bytes, q->small.length, q->room, length, NULL, 0, answer,
                                q->name_limit, q->edition);
    *position = answer[SGML_ANSWER_INPUT] == SGML_IN_DOCUMENT ? answer[SGML_ANSWER_POSITION] : 0;
    return number;
}

int may_follow_in(struct question *q, uint32_t count, uint32_t between, uint32_t element)
{
    size_t length = small_document(q, count), before, position;
    if (!length || (between != SGML_NONE && !add_child(q, &length, between)))
        return 0;
    before = length;
    return add_child(q, &length, element) &&
           (ask_small(q, length, &position) == SGML_ERR_NO_ROOM || position > before);
}

int is_complete_with(struct question *q, uint32_t first, uint32_t second)
{
    size_t length = small_document(q, q->child_count), position;
    if (!length || (first != SGML_NONE && !add_child(q, &length, first)) ||
        (second != SGML_NONE && !add_child(q, &length, second)))
        return 0;
    return ask_small(q, length, &position) == SGML_ERR_NO_ROOM;
}
