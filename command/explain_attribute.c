/* explain_attribute.c - refusals of attributes in words, in a type file and in a tag: which attribute, of
 * which element, and what is declared of it. */
#include "fault.h"

int is_in_list(const struct fault *f)
{
    size_t s = form_start(f);
    return f->input == f->type && stands(f->type, s, "<!") && !strcmp(name_at(f, f->type, s + 2), "ATTLIST");
}

/* An attribute's declared value: of a group its tokens, as they stand in the type file but for the
 * separators, since a message is one line. */
static void put_declared(const struct fault *f, struct sgml_attribute a)
{
    size_t end = a.group_offset;
    switch (a.value) {
    case SGML_CDATA: put(f, "CDATA: a text without tabs and line ends"); break;
    case SGML_NUMBER: put(f, "NUMBER: 1 to %u digits", (unsigned)f->q->name_limit); break;
    case SGML_NAME: put(f, "NAME: a name of 1 to %u bytes", (unsigned)f->q->name_limit); break;
    default:
        for (; byte_at(f->type, end) && byte_at(f->type, end) != ')'; end++)
            if (byte_at(f->type, end) > ' ')
                put(f, "%c", byte_at(f->type, end));
        put(f, "): one of these");
    }
}

/* Where the name of the list's element stands: behind the keyword, separators and comments. */
static size_t listed_at(const struct fault *f)
{
    size_t s = form_start(f) + 9;
    for (;;) {
        if (stands(f->type, s, "--")) {
            for (s += 2; s < f->type->length && !stands(f->type, s, "--"); s++)
                ;
            s += 2;
        } else if (is_separator(byte_at(f->type, s))) {
            s++;
        } else {
            return s;
        }
    }
}

/* The element of the tag or of the list at fault, in upper case. */
static const char *element_at(const struct fault *f)
{
    return f->input == f->document ? tag_name(f, f->document, form_start(f))
                                   : name_at(f, f->type, listed_at(f));
}

void attribute_twice(const struct fault *f)
{
    put(f, "the attribute %s is declared twice in the list of %s", name_at(f, f->type, f->at), element_at(f));
}

void unlisted(const struct fault *f)
{
    struct list list = { "", 0, 0 };
    const char *name = name_at(f, f->type, f->at);
    put(f, "%s has an attribute list, but is not declared before it", name);
    judge_beginning(f->q, form_start(f), "");
    add_near_elements(f, name, &list);
    put_question(f, &list);
}

/* The second list stands at the element's name, and a token where another token may stand. */
static void attribute_in_type(const struct fault *f)
{
    const char *name = name_at(f, f->type, f->at);
    if (f->at == listed_at(f))
        put(f, "%s has an attribute list already", name);
    else if (may_stand(f->q, f->at, "0.-9Q ", 0))
        put(f, "the token %s occurs twice in the attribute list of %s", name, element_at(f));
    else
        put(f, "%s is one too many: an element has at most %u attributes", name, (unsigned)SGML_ATTCNT);
}

/* What the element of the tag has instead. */
static void put_attributes(const struct fault *f, uint32_t element)
{
    struct list list = { "", 0, 0 };
    char name[SGML_MOST_NAMELEN + 1];
    uint32_t k;
    for (k = 0; k < f->q->attributes; k++) {
        struct sgml_attribute a = sgml_attribute_at(f->q->lists, k);
        if (a.element == element) {
            sgml_copy_attribute_name(f->type->bytes, a, name, sizeof name);
            add(&list, name);
        }
    }
    if (list.count)
        put(f, "; it has %s", list.text);
}

void add_near_attributes(const struct fault *f, const char *element, const char *name, struct list *list)
{
    uint32_t n = element_named(f->q, element), k;
    char other[SGML_MOST_NAMELEN + 1];
    for (k = 0; k < f->q->attributes; k++) {
        struct sgml_attribute a = sgml_attribute_at(f->q->lists, k);
        sgml_copy_attribute_name(f->type->bytes, a, other, sizeof other);
        if (a.element == n && is_close(name, other))
            add(list, other);
    }
}

/* The attribute of this name that an element has. All of it is 0 where there is none. */
static struct sgml_attribute attribute_named(const struct fault *f, uint32_t element, const char *name)
{
    struct sgml_attribute none = { 0, 0, 0, 0, 0, 0, 0, 0, 0 };
    char other[SGML_MOST_NAMELEN + 1];
    uint32_t k;
    for (k = 0; k < f->q->attributes; k++) {
        struct sgml_attribute a = sgml_attribute_at(f->q->lists, k);
        sgml_copy_attribute_name(f->type->bytes, a, other, sizeof other);
        if (a.element == element && !strcmp(name, other))
            return a;
    }
    return none;
}

void attribute(const struct fault *f)
{
    struct list list = { "", 0, 0 };
    const char *element, *name = name_at(f, f->input, f->at);
    if (f->input == f->type) {
        attribute_in_type(f);
        return;
    }
    element = element_at(f);
    if (attribute_named(f, element_named(f->q, element), name).name_length) {
        put(f, "the attribute %s is given twice in the tag <%s", name, element);
    } else {
        put(f, "the element %s has no attribute %s", element, name);
        add_near_attributes(f, element, name, &list);
        put_question(f, &list);
        if (!list.count)
            put_attributes(f, element_named(f->q, element));
    }
    put_open_quote(f, form_start(f));
}

/* The attribute is required, and the tag at fault does not have it: put right behind its name, it is not
 * given twice. */
static int is_missing(const struct fault *f, struct sgml_attribute a)
{
    size_t end = form_end(f->document, f->at);
    char text[2 * SGML_MOST_NAMELEN + 8] = "";
    add_attribute(f->q, text, sizeof text, a);
    if (end + sizeof text > SGML_DOCUMENT_LIMIT)
        return 1;
    return !has_attribute(f->q, f->at + 1 + word_length(f->document, f->at + 1), text, end);
}

void attribute_missing(const struct fault *f)
{
    struct list list = { "", 0, 0 };
    struct sgml_attribute last = { 0, 0, 0, 0, 0, 0, 0, 0, 0 };
    char name[SGML_MOST_NAMELEN + 1];
    const char *tag = tag_name(f, f->document, f->at);
    uint32_t element = element_named(f->q, tag), k;
    for (k = 0; k < f->q->attributes; k++) {
        struct sgml_attribute a = sgml_attribute_at(f->q->lists, k);
        if (a.element == element && a.preset == SGML_REQUIRED && is_missing(f, a)) {
            sgml_copy_attribute_name(f->type->bytes, a, name, sizeof name);
            add(&list, name);
            last = a;
        }
    }
    put(f, "the tag <%s lacks ", tag);
    if (list.count == 1) {
        put(f, "the attribute %s, which is required and declared ", list.text);
        put_declared(f, last);
    } else {
        put(f, "the attributes %s, which are required", list.text);
    }
}

/* The attribute whose default begins at the fault: the last of the type file that is cut there and goes on
 * with another default. All of it is 0 where that is refused. */
static struct sgml_attribute defaulted_at(const struct fault *f)
{
    struct sgml_attribute last = { 0, 0, 0, 0, 0, 0, 0, 0, 0 };
    uint32_t k;
    judge_beginning(f->q, f->at, "#IMPLIED>");
    for (k = 0; k < f->q->attributes; k++) {
        struct sgml_attribute a = sgml_attribute_at(f->q->lists, k);
        if (a.name_offset > last.name_offset)
            last = a;
    }
    return last;
}

/* The attribute of a tag whose value begins at the fault: its name stands before it, with "=" and separators
 * between. */
static struct sgml_attribute written_at(const struct fault *f)
{
    size_t start = f->at;
    while (start && (is_separator(f->document->bytes[start - 1]) || f->document->bytes[start - 1] == '='))
        start--;
    while (start && is_name_byte(f->document->bytes[start - 1]))
        start--;
    return attribute_named(f, element_named(f->q, element_at(f)), name_at(f, f->document, start));
}

void misfit(const struct fault *f)
{
    const char *element = element_at(f);
    struct sgml_attribute a = f->input == f->type ? defaulted_at(f) : written_at(f);
    uint8_t mark = byte_at(f->input, f->at);
    size_t end = f->at + 1, i;
    while (end < f->input->length && f->input->bytes[end] != mark)
        end++;
    put(f, "the value %c", mark);
    put_written(f, f->input, f->at + 1, end - f->at - 1);
    put(f, "%c does not fit ", mark);
    if (a.name_length)
        put(f, "%s of %s, which is declared ", name_at(f, f->type, a.name_offset), element);
    else
        put(f, "what is declared for this attribute of %s", element);
    if (a.name_length)
        put_declared(f, a);
    for (i = f->at + 1;
         i < end && f->input->bytes[i] != '<' && f->input->bytes[i] != '>' && f->input->bytes[i] != 10; i++)
        ;
    if (i < end)
        put(f, "; its closing quote may be missing");
}
