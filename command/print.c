/* print.c - events of an accepted document on standard output. */
#include "print.h"
#include <stdio.h>

static int is_attribute(struct sgml_event e)
{
    return e.kind == SGML_KIND_ATTRIBUTE || e.kind == SGML_KIND_ATTRIBUTE_DEFAULTED;
}

static int is_start(struct sgml_event e)
{
    return e.kind == SGML_KIND_START || e.kind == SGML_KIND_START_INFERRED;
}

static void copy_name(const struct declared *d, uint32_t element, char name[SGML_MOST_NAMELEN + 1])
{
    struct sgml_record r = sgml_record_at(d->records, element - 1);
    fold(&d->type, r.name_offset, r.name_length, name, SGML_MOST_NAMELEN + 1);
}

void print_events(const struct declared *d, const uint8_t *events, uint32_t count, int has_places)
{
    char name[SGML_MOST_NAMELEN + 1];
    uint32_t k;
    printf("events %u\n", (unsigned)count);
    for (k = 0; k < count; k++) {
        struct sgml_event e = sgml_event_at(events, k);
        if (e.kind == SGML_KIND_DATA)
            strcpy(name, "-");
        else if (is_attribute(e))
            sgml_copy_attribute_name(d->type.bytes,
                                     sgml_attribute_of(d->attributes, d->attribute_count,
                                                       sgml_element_at(events, count, k), e.element),
                                     name, sizeof name);
        else
            copy_name(d, e.element, name);
        printf("%u %s %u %u", (unsigned)e.kind, name, (unsigned)e.offset, (unsigned)e.length);
        if (has_places)
            printf(" %u", (unsigned)e.place);
        putchar('\n');
    }
}

/* A data byte as onsgmls writes it: byte 13 is its record end. */
static void print_escaped(uint8_t byte)
{
    if (byte == '\\')
        fputs("\\\\", stdout);
    else if (byte == '\r')
        fputs("\\n", stdout);
    else if (byte < 32 || byte > 126)
        printf("\\%03o", (unsigned)byte);
    else
        putchar(byte);
}

/* The A lines of the element that starts with the event k, whose attribute events stand right before it: all
 * attributes of its list, as onsgmls gives them, an implied one too. Names and tokens are folded, and of a
 * number the digits stay. */
static void print_attributes(const struct declared *d, const struct input *document, const uint8_t *events,
                             uint32_t k)
{
    uint32_t element = sgml_event_at(events, k).element, first = k, i, n;
    char name[SGML_MOST_NAMELEN + 1];
    while (first && is_attribute(sgml_event_at(events, first - 1)))
        first--;
    for (n = 0; n < d->attribute_count; n++) {
        struct sgml_attribute a = sgml_attribute_at(d->attributes, n);
        const uint8_t *value = NULL;
        uint32_t length = 0;
        if (a.element != element)
            continue;
        for (i = first; i < k; i++) {
            struct sgml_event e = sgml_event_at(events, i);
            if (e.element == a.number) {
                value = sgml_value(d->type.bytes, document->bytes, e);
                length = e.length;
            }
        }
        sgml_copy_attribute_name(d->type.bytes, a, name, sizeof name);
        printf("A%s %s", name, !value ? "IMPLIED" : a.value == SGML_CDATA ? "CDATA " : "TOKEN ");
        for (i = 0; i < length; i++)
            print_escaped(a.value == SGML_CDATA ? value[i] : (uint8_t)upper(value[i]));
        putchar('\n');
    }
}

/* Where the output is in the document: the byte up to which lines were counted, its line, and the line that
 * was printed last. */
struct lines {
    size_t at, line, printed;
};

/* The L command before an event, where its line is another than that of the event before; the first names the
 * file. As with onsgmls, the document's end is on the line of its last byte. */
static void print_line_command(struct lines *l, const struct input *document, size_t at)
{
    if (at && at == document->length)
        at--;
    for (; l->at < at; l->at++)
        l->line += document->bytes[l->at] == '\n';
    if (l->printed != l->line)
        printf(l->printed ? "L%zu\n" : "L%zu %s\n", l->line, document->name);
    l->printed = l->line;
}

/* Runs of data with no tag between them are one line, as with onsgmls. */
void print_esis(const struct declared *d, const struct input *document, const uint8_t *events, uint32_t count,
                int has_lines)
{
    char name[SGML_MOST_NAMELEN + 1];
    struct lines lines = { 0, 1, 0 };
    uint32_t k, i, before = 0;
    for (k = 0; k < count; k++) {
        struct sgml_event e = sgml_event_at(events, k);
        if (is_attribute(e))
            continue;
        if (before == SGML_KIND_DATA && e.kind != SGML_KIND_DATA)
            putchar('\n');
        if (is_start(e))
            print_attributes(d, document, events, k);
        if (has_lines && !(e.kind == SGML_KIND_DATA && before == SGML_KIND_DATA))
            print_line_command(&lines, document, e.offset);
        if (e.kind == SGML_KIND_DATA) {
            if (before != SGML_KIND_DATA)
                putchar('-');
            for (i = 0; i < e.length; i++)
                print_escaped(document->bytes[e.offset + i]);
        } else {
            copy_name(d, e.element, name);
            printf("%c%s\n", is_start(e) ? '(' : ')', name);
        }
        before = e.kind;
    }
    fputs("C\n", stdout);
}
