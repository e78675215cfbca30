/* controller.c - what a cabinet's controller does with the library. It reads catalogues under one type
 * file and prints for each how many items and pieces lie in each drawer, or where and why the catalogue is
 * refused.
 *
 *     controller [--edition N] [--name-length N] TYPE CATALOGUE..
 *
 * A drawer is known by its NUMBER, which holds within the element that the NUMBER stands in. Under a type
 * without NUMBER, each place of the document element's content model is a drawer, and all that lies below
 * that place lies in that drawer, the items of a kit included. An ITEM has a NAME and a quantity, QTY. If
 * the type declares a par level for ITEM, the attribute PAR, the table shows how many pieces should be
 * there and how many are missing. An ITEM without QTY was not counted: its par level is not in the table,
 * and a line below the table names it. Quantities in different units are not added up; the unit is the
 * attribute UNIT of ITEM or, if the type declares no such attribute, the content of an element UNIT.
 *
 * Exit status: 0 all catalogues are counted, 1 one is at fault (or the type is), 2 one could not be read. */
#include "position.h"
#include "sgml.h"
#include <ctype.h>
#include <errno.h>
#include <inttypes.h>
#include <stdlib.h>
#include <string.h>

enum {
    DRAWERS = 64,
    UNITS = 32,      /* different units in one catalogue, no unit included */
    UNIT_BYTES = 16, /* of a unit's name */
    DIGITS = 9,      /* of a number: the sum of 2^32 such numbers still fits into 64 bits */
    ROOM = 65536     /* bytes lent at first for the events of a catalogue: enough for some 14,000 bytes */
};

enum status { COUNTED = 0, AT_FAULT = 1, NOT_RUN = 2 };

struct input {
    const char *name;
    const uint8_t *bytes;
    size_t length;
    int error; /* errno, if the file could not be read */
};

/* The elements that mean something to a cabinet. */
enum role { NUMBER, ITEM, NAME, QTY, UNIT, ROLES };
static const char *const role_names[ROLES] = { "NUMBER", "ITEM", "NAME", "QTY", "UNIT" };

/* The type, and what it declares for the controller; 0 stands for what it does not declare. */
struct cabinet {
    struct input type;
    uint32_t name_length, edition;
    uint32_t roles[ROLES];        /* element numbers */
    struct sgml_attribute par, unit; /* of ITEM */
};

/* The sums of one unit in one drawer. Par levels are those of items that were counted, and so is what is
 * missing. */
struct total {
    uint32_t items, counted, levelled; /* levelled: counted, and with a par level */
    uint64_t pieces, par, missing;
};

/* An open element. What follows `drawer` is of an ITEM. */
struct open {
    uint32_t element, event; /* event: the number of its start event, from 0 */
    uint32_t drawer;         /* that lies in it or that it lies in; 0 if none */
    uint32_t name_from, name_to; /* between these events stands the item's name */
    uint32_t par, quantity, unit;
    int is_levelled, is_counted;
};

/* A catalogue that is being counted. */
struct reading {
    const struct cabinet *cabinet;
    struct input catalogue;
    const uint8_t *events;
    uint32_t count;
    struct open open[SGML_TAGLVL];
    uint32_t depth;
    struct sgml_event par, unit; /* the attributes of the ITEM that starts next; kind 0 if there is none */
    struct total totals[DRAWERS + 1][UNITS];
    int is_named[DRAWERS + 1];
    char units[UNITS][UNIT_BYTES + 1]; /* the first stands for items without a unit */
    uint32_t unit_count, faults;
    int is_listing; /* the second pass: lists the items that were not counted */
};

/* The catalogues of one call. */
struct batch {
    struct input files[SGML_BATCH_LIMIT];
    size_t count, starts[SGML_BATCH_LIMIT], lengths[SGML_BATCH_LIMIT];
    size_t froms[SGML_BATCH_LIMIT], sizes[SGML_BATCH_LIMIT];
    uint32_t answers[SGML_BATCH_LIMIT * SGML_ANSWER_SIZE];
    uint8_t *string, *events; /* all files; their events */
};

static enum status worse(enum status a, enum status b)
{
    return a > b ? a : b;
}

static enum status no_memory(void)
{
    fprintf(stderr, "controller: out of memory\n");
    return NOT_RUN;
}

/* Reads a file to `bytes`, at most `room` of it. */
static struct input loaded(const char *name, uint8_t *bytes, size_t room)
{
    struct input input = { name, bytes, 0, 0 };
    FILE *file = fopen(name, "rb");
    if (file)
        input.length = fread(bytes, 1, room, file);
    if (!file || ferror(file)) {
        input.error = errno;
        input.length = 0;
    }
    if (file)
        fclose(file);
    return input;
}

static enum status unread(const struct input *input)
{
    fflush(stdout);
    fprintf(stderr, "controller: %s: %s\n", input->name, strerror(input->error));
    return NOT_RUN;
}

/* Prints FILE:LINE:COLUMN: before a message; show_line prints the line itself after it. */
static struct position show_place(const struct input *input, size_t at)
{
    struct position p = position_of(input->bytes, input->length, at);
    printf("%s:%zu:%zu: ", input->name, p.line, p.column);
    return p;
}

static void show_line(const struct input *input, struct position p)
{
    printf("\n");
    print_line(stdout, input->bytes, p);
}

/* Prints where and why an input is refused; for an ambiguous model the two places, by name. */
static enum status refuse(const struct input *input, const uint32_t *answer)
{
    const uint8_t *b = input->bytes;
    size_t at = answer[SGML_ANSWER_POSITION], length = input->length;
    uint32_t first = answer[SGML_ANSWER_FIRST], second = answer[SGML_ANSWER_SECOND];
    struct position p = show_place(input, at);
    printf("%s", sgml_refusal_text(answer[SGML_ANSWER_NUMBER]));
    if (answer[SGML_ANSWER_NUMBER] == SGML_ERR_AMBIGUOUS) {
        size_t other = place_before(b, at, second - first);
        struct position q = position_of(b, length, other);
        printf(": this %.*s, ", (int)name_length(b, length, at), (const char *)b + at);
        printf("place %u, or ", (unsigned)second);
        printf("%.*s at ", (int)name_length(b, length, other), (const char *)b + other);
        printf("%zu:%zu, place %u", q.line, q.column, (unsigned)first);
    }
    show_line(input, p);
    return AT_FAULT;
}

/* Finds the attributes of ITEM in a type that was accepted. */
static uint32_t find_attributes(struct cabinet *c, uint32_t *answer)
{
    static uint8_t lists[SGML_MOST_ATTRIBUTE_BYTES];
    char name[SGML_MOST_NAMELEN + 1];
    const struct input *type = &c->type;
    if (sgml_attributes(type->bytes, type->length, lists, sizeof lists, answer, c->name_length, c->edition))
        return answer[SGML_ANSWER_NUMBER];
    for (uint32_t k = 0; k < answer[SGML_ANSWER_COUNT]; k++) {
        struct sgml_attribute a = sgml_attribute_at(lists, k);
        sgml_copy_attribute_name(type->bytes, a, name, sizeof name);
        if (a.element == c->roles[ITEM] && !strcmp(name, "PAR"))
            c->par = a;
        if (a.element == c->roles[ITEM] && !strcmp(name, "UNIT"))
            c->unit = a;
    }
    if (c->unit.number)
        c->roles[UNIT] = 0;
    return SGML_ACCEPTED;
}

/* Judges the type and finds what it declares for the controller. Without ITEM there is nothing to count. */
static enum status find_roles(struct cabinet *c)
{
    static uint8_t records[SGML_MOST_RECORD_BYTES];
    uint32_t answer[SGML_ANSWER_SIZE];
    char name[SGML_MOST_NAMELEN + 1];
    const struct input *type = &c->type;
    if (sgml_judge(type->bytes, type->length, records, sizeof records, answer, c->name_length, c->edition))
        return refuse(type, answer);
    for (uint32_t element = 1; element <= answer[SGML_ANSWER_COUNT]; element++) {
        sgml_copy_name(type->bytes, records, answer[SGML_ANSWER_COUNT], element, name, sizeof name);
        for (int role = 0; role < ROLES; role++)
            if (!strcmp(name, role_names[role]))
                c->roles[role] = element;
    }
    if (find_attributes(c, answer))
        return refuse(type, answer);
    if (c->roles[ITEM])
        return COUNTED;
    printf("%s: this type declares no element ITEM, so there is nothing to count\n", type->name);
    return AT_FAULT;
}

static int is_separator(uint8_t byte)
{
    return byte == ' ' || byte == '\t' || byte == '\r';
}

/* The number that these bytes are: one to DIGITS digits, with nothing but separators around them. */
static int is_number(const uint8_t *b, size_t length, uint32_t *value)
{
    const uint8_t *end = b + length;
    int digits = 0;
    for (*value = 0; b < end && is_separator(*b); b++)
        ;
    for (; b < end && isdigit(*b) && digits < DIGITS; b++, digits++)
        *value = 10 * *value + (*b - (uint32_t)'0');
    while (b < end && is_separator(*b))
        b++;
    return digits && b == end;
}

static int is_space(uint8_t byte)
{
    return is_separator(byte) || byte == '\n';
}

/* Adds bytes to a text, one space for all separators between two words. */
static size_t put_words(char *text, size_t length, int is_parted, const uint8_t *b, size_t n)
{
    for (size_t i = 0; i < n; i++) {
        if (is_separator(b[i])) {
            is_parted = 1;
            continue;
        }
        if (is_parted && length)
            text[length++] = ' ';
        is_parted = 0;
        text[length++] = (char)b[i];
    }
    text[length] = 0;
    return length;
}

/* All the data between two events, as one line of text. A line break or a tag between two runs of data
 * parts them; a comment does not. The text holds until the next call. */
static const char *text_between(const struct reading *r, uint32_t from, uint32_t to)
{
    static char text[SGML_DOCUMENT_LIMIT + 1];
    const uint8_t *b = r->catalogue.bytes;
    size_t length = 0, end = 0;
    int is_parted = 0;
    text[0] = 0;
    for (uint32_t k = from + 1; k < to; k++) {
        struct sgml_event e = sgml_event_at(r->events, k);
        if (e.kind != SGML_KIND_DATA) {
            is_parted = 1;
            continue;
        }
        if (length && (is_space(b[end - 1]) || is_space(b[end]) || is_space(b[e.offset - 1])))
            is_parted = 1;
        length = put_words(text, length, is_parted, b + e.offset, e.length);
        end = e.offset + e.length;
        is_parted = 0;
    }
    return text;
}

static const char *name_of(const struct reading *r, const struct open *item)
{
    return item ? text_between(r, item->name_from, item->name_to) : "";
}

/* The innermost open ITEM; null if there is none. */
static struct open *item_of(struct reading *r)
{
    for (uint32_t i = r->depth; i > 0; i--)
        if (r->open[i - 1].element == r->cabinet->roles[ITEM])
            return &r->open[i - 1];
    return NULL;
}

/* Prints what is wrong with the item at hand, or with the drawer if there is no item. */
static void fault(struct reading *r, size_t at, const char *text)
{
    struct position p;
    const char *name = name_of(r, item_of(r));
    if (r->is_listing)
        return;
    p = show_place(&r->catalogue, at);
    if (*name)
        printf("item %s: ", name);
    printf("%s", text);
    show_line(&r->catalogue, p);
    r->faults++;
}

/* The number that an element from one event to another holds, as the digits of one data event: a line
 * break, a comment or a tag cuts a number in two, and the parts are not joined. Reports what is wrong with
 * it. */
static int is_number_between(struct reading *r, uint32_t from, uint32_t to, uint32_t *value, const char *cut,
                             const char *unfit)
{
    struct sgml_event start = sgml_event_at(r->events, from), last = { 0, 0, 0, 0, 0 };
    uint32_t runs = 0;
    for (uint32_t k = from + 1; k < to; k++) {
        struct sgml_event e = sgml_event_at(r->events, k);
        const uint8_t *b = r->catalogue.bytes + e.offset;
        uint32_t i = 0;
        while (e.kind == SGML_KIND_DATA && i < e.length && is_separator(b[i]))
            i++;
        if (e.kind == SGML_KIND_DATA && i == e.length)
            continue; /* a blank run is no part of a number */
        runs += e.kind == SGML_KIND_DATA ? 1 : 2;
        last = e;
    }
    if (runs == 1 && is_number(r->catalogue.bytes + last.offset, last.length, value))
        return 1;
    fault(r, runs ? last.offset : start.offset + start.length, runs > 1 ? cut : unfit);
    return 0;
}

/* The unit of this name, a new one if the catalogue did not have it before. */
static uint32_t unit_named(struct reading *r, const char *name, size_t at)
{
    char key[UNIT_BYTES + 1];
    uint32_t unit = 0;
    size_t i;
    for (i = 0; name[i] && i < UNIT_BYTES; i++)
        key[i] = (char)(r->cabinet->unit.value == SGML_CDATA ? name[i] : toupper((unsigned char)name[i]));
    key[i] = 0;
    if (name[i]) {
        fault(r, at, "this unit has too long a name");
        return 0;
    }
    while (unit < r->unit_count && strcmp(r->units[unit], key))
        unit++;
    if (unit == UNITS) {
        fault(r, at, "there are too many different units");
        return 0;
    }
    if (unit == r->unit_count)
        strcpy(r->units[r->unit_count++], key);
    return unit;
}

/* The par level and the unit that the tag of an ITEM gives, or the type by default. */
static void take_attributes(struct reading *r, struct open *item, size_t at)
{
    const uint8_t *type = r->cabinet->type.bytes, *catalogue = r->catalogue.bytes;
    if (r->par.kind) {
        item->is_levelled = is_number(sgml_value(type, catalogue, r->par), r->par.length, &item->par);
        if (!item->is_levelled)
            fault(r, at, "this par level is not a number of one to nine digits");
    }
    if (r->unit.kind) {
        static char name[SGML_DOCUMENT_LIMIT + 1];
        put_words(name, 0, 0, sgml_value(type, catalogue, r->unit), r->unit.length);
        item->unit = unit_named(r, name, at);
    }
}

static void take_start(struct reading *r, uint32_t k, struct sgml_event e)
{
    struct open *o = &r->open[r->depth];
    memset(o, 0, sizeof *o);
    o->element = e.element;
    o->event = k;
    o->drawer = r->depth ? o[-1].drawer : 0;
    if (r->depth == 1 && !r->cabinet->roles[NUMBER])
        o->drawer = e.place;
    r->depth++;
    if (e.element == r->cabinet->roles[ITEM]) {
        if (o->drawer > DRAWERS) {
            fault(r, e.offset, "this cabinet has no such drawer");
            o->drawer = 0;
        }
        take_attributes(r, o, e.offset);
    }
    r->par.kind = r->unit.kind = 0;
}

/* Adds an item to its drawer and unit. */
static void add_item(struct reading *r, const struct open *item)
{
    struct total *t = &r->totals[item->drawer][item->unit];
    if (r->is_listing)
        return;
    t->items++;
    t->counted += (uint32_t)item->is_counted;
    t->pieces += item->quantity;
    if (item->is_counted && item->is_levelled) {
        t->levelled++;
        t->par += item->par;
        t->missing += item->par > item->quantity ? item->par - item->quantity : 0;
    }
}

/* Says in the second pass that nobody counted an item whose par level is known. */
static void list_item(const struct reading *r, const struct open *item)
{
    const char *name = name_of(r, item);
    if (!r->is_listing || item->is_counted || !item->is_levelled)
        return;
    show_place(&r->catalogue, sgml_event_at(r->events, item->event).offset);
    printf("item%s%s is not counted: %" PRIu32 "%s%s should be in ", *name ? " " : "", name, item->par,
           item->unit ? " " : "", r->units[item->unit]);
    if (item->drawer)
        printf("drawer %" PRIu32 "\n", item->drawer);
    else
        printf("no drawer\n");
}

/* The quantity of the innermost ITEM. */
static void take_quantity(struct reading *r, uint32_t from, uint32_t to)
{
    struct open *item = item_of(r);
    size_t at = sgml_event_at(r->events, from).offset;
    uint32_t value;
    if (!item)
        fault(r, at, "this quantity stands in no item");
    else if (item->is_counted)
        fault(r, at, "this is a second quantity for the item");
    else if (is_number_between(r, from, to, &value, "this quantity is cut in two",
                               "this quantity is not a number of one to nine digits")) {
        item->quantity = value;
        item->is_counted = 1;
    }
}

/* The number of the drawer that the element around it is. */
static void take_number(struct reading *r, uint32_t from, uint32_t to)
{
    const char *unfit = "this cabinet has no such drawer";
    struct sgml_event start = sgml_event_at(r->events, from);
    uint32_t value;
    if (r->depth < 2 || !is_number_between(r, from, to, &value, "this drawer's number is cut in two", unfit))
        return;
    if (value < 1 || value > DRAWERS) {
        fault(r, start.offset + start.length, unfit);
        return;
    }
    r->open[r->depth - 2].drawer = value;
    r->is_named[value] = 1;
}

static void take_end(struct reading *r, uint32_t k)
{
    const uint32_t *roles = r->cabinet->roles;
    struct open *o = &r->open[r->depth - 1], *item = item_of(r);
    if (o->element == roles[NAME] && item) {
        item->name_from = o->event;
        item->name_to = k;
    } else if (o->element == roles[UNIT] && item) {
        item->unit = unit_named(r, text_between(r, o->event, k), sgml_event_at(r->events, o->event).offset);
    } else if (o->element == roles[NUMBER] && !item) {
        take_number(r, o->event, k);
    } else if (o->element == roles[QTY]) {
        take_quantity(r, o->event, k);
    } else if (o->element == roles[ITEM]) {
        add_item(r, o);
        list_item(r, o);
    }
    r->depth--;
}

/* Goes through the events. Numbers are the controller's own business: it reports each that makes no sense. */
static void follow(struct reading *r)
{
    const struct cabinet *c = r->cabinet;
    r->depth = 0;
    for (uint32_t k = 0; k < r->count; k++) {
        struct sgml_event e = sgml_event_at(r->events, k);
        if (e.kind == SGML_KIND_ATTRIBUTE || e.kind == SGML_KIND_ATTRIBUTE_DEFAULTED) {
            int is_item = sgml_element_at(r->events, r->count, k) == c->roles[ITEM];
            if (is_item && e.element == c->par.number)
                r->par = e;
            if (is_item && e.element == c->unit.number)
                r->unit = e;
        } else if (e.kind == SGML_KIND_START || e.kind == SGML_KIND_START_INFERRED) {
            take_start(r, k, e);
        } else if (e.kind != SGML_KIND_DATA) {
            take_end(r, k);
        }
    }
}

/* How wide the column of units is; 0 if the type has none. */
static int unit_width(const struct reading *r)
{
    size_t width = strlen("unit");
    for (uint32_t unit = 0; unit < r->unit_count; unit++)
        width = strlen(r->units[unit]) > width ? strlen(r->units[unit]) : width;
    return r->cabinet->unit.number || r->cabinet->roles[UNIT] ? (int)width : 0;
}

/* A row of the table; units and par levels if the type has them. */
static void show_row(const struct reading *r, const char *drawer, const char *unit, const struct total *t)
{
    const struct cabinet *c = r->cabinet;
    int width = unit_width(r);
    printf("%6s", drawer);
    if (width)
        printf(" %-*s", width, unit);
    printf(" %10" PRIu32 " %10" PRIu32 " %12" PRIu64, t->items, t->counted, t->pieces);
    if (c->par.number && t->levelled)
        printf(" %12" PRIu64 " %12" PRIu64, t->par, t->missing);
    else if (c->par.number)
        printf(" %12s %12s", "-", "-");
    printf("\n");
}

/* The rows of a drawer, or of all: one for each unit in it. */
static void show_rows(const struct reading *r, const char *drawer, const struct total *totals, int is_named)
{
    for (uint32_t unit = 0; unit < r->unit_count; unit++)
        if (totals[unit].items) {
            show_row(r, drawer, unit ? r->units[unit] : "-", &totals[unit]);
            is_named = 0;
        }
    if (is_named)
        show_row(r, drawer, "-", &totals[0]);
}

static void show_table(const struct reading *r)
{
    static struct total all[UNITS];
    int width = unit_width(r);
    char name[16];
    memset(all, 0, sizeof all);
    printf("drawer");
    if (width)
        printf(" %-*s", width, "unit");
    printf("      items    counted       pieces");
    printf("%s\n", r->cabinet->par.number ? "          par        short" : "");
    for (int d = 0; d <= DRAWERS; d++) {
        snprintf(name, sizeof name, "%d", d);
        show_rows(r, d ? name : "none", r->totals[d], r->is_named[d]);
        for (uint32_t unit = 0; unit < r->unit_count; unit++) {
            const struct total *t = &r->totals[d][unit];
            all[unit].items += t->items;
            all[unit].counted += t->counted;
            all[unit].levelled += t->levelled;
            all[unit].pieces += t->pieces;
            all[unit].par += t->par;
            all[unit].missing += t->missing;
        }
    }
    show_rows(r, "all", all, 1);
}

/* Counts a catalogue that was accepted. If a figure is at fault no table is shown: a wrong count of stock
 * is worse than none. */
static enum status count(const struct cabinet *c, const struct input *file, const uint8_t *events, uint32_t n)
{
    static struct reading r;
    memset(&r, 0, sizeof r);
    r.cabinet = c;
    r.catalogue = *file;
    r.events = events;
    r.count = n;
    r.unit_count = 1;
    follow(&r);
    if (r.faults) {
        printf("%" PRIu32 " at fault, nothing counted\n", r.faults);
        return AT_FAULT;
    }
    show_table(&r);
    r.is_listing = 1;
    follow(&r);
    return COUNTED;
}

/* Gives each catalogue of a batch its stretch of the buffer, and reads all of them. Those that need more
 * room are then given more, up to what the most events of such a catalogue take, and SHORT is the answer. */
enum reached { SETTLED, SHORT, FAILED };
static enum reached read_batch(const struct cabinet *c, struct batch *b)
{
    uint32_t answer[SGML_ANSWER_SIZE];
    size_t n = b->count, room = 0, length = b->starts[n - 1] + b->lengths[n - 1];
    enum reached reached = SETTLED;
    for (size_t k = 0; k < n; room += b->sizes[k++])
        b->froms[k] = room;
    free(b->events);
    b->events = malloc(room);
    if (!b->events) {
        no_memory();
        return FAILED;
    }
    if (sgml_read_batch(c->type.bytes, c->type.length, b->string, length, b->starts, n, b->lengths, n,
                        b->events, room, b->froms, n, b->sizes, n, b->answers, n * SGML_ANSWER_SIZE, answer,
                        c->name_length, c->edition)) {
        fprintf(stderr, "controller: %s\n", sgml_refusal_text(answer[SGML_ANSWER_NUMBER]));
        return FAILED;
    }
    for (size_t k = 0; k < n; k++) {
        size_t most = SGML_EVENT_BYTES * SGML_MOST_EVENTS(b->lengths[k]);
        if (b->answers[SGML_ANSWER_SIZE * k + SGML_ANSWER_NUMBER] != SGML_ERR_NO_ROOM || b->sizes[k] >= most)
            continue;
        b->sizes[k] = 4 * b->sizes[k] < most ? 4 * b->sizes[k] : most;
        reached = SHORT;
    }
    return reached;
}

/* Reads the files of a batch one behind the other, with a byte more than the limit of each, so that the
 * library sees which is too long. */
static void load(struct batch *b, char **names)
{
    uint8_t *to = b->string;
    for (size_t k = 0; k < b->count; k++) {
        b->files[k] = loaded(names[k], to, SGML_DOCUMENT_LIMIT + 1);
        b->starts[k] = (size_t)(to - b->string);
        b->lengths[k] = b->files[k].length;
        b->sizes[k] = ROOM;
        to += b->lengths[k];
    }
}

/* Shows the catalogues in turn, each under its name if there are several. */
static enum status show_batch(const struct cabinet *c, const struct batch *b, int is_headed)
{
    enum status status = COUNTED;
    for (size_t k = 0; k < b->count; k++) {
        const struct input *file = &b->files[k];
        const uint32_t *answer = b->answers + SGML_ANSWER_SIZE * k;
        if (file->error) {
            status = worse(status, unread(file));
            continue;
        }
        if (is_headed)
            printf("%s:\n", file->name);
        if (answer[SGML_ANSWER_NUMBER])
            status = worse(status, refuse(file, answer));
        else
            status = worse(status, count(c, file, b->events + b->froms[k], answer[SGML_ANSWER_COUNT]));
    }
    return status;
}

/* Reads up to SGML_BATCH_LIMIT catalogues in one call, and in more calls only where the room was too
 * small. */
static enum status run_batch(const struct cabinet *c, char **names, size_t count, int is_headed)
{
    static struct batch b;
    enum status status;
    enum reached reached;
    memset(&b, 0, sizeof b);
    b.count = count;
    b.string = malloc(count * (SGML_DOCUMENT_LIMIT + 1));
    if (!b.string)
        return no_memory();
    load(&b, names);
    do
        reached = read_batch(c, &b);
    while (reached == SHORT);
    status = reached == FAILED ? NOT_RUN : show_batch(c, &b, is_headed);
    free(b.string);
    free(b.events);
    return status;
}

/* What was printed counts only if it could be written. */
static enum status shown(enum status status)
{
    errno = 0;
    if (!fflush(stdout) && !ferror(stdout))
        return status;
    fprintf(stderr, "controller: standard output: %s\n", errno ? strerror(errno) : "cannot be written");
    return NOT_RUN;
}

/* The value of an option that takes a number in a range; reports one that is not. */
static int is_in_range(const char *option, const char *word, uint32_t least, uint32_t most, uint32_t *value)
{
    if (word && !word[strspn(word, "0123456789")] && is_number((const uint8_t *)word, strlen(word), value) &&
        *value >= least && *value <= most)
        return 1;
    fprintf(stderr, "controller: %s takes a number from %" PRIu32 " to %" PRIu32 "\n", option, least, most);
    return 0;
}

/* Takes the options. The place of the type among the arguments; 0 if they make no sense, which is
 * reported. */
static int type_after(struct cabinet *c, int argc, char **argv)
{
    int i = 1;
    for (; i < argc && argv[i][0] == '-'; i += 2) {
        const char *option = argv[i], *word = argv[i + 1];
        int is_right = 0;
        if (!strcmp(option, "--name-length"))
            is_right = is_in_range(option, word, SGML_NAMELEN, SGML_MOST_NAMELEN, &c->name_length);
        else if (!strcmp(option, "--edition"))
            is_right = is_in_range(option, word, SGML_FIRST_EDITION, SGML_SECOND_EDITION, &c->edition);
        else
            fprintf(stderr, "controller: unknown option: %s\n", option);
        if (!is_right)
            return 0;
    }
    if (argc - i >= 2)
        return i;
    fprintf(stderr, "usage: controller [--edition N] [--name-length N] TYPE CATALOGUE..\n");
    return 0;
}

int main(int argc, char **argv)
{
    static uint8_t type[SGML_TYPE_LIMIT + 1]; /* a byte more, so that the library sees if it is too long */
    struct cabinet c;
    enum status status;
    int next;
    memset(&c, 0, sizeof c);
    c.name_length = SGML_NAMELEN;
    c.edition = SGML_FIRST_EDITION;
    next = type_after(&c, argc, argv);
    if (!next)
        return NOT_RUN;
    c.type = loaded(argv[next++], type, sizeof type);
    if (c.type.error)
        return unread(&c.type);
    status = find_roles(&c);
    if (!status) {
        int is_headed = argc - next > 1;
        for (; next < argc; next += SGML_BATCH_LIMIT) {
            size_t left = (size_t)(argc - next), n = left < SGML_BATCH_LIMIT ? left : SGML_BATCH_LIMIT;
            status = worse(status, run_batch(&c, argv + next, n, is_headed));
        }
    }
    return shown(status);
}
