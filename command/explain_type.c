/* explain_type.c - refusals of a type file in words, and names in its models that are never declared. */
#include "fault.h"

/* A word may stand at the fault, right there or behind a space. Behind another name it always needs one. */
static int fits(const struct fault *f, const char *word, int is_spaced)
{
    char tail[NAME_ROOM + 4] = "";
    int is_joined = is_name_byte((uint8_t)word[0]) && f->at && is_name_byte(f->type->bytes[f->at - 1]);
    size_t before = is_spaced || is_joined;
    append(tail, sizeof tail, before ? " " : "");
    append(tail, sizeof tail, word);
    append(tail, sizeof tail, " ");
    before += !strcmp(word, "-"); /* a "-" by itself, and not the first of two */
    return may_stand(f->q, f->at, tail, before);
}

/* What may stand at a byte of the type file, by asking for each. Where a name may, any word does that is one.
 */
static void add_fitting(const struct fault *f, struct list *list, int is_spaced)
{
    static const char *const words[] = {
        "-",        "O",       "EMPTY",     "(",        "#PCDATA",   ",",        "|", "&",
        ")",        "CDATA",   "NUMBER",    "NAME",     "#REQUIRED", "#IMPLIED", ">", "<!ELEMENT",
        "!ELEMENT", "ELEMENT", "<!ATTLIST", "!ATTLIST", "ATTLIST",   "<!-- -->",
    };
    int is_name = fits(f, "A", is_spaced);
    size_t k;
    if (is_name)
        add(list, "a name");
    for (k = 0; k < sizeof words / sizeof *words; k++)
        if (fits(f, words[k], is_spaced) && !(is_name && is_letter((uint8_t)words[k][0]))) {
            char quoted[32] = "\"";
            append(quoted, sizeof quoted, words[k]);
            append(quoted, sizeof quoted, "\"");
            add(list, quoted);
        }
    if (fits(f, "\"", is_spaced))
        add(list, "a value in quotes");
}

static void put_fitting(const struct fault *f)
{
    struct list list = { "", 0, 0 };
    if (f->at > 1 && stands(f->type, f->at - 2, "<!"))
        add(&list, "\"--\"");
    if (f->at > 2 && stands(f->type, f->at - 3, "<!-"))
        add(&list, "\"-\"");
    add_fitting(f, &list, 0);
    if (!list.count)
        add_fitting(f, &list, 1);
    put_list(f, "; expected: ", &list);
}

void unfit_in_type(const struct fault *f)
{
    uint8_t byte = byte_at(f->type, f->at);
    size_t s = form_start(f);
    put_here(f, f->type, f->at);
    put(f, " is not allowed here");
    if ((is_name_byte(byte) && fits(f, name_at(f, f->type, f->at), 0)) ||
        (byte == '#' && fits(f, name_at(f, f->type, f->at), 1)) ||
        ((byte == '"' || byte == '\'') && fits(f, "\"", 1)))
        put(f, "; a space is missing before it");
    else
        put_fitting(f);
    if (!stands(f->type, s, "<!") || !ends_within(f->q, f->type, f->at))
        return;
    if (sgml_position_of(f->type->bytes, f->type->length, s).end < f->at) {
        put(f, "; the declaration began at ");
        put_place(f, f->type, s);
    }
    put_open_quote(f, s);
}

/* The level is at fault if a name would do in place of the "(". */
void quantity(const struct fault *f)
{
    const char *name = name_at(f, f->type, f->at);
    if (byte_at(f->type, f->at) == '(' && may_stand(f->q, f->at, "A", 0))
        put(f, "groups are nested more than %u deep", (unsigned)SGML_GRPLVL);
    else
        put(f, "%s%sone too many: a group has at most %u tokens, and a content model %u", name,
            *name ? " is " : "", (unsigned)SGML_GRPCNT, (unsigned)SGML_GRPGTCNT);
}

void declared_twice(const struct fault *f)
{
    const char *name = name_at(f, f->type, f->at);
    char other[SGML_MOST_NAMELEN + 1];
    uint32_t k;
    put(f, "%s is declared twice", name);
    judge_beginning(f->q, form_start(f), "");
    for (k = 1; k <= f->q->elements; k++) {
        copy_name(f->q, k, other);
        if (!strcmp(name, other)) {
            put(f, ", first at ");
            put_place(f, f->type, sgml_record_at(f->q->records, k - 1).name_offset);
        }
    }
}

void elements(const struct fault *f)
{
    if (f->at == f->type->length)
        put(f, "the type file declares no element");
    else
        put(f, "%s is one too many: at most %u elements can be declared", name_at(f, f->type, f->at),
            (unsigned)SGML_ELEMENT_LIMIT);
}

/* Where the place stands that is so many places before the one at a byte, in a content model that was read
 * whole: there only a name or #PCDATA has name bytes. */
static size_t place_before(const struct input *type, size_t at, size_t places)
{
    while (places && at) {
        at--;
        if (type->bytes[at] == '#' || (is_name_byte(type->bytes[at]) && at &&
                                       !is_name_byte(type->bytes[at - 1]) && type->bytes[at - 1] != '#'))
            places--;
    }
    return at;
}

void ambiguous(const struct fault *f)
{
    unsigned first = f->answer[SGML_ANSWER_FIRST], second = f->answer[SGML_ANSWER_SECOND];
    size_t other = place_before(f->type, f->at, second - first);
    put(f, "this content model is ambiguous: %s may be this one, place %u, or ", name_at(f, f->type, f->at),
        second);
    put(f, "%s at ", name_at(f, f->type, other));
    put_place(f, f->type, other);
    put(f, ", place %u", first);
}

/* The name stands in a content model before this byte, so that it was warned of already. */
static int is_known(const struct fault *f, const char *name, size_t before)
{
    uint32_t n = element_named(f->q, name), k;
    char other[SGML_MOST_NAMELEN + 1];
    if (n && n <= f->q->declared)
        return 1;
    for (k = 1; k <= f->q->declared; k++) {
        size_t at, end = model_of(f->q, k, &at);
        for (end += at; at < end && at < before;) {
            size_t length = word_length(f->type, at);
            fold(f->type, at, length, other, sizeof other);
            if (length && !strcmp(other, name))
                return 1;
            at += length ? length : 1;
        }
    }
    return 0;
}

/* A declared name may be meant, or #PCDATA. */
static void put_meant(const struct fault *f, const char *name)
{
    struct list list = { "", 0, 0 };
    char other[SGML_MOST_NAMELEN + 1];
    uint32_t k;
    if (!strcmp(name, "PCDATA") || is_near(name, "PCDATA"))
        add(&list, "#PCDATA");
    for (k = 1; k <= f->q->declared; k++) {
        copy_name(f->q, k, other);
        if (is_close(name, other) && (strlen(name) > 2 || strlen(other) > 2))
            add(&list, other);
    }
    put_question(f, &list);
}

void warn(const struct fault *f, size_t *from, size_t *at)
{
    char name[SGML_MOST_NAMELEN + 1];
    uint32_t k;
    for (k = 1; k <= f->q->declared; k++) {
        size_t s, length, end = model_of(f->q, k, &s);
        for (end += s; s < end; s += length ? length : 1) {
            length = word_length(f->type, s);
            if (!length || s < *from || f->type->bytes[s] == '#')
                continue;
            fold(f->type, s, length, name, sizeof name);
            if (is_known(f, name, s) || !is_token(f->q, s, length))
                continue;
            *at = s;
            *from = s + length;
            put(f, "%s:", f->type->name);
            put_place(f, f->type, s);
            put(f, ": warning: %s is used in a content model, but never declared", name);
            put_meant(f, name);
            return;
        }
    }
}
