/* explain.c - a refusal in words. The number and the byte are the library's answer; the words name what
 * stands at that byte, and what the library answers to the questions of ask.h. */
#include "fault.h"
#include "sgml_messages.h"

static void too_long(const struct fault *f)
{
    if (f->input == f->type)
        put(f, "this type file has more than %u bytes", (unsigned)SGML_TYPE_LIMIT);
    else
        put(f, "this document has more than %u bytes", (unsigned)SGML_DOCUMENT_LIMIT);
}

static void put_hex(const struct fault *f, uint8_t byte)
{
    static const char digits[] = "0123456789ABCDEF";
    put(f, "0x%c%c", digits[byte / 16], digits[byte % 16]);
}

static void bad_byte(const struct fault *f)
{
    uint8_t byte = byte_at(f->input, f->at);
    if (!f->at && stands(f->input, 0, "\xEF\xBB\xBF")) {
        put(f, "the file begins with a byte order mark (0xEF 0xBB 0xBF), which is not allowed; save it "
               "without one, as ASCII");
        return;
    }
    if (!f->at && (stands(f->input, 0, "\xFF\xFE") || stands(f->input, 0, "\xFE\xFF"))) {
        put(f, "the file begins with a byte order mark of UTF-16, which is not allowed; save it as ASCII");
        return;
    }
    put(f, "the byte ");
    put_hex(f, byte);
    put(f, " is not allowed: %s",
        byte > 127 ? "only ASCII characters are"
                   : "the only control characters allowed are tab and line ends");
}

static int is_in_tag(const struct fault *f, size_t s)
{
    return f->input == f->document && is_tag(f->document, s);
}

/* A name that the type declares may be meant, shorter by a letter; in a tag an attribute's, behind the tag's
 * own name. */
static void long_name(const struct fault *f)
{
    struct list list = { "", 0, 0 };
    const char *name = name_at(f, f->input, f->at);
    size_t s = form_start(f);
    put(f, "%s has %u bytes, and a name has at most %u", name, (unsigned)word_length(f->input, f->at),
        (unsigned)f->q->name_limit);
    if (f->input == f->type) {
        if (is_near(name, "ELEMENT") || is_near(name, "ATTLIST"))
            add(&list, is_near(name, "ELEMENT") ? "ELEMENT" : "ATTLIST");
    } else if (s == f->at - 1 || s == f->at - 2) {
        add_near_elements(f, name, &list);
    } else {
        add_near_attributes(f, tag_name(f, f->document, s), name, &list);
    }
    put_question(f, &list);
    if (is_in_tag(f, s))
        put_open_quote(f, s);
}

/* These bytes may stand at the fault. */
static int may_follow(const struct fault *f, const char *bytes)
{
    return f->input == f->type ? may_stand(f->q, f->at, bytes, 0) : may_come(f->q, bytes, 0);
}

static void unfinished(const struct fault *f)
{
    size_t s = form_start(f);
    put(f, "the %s ends within ", f->input == f->type ? "type file" : "document");
    if (s == f->input->length) {
        put(f, "a tag, a comment or a declaration");
        return;
    }
    if (stands(f->input, s, "<!--"))
        put(f, "the comment that began at ");
    else if (f->input == f->type)
        put(f, "the declaration that began at ");
    else
        put(f, "the tag <%s%s that began at ", stands(f->input, s, "</") ? "/" : "",
            tag_name(f, f->input, s));
    put_place(f, f->input, s);
    put(f, stands(f->input, s, "<!--") && may_follow(f, "x") ? " and has no \"-->\"" : " and has no \">\"");
    if (!stands(f->input, s, "<!--"))
        put_open_quote(f, s);
}

/* Between the comments of a declaration, or behind a "-" there. */
static void unfit_in_comment(const struct fault *f)
{
    put(f, "in the comment that began at ");
    put_place(f, f->input, form_start(f));
    put(f, " only %s is allowed here, not ",
        may_follow(f, ">") ? "\"--\", \">\" or a separator" : "a second \"-\"");
    put_here(f, f->input, f->at);
    put(f, ": the \"--\" before it ended the comment's text");
}

static int is_in_comment(const struct fault *f)
{
    return ends_within(f->q, f->input, f->at) && stands(f->input, form_start(f), "<!--");
}

static void malformed(const struct fault *f)
{
    if (f->at == f->input->length)
        unfinished(f);
    else if (is_in_comment(f))
        unfit_in_comment(f);
    else if (f->input == f->type)
        unfit_in_type(f);
    else
        unfit_in_tag(f);
}

/* What to leave out of a document: a declaration or a processing instruction, which ends with ">". */
static void put_leave_out(const struct fault *f, size_t end)
{
    if (end == f->at || f->input->bytes[end - 1] != '>')
        return;
    put(f, "; leave out the %u bytes from ", (unsigned)(end - f->at));
    put_place(f, f->input, f->at);
    put(f, " to the \">\" at ");
    put_place(f, f->input, end - 1);
}

/* A declaration that is not supported, or a keyword that is none. */
static void put_declaration(const struct fault *f)
{
    static const char *const known[] = {
        "DOCTYPE",  "ENTITY", "IDLINK",   "LINK",    "LINKTYPE",
        "NOTATION", "SGML",   "SHORTREF", "USELINK", "USEMAP",
    };
    const char *keyword = name_at(f, f->input, f->at + 2);
    struct list list = { "", 0, 0 };
    size_t k;
    put(f, "<!%s is not supported", keyword);
    if (f->input == f->document) {
        if (!strcmp(keyword, "DOCTYPE") || !strcmp(keyword, "ELEMENT") || !strcmp(keyword, "ATTLIST"))
            put(f, ": the declarations are in the type file, %s", f->type->name);
        else
            put(f, ": a document has tags, data and comments <!-- .. -->");
        put_leave_out(f, form_end(f->input, f->at));
        return;
    }
    for (k = 0; k < sizeof known / sizeof *known; k++)
        if (!strcmp(keyword, known[k])) {
            put(f, ": a type file has <!ELEMENT and <!ATTLIST declarations and comments");
            return;
        }
    put(f, ": there is no such declaration");
    if (is_near(keyword, "ELEMENT"))
        add(&list, "<!ELEMENT");
    if (is_near(keyword, "ATTLIST"))
        add(&list, "<!ATTLIST");
    if (!list.count)
        put(f, "; a type file has <!ELEMENT and <!ATTLIST declarations");
    put_question(f, &list);
}

/* The character that a reference stands for, in a few common cases; 0 for others. */
static char character_of(const struct input *input, size_t at, size_t length)
{
    static const struct {
        const char *name;
        char character;
    } known[] = { { "AMP", '&' }, { "LT", '<' }, { "GT", '>' }, { "QUOT", '"' }, { "APOS", '\'' } };
    char name[8];
    unsigned number = 0;
    size_t k;
    if (byte_at(input, at + 1) == '#') {
        for (k = at + 2;
             k < at + length && byte_at(input, k) >= '0' && byte_at(input, k) <= '9' && number < 1000; k++)
            number = 10 * number + (byte_at(input, k) - '0');
        return k == at + length && number > ' ' && number < 127 ? (char)number : 0;
    }
    fold(input, at + 1, length - 1, name, sizeof name);
    for (k = 0; k < sizeof known / sizeof *known; k++)
        if (!strcmp(name, known[k].name))
            return known[k].character;
    return 0;
}

/* A reference to an entity or a character, as it is written. */
static void put_reference(const struct fault *f)
{
    const struct input *input = f->input;
    int is_numeric = byte_at(input, f->at + 1) == '#';
    size_t length = 1 + word_length(input, f->at + 1), end = f->at + length;
    char character = character_of(input, f->at, length);
    int is_closed = byte_at(input, end) == ';';
    put_written(f, input, f->at, length + is_closed);
    put(f, is_numeric ? " is a character reference, which is not supported"
                      : " is an entity reference, which is not supported");
    if (character == '&' || character == '<')
        put(f, "; write the character itself, \"%c\", with a space after it if a letter follows", character);
    else if (character)
        put(f, "; write the character itself: %c", character);
    else if (is_closed)
        put(f, "; write the character itself, or a word for it");
    else if (!is_numeric) {
        put(f, "; for the character itself write a space after it: & ");
        put_written(f, input, f->at + 1, length - 1);
    }
}

static void left_out(const struct fault *f)
{
    const struct input *input = f->input;
    uint8_t byte = byte_at(input, f->at), next = byte_at(input, f->at + 1);
    size_t s, end = f->at;
    if (stands(input, f->at, "<![")) {
        put(f, "a marked section <![ is not supported");
    } else if (byte == '<' && next == '!') {
        put_declaration(f);
    } else if (byte == '<') {
        while (end < input->length && input->bytes[end++] != '>')
            ;
        put(f, "a processing instruction <? is not supported");
        put_leave_out(f, end);
    } else if (byte == '%') {
        put(f, "a reference to a parameter entity (%%) is not supported");
    } else if (byte == '&' && (input == f->document || next == '#' || is_in_list(f))) {
        put_reference(f);
        s = form_start(f);
        if (is_in_tag(f, s) && ends_within(f->q, f->document, f->at))
            put_open_quote(f, s);
    } else if (byte == '(') {
        put(f, "a declaration of several elements at once is not supported; declare each by itself");
    } else if (byte == '[') {
        put(f, is_in_list(f) ? "\"[\" in a group of tokens is not supported"
                             : "a data tag group [ is not supported");
    } else if (byte == '-' || byte == '+') {
        put(f, "exceptions %c(..) after the content are not supported", byte);
    } else {
        put(f, "the content %s is not supported; EMPTY and a group in parentheses are",
            name_at(f, input, f->at));
    }
}

static void no_room(const struct fault *f)
{
    put(f, "%s", sgml_refusal_text(f->answer[SGML_ANSWER_NUMBER]));
}

static void not_offered(const struct fault *f)
{
    if (f->q->name_limit < SGML_NAMELEN || f->q->name_limit > SGML_MOST_NAMELEN)
        put(f, "the name length must be %u to %u, not %u", (unsigned)SGML_NAMELEN,
            (unsigned)SGML_MOST_NAMELEN, (unsigned)f->q->name_limit);
    else
        put(f, "the edition must be %u or %u, not %u", (unsigned)SGML_FIRST_EDITION,
            (unsigned)SGML_SECOND_EDITION, (unsigned)f->q->edition);
}

static void explain(const struct fault *f)
{
    static void (*const texts[])(const struct fault *) = {
        no_room,          too_long,       bad_byte,    long_name,         malformed,  left_out,
        quantity,         declared_twice, elements,    ambiguous,         undeclared, not_open,
        not_allowed_here, incomplete,     end_missing, too_deep,          after_end,  section_end,
        no_document,      no_room,        attribute,   attribute_missing, misfit,
    };
    uint32_t number = f->answer[SGML_ANSWER_NUMBER];
    int is_of_document = (number >= SGML_ERR_NOT_OPEN && number <= SGML_ERR_NO_DOCUMENT) ||
                         number == SGML_ERR_ATTRIBUTE_MISSING;
    if (number == SGML_ERR_SETTINGS)
        not_offered(f);
    else if (is_of_document && f->input != f->document) /* no call answers so */
        no_room(f);
    else if (number == SGML_ERR_UNDECLARED && f->input == f->type)
        unlisted(f);
    else if (number == SGML_ERR_DECLARED_TWICE && is_in_list(f))
        attribute_twice(f);
    else if (number == SGML_ERR_REPEATED)
        put(f,
            "this \"&\" group is repeated by \"+\" or \"*\"; the members of an \"&\" group occur once each");
    else if (number < sizeof texts / sizeof *texts)
        texts[number](f);
    else
        no_room(f);
}

/* The question in the lent memory, with the rest for events; null where it does not fit. */
static struct question *question_in(void *memory, size_t length, const struct sgml_refused *r)
{
    size_t over = (size_t)((uintptr_t)memory % 16), skip = over ? 16 - over : 0;
    struct question *q = (struct question *)(void *)((uint8_t *)memory + skip);
    if (!memory || length < SGML_MESSAGE_LEAST)
        return NULL;
    q->name_limit = r->name_length;
    q->edition = r->edition;
    q->events = (uint8_t *)q + sizeof *q;
    q->events_length = length - skip - sizeof *q;
    return q;
}

/* The question fits in what is asked for at least. */
typedef char fits_in_least[sizeof(struct question) + 16 <= SGML_MESSAGE_LEAST ? 1 : -1];

static void begin_text(struct text *t, char *text, size_t room)
{
    t->to = text;
    t->room = text ? room : 0;
    t->length = 0;
    t->next = 0;
    if (t->room)
        text[0] = 0;
}

/* Text of a refusal, with what stands around it where that is wanted. */
static size_t message(const struct sgml_refused *r, int is_whole, void *memory, size_t memory_len, char *text,
                      size_t room)
{
    struct input type = { r->type_name, r->type, r->type_length },
                 document = { r->document_name, r->document, r->document_length };
    int is_type = !r->document_name || r->answer[SGML_ANSWER_INPUT] != SGML_IN_DOCUMENT;
    struct text t;
    struct fault f = { &t,
                       question_in(memory, memory_len, r),
                       &type,
                       r->document_name ? &document : NULL,
                       is_type ? &type : &document,
                       r->answer[SGML_ANSWER_POSITION],
                       r->answer };
    if (f.at > f.input->length)
        f.at = f.input->length;
    begin_text(&t, text, room);
    if (is_whole) {
        put(&f, "%s:", f.input->name);
        put_place(&f, f.input, f.at);
        put(&f, ": ");
    }
    if (f.q && type.length <= SGML_TYPE_LIMIT && document.length <= SGML_DOCUMENT_LIMIT)
        begin_question(f.q, &type, f.document, f.at);
    if (f.q)
        explain(&f);
    else
        no_room(&f);
    if (is_whole)
        put(&f, " [%u]", (unsigned)r->answer[SGML_ANSWER_NUMBER]);
    return t.length;
}

size_t sgml_message(const struct sgml_refused *r, void *memory, size_t memory_len, char *text, size_t room)
{
    return message(r, 1, memory, memory_len, text, room);
}

size_t sgml_message_text(const struct sgml_refused *r, void *memory, size_t memory_len, char *text,
                         size_t room)
{
    return message(r, 0, memory, memory_len, text, room);
}

size_t sgml_warning(const struct sgml_refused *r, void *memory, size_t memory_len, size_t *from, size_t *at,
                    char *text, size_t room)
{
    struct input type = { r->type_name, r->type, r->type_length };
    struct text t;
    struct fault f = { &t, question_in(memory, memory_len, r), &type, NULL, &type, 0, NULL };
    begin_text(&t, text, room);
    if (f.q && type.length <= SGML_TYPE_LIMIT) {
        begin_question(f.q, &type, NULL, 0);
        f.at = *from;
        warn(&f, from, at);
    }
    return t.length;
}

size_t sgml_source_line(const uint8_t *input, size_t length, size_t at, char *text, size_t room)
{
    enum { BEFORE = 56, WIDE = 72 };
    struct sgml_position p = sgml_position_of(input, length, at);
    size_t before = p.column - 1 > BEFORE ? BEFORE : p.column - 1;
    size_t i, from = p.start + p.column - 1 - before, end = p.end - from > WIDE ? from + WIDE : p.end;
    int is_cut = from > p.start;
    struct text t;
    struct fault f = { &t, NULL, NULL, NULL, NULL, 0, NULL };
    begin_text(&t, text, room);
    put(&f, is_cut ? "..." : "");
    for (i = from; i < end && !(input[i] == '\r' && i + 1 == p.end); i++)
        put(&f, "%c",
            input[i] == '\t' || input[i] == '\r' ? ' '
            : input[i] < 32 || input[i] > 126    ? '?'
                                                 : input[i]);
    put(&f, end < p.end ? "...\n" : "\n");
    for (i = 0; i < before + (is_cut ? 3 : 0); i++)
        put(&f, " ");
    put(&f, "^\n");
    return t.length;
}
