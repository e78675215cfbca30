/* explain_document.c - refusals of a document in words: what is open at the fault, what is in the way, and
 * what may come. */
#include "fault.h"

enum { LATEST = 200 /* children of an element, from its last, before which a token is tried */ };

/* What may stand at the fault, by asking for each. */
void unfit_in_tag(const struct fault *f)
{
    static const struct {
        const char *tail, *words;
    } forms[] = {
        { ">", "\">\"" }, { "A", "the name of an attribute" }, { "=", "\"=\"" }, { "\"", "a value in quotes" }
    };
    struct list list = { "", 0, 0 };
    uint8_t byte = byte_at(f->document, f->at);
    size_t s = form_start(f), k;
    for (k = 0; k < sizeof forms / sizeof *forms; k++)
        if (may_go_on(f->q, forms[k].tail) &&
            !(k == 1 && f->at && is_name_byte(f->document->bytes[f->at - 1])))
            add(&list, forms[k].words);
    put(f, "in the tag <%s%s that began at ", stands(f->document, s, "</") ? "/" : "",
        tag_name(f, f->document, s));
    put_place(f, f->document, s);
    if (byte == '<') {
        put(f, " the \">\" is missing before this \"<\"");
    } else {
        put_list(f, " only ", &list);
        put(f, list.count ? " is allowed here, not " : " this is not allowed: ");
        put_here(f, f->document, f->at);
        if (stands(f->document, s, "</") && is_letter(byte))
            put(f, ": an end tag has no attributes");
    }
    put_open_quote(f, s);
}

/* The element's tag may come at the fault, where a tag of another name stands: its start tag or its end tag,
 * as that is. */
static int may_stand_for(const struct fault *f, uint32_t element)
{
    f->q->start[0] = 0;
    if (stands(f->document, f->at, "</"))
        add_tag(f->q, f->q->start, TAIL, "</", element);
    else
        add_start_tag(f->q, f->q->start, TAIL, element);
    return may_come(f->q, f->q->start, 0);
}

/* A short name is close to many: so it is one whose tag may come there. */
void add_near_elements(const struct fault *f, const char *name, struct list *list)
{
    char other[SGML_MOST_NAMELEN + 1];
    uint32_t k;
    for (k = 1; k <= f->q->declared; k++) {
        copy_name(f->q, k, other);
        if (is_near(name, other) || (f->input == f->document && byte_at(f->document, f->at) == '<' &&
                                     is_close(name, other) && may_stand_for(f, k)))
            add(list, other);
    }
}

void undeclared(const struct fault *f)
{
    struct list list = { "", 0, 0 };
    const char *name = tag_name(f, f->document, f->at);
    put(f, "the element %s is not declared in %s", name, f->type->name);
    if (element_named(f->q, name)) {
        put(f, ", though it is used in a content model there");
        add_near_elements(f, name, &list);
        put_list(f, "; declared is ", &list);
        return;
    }
    add_near_elements(f, name, &list);
    put_question(f, &list);
}

static void put_name(const struct fault *f, uint32_t element)
{
    char name[SGML_MOST_NAMELEN + 1] = "data";
    if (element)
        copy_name(f->q, element, name);
    put(f, "%s", name);
}

static void put_open(const struct fault *f, struct open o)
{
    put_name(f, o.element);
    put(f, " (%s at ", o.is_written ? "begun" : "inferred");
    put_place(f, f->document, o.offset);
    put(f, ")");
}

/* Adds a start tag; a name that the type does not declare is marked. */
static void add_start(const struct fault *f, struct list *list, uint32_t element)
{
    char tag[SGML_MOST_NAMELEN + 20] = "";
    add_tag(f->q, tag, sizeof tag, "<", element);
    if (element > f->q->declared)
        append(tag, sizeof tag, " (never declared)");
    add(list, tag);
}

/* The event with which the last element of this number ended before the fault; how many events there are if
 * there was none. */
static uint32_t last_end(const struct fault *f, uint32_t element)
{
    uint32_t k = f->q->event_count;
    while (k--) {
        struct sgml_event e = sgml_event_at(f->q->events, k);
        if ((e.kind == SGML_KIND_END || e.kind == SGML_KIND_END_INFERRED) && e.element == element)
            return k;
    }
    return f->q->event_count;
}

/* Where the element begun that the event k ends. */
static void put_ended(const struct fault *f, uint32_t k)
{
    uint32_t level = 1, end = sgml_event_at(f->q->events, k).offset;
    while (level && k--) {
        struct sgml_event e = sgml_event_at(f->q->events, k);
        if (e.kind == SGML_KIND_END || e.kind == SGML_KIND_END_INFERRED || e.kind == SGML_KIND_END_OF_EMPTY)
            level++;
        else if ((e.kind == SGML_KIND_START || e.kind == SGML_KIND_START_INFERRED) && !--level) {
            struct open o = { e.element, e.offset, k, e.kind == SGML_KIND_START };
            put(f, "; the last ");
            put_open(f, o);
            put(f, " ended at ");
            put_place(f, f->document, end);
        }
    }
}

/* An end tag that ends the element stands right before the fault. */
static int is_doubled(const struct fault *f, struct sgml_event e)
{
    size_t at = (size_t)e.offset + e.length;
    while (is_separator(byte_at(f->document, at)))
        at++;
    return e.kind == SGML_KIND_END && at == f->at;
}

void not_open(const struct fault *f)
{
    struct open open[SGML_TAGLVL];
    struct list list = { "", 0, 0 };
    const char *name = tag_name(f, f->document, f->at);
    uint32_t k, element = element_named(f->q, name);
    int depth = open_at(f->q, open), i;
    if (element && !sgml_record_at(f->q->records, element - 1).content) {
        put(f, "</%s>, but %s is EMPTY and has no end tag", name, name);
        return;
    }
    put(f, "</%s>, but no %s is open", name, name);
    k = last_end(f, element);
    f->q->start[0] = 0;
    add_start_tag(f->q, f->q->start, TAIL, element);
    if (may_come(f->q, f->q->start, 0) &&
        !(k < f->q->event_count && is_doubled(f, sgml_event_at(f->q->events, k))))
        put(f, "; <%s> may be missing before it", name);
    else if (k < f->q->event_count)
        put_ended(f, k);
    for (i = 0; i < depth; i++) {
        char other[SGML_MOST_NAMELEN + 1];
        copy_name(f->q, open[i].element, other);
        add(&list, other);
    }
    if (depth > 0)
        put(f, "; open %s %s", depth > 1 ? "are" : "is", list.text);
}

/* The innermost open element that does not end here by itself: the end tags of those inside it may come one
 * after the other, and its own may not, or may not be omitted. Its index from the outermost. */
static int stuck_at(const struct fault *f, const struct open *open, int depth, int *is_incomplete)
{
    char *tail = f->q->tail;
    int i = depth;
    tail[0] = 0;
    for (;;) {
        size_t before = strlen(tail);
        add_tag(f->q, tail, TAIL, "</", open[--i].element);
        *is_incomplete = !may_come(f->q, tail, before);
        if (*is_incomplete || i == 0 || !sgml_record_at(f->q->records, open[i].element - 1).end_tag)
            return i;
    }
}

/* What may come at the fault: start tags, data, and the end tag of the innermost open element. */
static void put_allowed(const struct fault *f, const struct open *open, int depth, const struct list *missing)
{
    struct list list = { "", 0, 0 };
    char tag[SGML_MOST_NAMELEN + 4] = "";
    uint32_t k;
    for (k = 1; k <= f->q->elements; k++) {
        f->q->start[0] = 0;
        add_start_tag(f->q, f->q->start, TAIL, k);
        if (may_come(f->q, f->q->start, 0))
            add_start(f, &list, k);
    }
    if (may_come(f->q, ".", 0))
        add(&list, "data");
    if (depth > 0) {
        add_tag(f->q, tag, sizeof tag, "</", open[depth - 1].element);
        if (may_come(f->q, tag, 0))
            add(&list, tag);
    }
    if (!missing->count || strcmp(missing->text, list.text))
        put_list(f, "; here may come ", &list);
}

/* The element may come next in the small question, and either brings its content nearer to its end or takes
 * the place of one that would. What is only optional leaves all of these possible. */
static void add_needed(const struct fault *f, struct list *list)
{
    struct question *q = f->q;
    uint8_t may[SGML_ELEMENT_LIMIT + 1] = { 0 }, ends[SGML_ELEMENT_LIMIT + 1] = { 0 };
    uint32_t k, m, n = q->child_count, is_found = 0;
    for (k = 1; k <= q->elements; k++)
        may[k] = is_in_model(q, k) && may_follow_in(q, n, SGML_NONE, k);
    for (k = 1; k <= q->elements; k++)
        is_found |= ends[k] = may[k] && is_complete_with(q, k, SGML_NONE);
    for (k = 1; k <= q->elements && !is_found; k++)
        for (m = 1; m <= q->elements && may[k] && !ends[k]; m++)
            ends[k] = is_in_model(q, m) && is_complete_with(q, k, m);
    for (k = 1; k <= q->elements && !is_found; k++)
        is_found |= ends[k];
    for (k = 1; k <= q->elements; k++) {
        int is_needed = may[k] && ends[k];
        for (m = 1; m <= q->elements && may[k] && !is_needed; m++)
            is_needed = m != k && may[m] && ((ends[m] & 1) || !is_found) && !may_follow_in(q, n, k, m);
        ends[k] |= is_needed ? 2 : 0;
    }
    for (k = 1, m = 0; k <= q->elements; k++)
        m += ends[k];
    for (k = 1; k <= q->elements; k++)
        if (m ? ends[k] : may[k])
            add_start(f, list, k);
}

/* What an open element needs before it is complete. */
static void put_needed(const struct fault *f, struct open o, struct list *missing)
{
    if (begin_small(f->q, o))
        add_needed(f, missing);
    put_list(f, ": ", missing);
    if (missing->count)
        put(f, " is missing");
}

/* How many of the open elements are still open after the tail, whose length is given. Of two with one name
 * both seem so. */
static int kept_after(const struct fault *f, const struct open *open, int depth, size_t length)
{
    char *tail = f->q->tail;
    int i = depth;
    while (i > 0) {
        tail[length] = 0;
        add_tag(f->q, tail, TAIL, "</", open[i - 1].element);
        if (is_open_after(f->q, tail, length))
            break;
        i--;
    }
    tail[length] = 0;
    return i > 0 ? i : 0;
}

/* The token at fault, for a question: its start tag with the attributes that it must have, or data. */
static void take_token(const struct fault *f, uint32_t element)
{
    f->q->token[0] = 0;
    if (element)
        add_start_tag(f->q, f->q->token, TAIL / 2, element);
    else
        append(f->q->token, TAIL, ".");
}

/* The start tags of which one, put before the token, would let it come: those that leave the most elements
 * open. */
static void add_missing_starts(const struct fault *f, const struct open *open, int depth, struct list *list)
{
    uint8_t kept[SGML_ELEMENT_LIMIT + 1] = { 0 };
    uint32_t k;
    int best = 0;
    for (k = 1; k <= f->q->declared; k++) {
        char *tail = f->q->tail;
        size_t before;
        tail[0] = 0;
        add_start_tag(f->q, tail, TAIL / 2, k);
        before = strlen(tail);
        append(tail, TAIL, f->q->token);
        if (before && may_come(f->q, tail, before)) {
            kept[k] = (uint8_t)(1 + kept_after(f, open, depth, before));
            best = kept[k] > best ? kept[k] : best;
        }
    }
    for (k = 1; k <= f->q->declared; k++)
        if (kept[k] && kept[k] == best)
            add_start(f, list, k);
}

/* The end tag of the innermost element that, put before the token, would let it come. */
static void add_missing_end(const struct fault *f, const struct open *open, int depth, struct list *list)
{
    char *tail = f->q->tail, tag[SGML_MOST_NAMELEN + 4] = "";
    int i = depth;
    while (i-- > 1) {
        size_t before;
        tail[0] = 0;
        add_tag(f->q, tail, TAIL / 2, "</", open[i].element);
        before = strlen(tail);
        append(tail, TAIL, f->q->token);
        if (may_come(f->q, tail, before)) {
            add_tag(f->q, tag, sizeof tag, "</", open[i].element);
            add(list, tag);
            return;
        }
    }
}

/* The last child of the open element before which the token could have come; how many there are if there is
 * none. */
static uint32_t latest(const struct fault *f, uint32_t token)
{
    uint32_t j = f->q->child_count, least = j > LATEST ? j - LATEST : 0;
    while (j-- > least)
        if (may_follow_in(f->q, j, SGML_NONE, token))
            return j;
    return f->q->child_count;
}

/* The elements of which one, after what the open element has, would let the token come in it. */
static void add_needed_before(const struct fault *f, uint32_t token, struct list *list)
{
    uint32_t k;
    for (k = 1; k <= f->q->elements; k++)
        if (is_in_model(f->q, k) && may_follow_in(f->q, f->q->child_count, k, token))
            add_start(f, list, k);
}

/* The token has no place behind the child j of this open element, before which it had one: the child is the
 * same already, or stands in place of it, or belongs behind it. */
static void put_late(const struct fault *f, struct open o, uint32_t token, uint32_t j)
{
    struct child c = f->q->children[j];
    int is_there = c.element == token, is_before = !is_there && may_follow_in(f->q, j, token, c.element);
    put(f, is_before ? "in " : "");
    put_open(f, o);
    put(f, is_before ? " it belongs before " : is_there ? " has its " : " has ");
    put_name(f, c.element);
    put(f, is_before ? ", which is at " : is_there ? " already, at " : " instead, at ");
    put_place(f, f->document, c.offset);
}

/* The token is in the content model of this open element, but may not come there now: it has come already, it
 * belongs before what has come, or another is missing before it. 0 if it is none of these. */
static int put_misplaced(const struct fault *f, struct open o, uint32_t token)
{
    struct list list = { "", 0, 0 };
    uint32_t j = latest(f, token);
    int is_found = j < f->q->child_count, is_there = is_found && f->q->children[j].element == token;
    add_needed_before(f, token, &list);
    put_list(f, ": ", &list);
    if (list.count && !is_there) {
        put(f, " is missing before it in ");
        put_open(f, o);
        return 1;
    }
    if (!is_found)
        return 0;
    put(f, list.count ? " may be missing before it; " : ": ");
    put_late(f, o, token, j);
    return 1;
}

/* The start tag of an element that is open and has content: its end tag may be meant. */
static void put_end_meant(const struct fault *f, const struct open *open, int depth, uint32_t token)
{
    char tag[SGML_MOST_NAMELEN + 4] = "";
    while (depth > 0 && open[depth - 1].element != token)
        depth--;
    if (!depth || open[depth - 1].event + 1 >= f->q->event_count)
        return;
    add_tag(f->q, tag, sizeof tag, "</", token);
    if (may_come(f->q, tag, 0))
        put(f, "; %s may be meant", tag);
}

/* The element of the type that has this one in its content model: an open one, the innermost first, or else
 * the first that is declared. 0 if there is none. */
static uint32_t holder_of(const struct fault *f, const struct open *open, int depth, uint32_t element)
{
    struct open o = { 0, 0, f->q->event_count, 0 };
    int i;
    for (i = depth - 1; i >= 0; i--)
        if (begin_small(f->q, open[i]) && is_in_model(f->q, element))
            return open[i].element;
    while (o.element++ < f->q->declared)
        if (begin_small(f->q, o) && is_in_model(f->q, element))
            return o.element;
    return 0;
}

/* A name that is never declared may come here, and looks like a slip for the token or for #PCDATA. 0 if there
 * is none. */
static int put_slip(const struct fault *f, const struct open *open, int depth, uint32_t token)
{
    char name[SGML_MOST_NAMELEN + 1], meant[SGML_MOST_NAMELEN + 1] = "PCDATA";
    struct question *q = f->q;
    uint32_t k, holder;
    if (token)
        copy_name(q, token, meant);
    for (k = q->declared + 1; k <= q->elements; k++) {
        copy_name(q, k, name);
        q->start[0] = 0;
        add_tag(q, q->start, TAIL, "<", k);
        if ((strcmp(name, meant) && !is_close(name, meant)) || !may_come(q, q->start, 0))
            continue;
        holder = holder_of(f, open, depth, k);
        if (!holder)
            continue;
        put(f, ": the content model of ");
        put_name(f, holder);
        put(f, " in %s has %s, which is never declared; %s%s may be meant", f->type->name, name,
            token ? "" : "#", meant);
        return 1;
    }
    return 0;
}

/* What is in the way of the token: 0 if that is none of these. */
static int put_in_the_way(const struct fault *f, const struct open *open, int depth, uint32_t token)
{
    struct question *q = f->q;
    struct open inner = open[depth - 1];
    int i;
    for (i = depth - 1; i >= 0; i--) {
        if (!begin_small(q, open[i]) || !is_in_model(q, token))
            continue;
        if (may_follow_in(q, q->child_count, SGML_NONE, token))
            break;
        if (!put_misplaced(f, open[i], token))
            return 0;
        put_end_meant(f, open, depth, token);
        return 1;
    }
    if (inner.element != token || inner.event + 1 != q->event_count)
        return 0;
    put(f, ": ");
    put_open(f, inner);
    put(f, " is open already");
    return 1;
}

/* Why the innermost element that does not end here is in the way. */
static void put_stuck(const struct fault *f, struct open o, int is_incomplete, int is_end_missing,
                      struct list *needed, const char *before)
{
    if (!is_incomplete && !is_end_missing && before[0] == ';')
        return;
    put(f, "%s", before);
    put_open(f, o);
    put(f, is_incomplete ? " is not complete" : " is open");
    if (is_incomplete && before[0] == ':')
        put_needed(f, o, needed);
}

/* The few elements in which the token may stand at all, if none of them is open. */
static void put_homes(const struct fault *f, const struct open *open, int depth, uint32_t token)
{
    struct open o = { 0, 0, f->q->event_count, 0 };
    struct list list = { "", 0, 0 };
    char name[SGML_MOST_NAMELEN + 1];
    int i;
    while (o.element++ < f->q->declared) {
        if (!begin_small(f->q, o) || !is_in_model(f->q, token))
            continue;
        for (i = 0; i < depth; i++)
            if (open[i].element == o.element)
                return;
        copy_name(f->q, o.element, name);
        add(&list, name);
    }
    if (!list.count || list.count > 4)
        return;
    put(f, "; ");
    put_name(f, token);
    put_list(f, " belongs in ", &list);
}

/* What is missing before the token, and which element is not complete or not ended. */
static void put_missing(const struct fault *f, const struct open *open, int depth, uint32_t token,
                        struct list *needed)
{
    struct list list = { "", 0, 0 };
    int is_incomplete = 0, stuck = depth > 0 ? stuck_at(f, open, depth, &is_incomplete) : 0;
    size_t starts;
    take_token(f, token);
    add_missing_starts(f, open, depth, &list);
    starts = list.count;
    add_missing_end(f, open, depth, &list);
    put_list(f, ": ", &list);
    if (list.count)
        put(f, " may be missing before it");
    if (!depth) {
        put(f, "%sthe document element is ", list.count ? "; " : ": ");
        put_name(f, 1);
        put(f, ", the first that %s declares", f->type->name);
        if (token && !list.count)
            put_homes(f, open, depth, token);
    }
    if (depth <= 0)
        return;
    if (!token && sgml_event_at(f->q->events, f->q->event_count - 1).kind == SGML_KIND_END_OF_EMPTY) {
        put(f, list.count ? "; " : ": ");
        put_name(f, sgml_event_at(f->q->events, f->q->event_count - 1).element);
        put(f, " is EMPTY and holds no data");
    } else if (is_incomplete || stuck) {
        put_stuck(f, open[stuck], is_incomplete, list.count > starts, needed, list.count ? "; " : ": ");
    } else if (!list.count) {
        put(f, ", in ");
        put_open(f, open[depth - 1]);
        put(f, depth > 1 ? " or around it" : "");
    }
    if (token && !list.count)
        put_homes(f, open, depth, token);
}

void not_allowed_here(const struct fault *f)
{
    struct open open[SGML_TAGLVL];
    struct list needed = { "", 0, 0 };
    int depth = open_at(f->q, open);
    uint32_t token = is_tag(f->document, f->at) ? element_named(f->q, tag_name(f, f->document, f->at)) : 0;
    if (token)
        put(f, "<%s> is not allowed here", tag_name(f, f->document, f->at));
    else
        put(f, "data is not allowed here");
    if (!put_slip(f, open, depth, token) &&
        (depth <= 0 || !f->q->event_count || !put_in_the_way(f, open, depth, token)))
        put_missing(f, open, depth, token, &needed);
    put_allowed(f, open, depth, &needed);
}

/* What an end tag or the document's end finds open. */
static void put_end(const struct fault *f)
{
    if (f->at == f->document->length)
        put(f, "the document ends, but ");
    else
        put(f, "</%s> comes, but ", tag_name(f, f->document, f->at));
}

void incomplete(const struct fault *f)
{
    struct open open[SGML_TAGLVL];
    struct list needed = { "", 0, 0 };
    int depth = open_at(f->q, open), is_incomplete;
    put_end(f);
    if (depth > 0) {
        struct open o = open[stuck_at(f, open, depth, &is_incomplete)];
        put_open(f, o);
        put(f, " is not complete");
        put_needed(f, o, &needed);
    } else {
        put(f, "an element is not complete");
    }
    put_allowed(f, open, depth, &needed);
}

void end_missing(const struct fault *f)
{
    struct open open[SGML_TAGLVL];
    int depth = open_at(f->q, open), stuck, is_incomplete;
    char tag[SGML_MOST_NAMELEN + 4] = "";
    put_end(f);
    if (depth <= 0) {
        put(f, "an element is open whose end tag may not be omitted");
        return;
    }
    stuck = stuck_at(f, open, depth, &is_incomplete);
    put_open(f, open[stuck]);
    add_tag(f->q, tag, sizeof tag, "</", open[stuck].element);
    put(f, " is open: %s is missing and may not be omitted", tag);
}

void too_deep(const struct fault *f)
{
    if (is_tag(f->document, f->at))
        put(f, "with <%s> ", tag_name(f, f->document, f->at));
    else
        put(f, "with this data ");
    put(f, "more than %u elements would be open", (unsigned)SGML_TAGLVL);
}

/* What stands before the fault is a whole document: its last event is the end. */
void after_end(const struct fault *f)
{
    if (is_tag(f->document, f->at))
        put(f, "<%s> comes ", tag_name(f, f->document, f->at));
    else
        put(f, "data comes ");
    put(f, "after the end of the document");
    if (read_beginning(f->q, f->at) && f->q->event_count) {
        put(f, ", which is at ");
        put_place(f, f->document, sgml_event_at(f->q->events, f->q->event_count - 1).offset);
    }
}

void section_end(const struct fault *f)
{
    put(f, "]]> ends a marked section, and none is open; as data write it with a space: ]] >");
}

void no_document(const struct fault *f)
{
    char tag[SGML_MOST_NAMELEN + 3] = "";
    add_tag(f->q, tag, sizeof tag, "<", 1);
    put(f, "the document has neither a tag nor data; it must be one element, %s", tag);
}
