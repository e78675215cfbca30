/* fault.c - the words that every text of a refusal is made of. */
#include "fault.h"
#include <stdarg.h>

enum {
    SHOWN = 12,  /* names in a list, before "and more" */
    LOOKS = 100, /* "<" that are asked one by one, before they are halved */
    CUT = 60     /* bytes of a value that are shown */
};

static void put_byte(struct text *t, char byte)
{
    if (t->length + 1 < t->room) {
        t->to[t->length] = byte;
        t->to[t->length + 1] = 0;
    }
    t->length++;
}

static void put_number(struct text *t, unsigned number)
{
    if (number > 9)
        put_number(t, number / 10);
    put_byte(t, (char)('0' + number % 10));
}

void put(const struct fault *f, const char *form, ...)
{
    va_list rest;
    va_start(rest, form);
    for (; *form; form++) {
        if (*form != '%') {
            put_byte(f->to, *form);
            continue;
        }
        form++;
        if (*form == 's') {
            const char *s = va_arg(rest, const char *);
            for (; *s; s++)
                put_byte(f->to, *s);
        } else if (*form == 'u') {
            put_number(f->to, va_arg(rest, unsigned));
        } else if (*form == 'c') {
            put_byte(f->to, (char)va_arg(rest, int));
        } else {
            put_byte(f->to, *form);
        }
    }
    va_end(rest);
}

void put_place(const struct fault *f, const struct input *input, size_t at)
{
    struct sgml_position p = sgml_position_of(input->bytes, input->length, at);
    put(f, "%u:%u", (unsigned)p.line, (unsigned)p.column);
}

void put_written(const struct fault *f, const struct input *input, size_t at, size_t length)
{
    size_t i;
    for (i = 0; i < length && i < CUT; i++)
        put_byte(f->to, (char)(byte_at(input, at + i) < ' ' ? ' ' : input->bytes[at + i]));
    if (length > CUT)
        put(f, "..");
}

const char *name_at(const struct fault *f, const struct input *input, size_t at)
{
    char *name = f->to->names[f->to->next++ % NAMES];
    size_t length = word_length(input, at);
    fold(input, at, length, name, NAME_ROOM - 2);
    if (length >= NAME_ROOM - 2)
        append(name, NAME_ROOM, "..");
    return name;
}

const char *tag_name(const struct fault *f, const struct input *input, size_t at)
{
    return name_at(f, input, at + (stands(input, at, "</") ? 2 : 1));
}

int is_tag(const struct input *input, size_t at)
{
    return byte_at(input, at) == '<' && is_letter(byte_at(input, at + 1));
}

void add(struct list *list, const char *what)
{
    if (list->count++ < SHOWN && strlen(list->text) + strlen(what) + 3 < sizeof list->text) {
        if (list->text[0])
            append(list->text, sizeof list->text, ", ");
        list->last = strlen(list->text);
        append(list->text, sizeof list->text, what);
    }
}

void put_list(const struct fault *f, const char *before, const struct list *list)
{
    size_t i;
    if (!list->count)
        return;
    put(f, "%s", before);
    if (!list->last || list->count > SHOWN) {
        put(f, "%s%s", list->text, list->count > SHOWN ? " and more" : "");
        return;
    }
    for (i = 0; i + 2 < list->last; i++)
        put_byte(f->to, list->text[i]);
    put(f, " or %s", list->text + list->last);
}

void put_here(const struct fault *f, const struct input *input, size_t at)
{
    uint8_t byte = byte_at(input, at);
    size_t length = word_length(input, at);
    if (length > (byte == '-' || byte == '.' || byte == '#'))
        put_written(f, input, at, length);
    else if (byte <= ' ')
        put(f, "a separator");
    else
        put(f, byte == '"' ? "'%c'" : "\"%c\"", byte);
}

void put_question(const struct fault *f, const struct list *list)
{
    put_list(f, "; is it ", list);
    if (list->count)
        put(f, "?");
}

/* One letter more, less or other, or two letters in the wrong order, and something in common. */
int is_close(const char *a, const char *b)
{
    size_t n = strlen(a), m = strlen(b), longer = n > m ? n : m;
    while (n && m && *a == *b) {
        a++, b++;
        n--, m--;
    }
    while (n && m && a[n - 1] == b[m - 1])
        n--, m--;
    return (n <= 1 && m <= 1 && (n > m ? n : m) < longer) ||
           (n == 2 && m == 2 && a[0] == b[1] && a[1] == b[0]);
}

int is_near(const char *a, const char *b)
{
    return strlen(a) > 2 && strlen(b) > 2 && is_close(a, b);
}

/* The byte behind what stands at s in a form: a value in quotes, in a declaration a comment, or a byte. */
static size_t passed(const struct input *input, size_t s, int is_declaration)
{
    uint8_t mark = byte_at(input, s);
    size_t end = s + 1;
    if (is_declaration && stands(input, s, "--")) {
        for (end = s + 2; end < input->length && !stands(input, end, "--"); end++)
            ;
        return end + 2 < input->length ? end + 2 : input->length;
    }
    if (mark != '"' && mark != '\'')
        return end;
    while (end < input->length && input->bytes[end] != mark)
        end++;
    return end < input->length ? end + 1 : end;
}

size_t form_end(const struct input *input, size_t s)
{
    int is_declaration = stands(input, s, "<!");
    size_t at = s + 1, level = 0;
    while (at < input->length) {
        if (input->bytes[at] == '>' && !level)
            return at + 1;
        level += input->bytes[at] == '[';
        level -= input->bytes[at] == ']' && level;
        at = passed(input, at, is_declaration);
    }
    return input->length;
}

/* The last "<" from lo to before hi; hi if there is none. */
static size_t last_mark(const struct input *input, size_t lo, size_t hi)
{
    size_t s = hi;
    while (s-- > lo)
        if (input->bytes[s] == '<')
            return s;
    return hi;
}

/* Halves between lo, which is not within a form, and hi, which is: the last "<" that is not, with one behind
 * it that is. */
static size_t halved(const struct fault *f, size_t lo, size_t hi)
{
    for (;;) {
        size_t mid = lo + (hi - lo) / 2, s = last_mark(f->input, lo + 1, mid + 1);
        if (s == mid + 1)
            s = last_mark(f->input, mid + 1, hi);
        if (s >= hi || s <= lo)
            return lo;
        if (ends_within(f->q, f->input, s))
            hi = s;
        else
            lo = s;
    }
}

/* The form's beginning where many "<" stand in a value or a comment that has run on: hi is within it. Where
 * another such form is found it is sought behind that. The input's length where it was not found. */
static size_t long_form_start(const struct fault *f, size_t hi)
{
    size_t lo = 0, end;
    while (f->q->work < WORK) {
        lo = halved(f, lo, hi);
        end = form_end(f->input, lo);
        if (end >= f->at)
            return lo;
        for (lo = end; lo < hi && f->input->bytes[lo] != '<'; lo++)
            ;
        if (lo >= hi || ends_within(f->q, f->input, lo))
            break;
    }
    return f->input->length;
}

/* The last "<" before which nothing is unfinished. Others stand in a comment or in an attribute's value. */
size_t form_start(const struct fault *f)
{
    struct question *q = f->q;
    size_t s = f->at, looks = 0;
    if (q->is_form_known)
        return q->form;
    q->is_form_known = 1;
    q->form = f->input->length;
    q->work = 0;
    while (s-- && q->work < WORK) {
        if (f->input->bytes[s] != '<')
            continue;
        if (looks++ == LOOKS)
            q->form = long_form_start(f, s);
        if (q->form == f->input->length && !ends_within(q, f->input, s))
            q->form = s;
        if (q->form < f->input->length)
            break;
    }
    return q->form;
}

/* A value looks as if it had run on to the next quote: it has a line end or a bracket in it, or ends in "=".
 */
static int has_run_on(const struct input *input, size_t from, size_t end)
{
    size_t i;
    for (i = from; i < end; i++)
        if (input->bytes[i] == 10 || input->bytes[i] == 13 || input->bytes[i] == '<' ||
            input->bytes[i] == '>')
            return 1;
    while (end > from && is_separator(input->bytes[end - 1]))
        end--;
    return end > from && input->bytes[end - 1] == '=';
}

void put_open_quote(const struct fault *f, size_t s)
{
    int is_declaration = stands(f->input, s, "<!");
    size_t at = s + 1;
    while (at < f->input->length && at <= f->at) {
        size_t end = passed(f->input, at, is_declaration);
        uint8_t mark = f->input->bytes[at];
        int is_closed = end > at + 1 && f->input->bytes[end - 1] == mark;
        if (is_declaration && stands(f->input, at, "--") &&
            (end < at + 4 || !stands(f->input, end - 2, "--"))) {
            put(f, "; the comment that began at ");
            put_place(f, f->input, at);
            put(f, " has no closing \"--\"");
            return;
        }
        if ((mark == '"' || mark == '\'') && (!is_closed || has_run_on(f->input, at + 1, end - 1))) {
            put(f, "; the value that began at ");
            put_place(f, f->input, at);
            put(f, is_closed ? " may lack its closing quote" : " has no closing quote");
            return;
        }
        at = end;
    }
}
