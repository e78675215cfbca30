/* position.h - where a byte stands, for people: its line and column from 1, its line with a caret under it, and the names there. */
#ifndef POSITION_H
#define POSITION_H

#include "sgml_position.h"
#include <stdio.h>

#define position sgml_position
#define position_of sgml_position_of

/* Prints the line and a caret under the byte. Of a long line only the surroundings are shown; a byte that a terminal may not
 * show as one character is a space or a question mark. */
static inline void print_line(FILE *to, const uint8_t *text, struct position p)
{
    enum { BEFORE = 56, SHOWN = 72 };
    size_t before = p.column - 1 > BEFORE ? BEFORE : p.column - 1;
    size_t i, from = p.start + p.column - 1 - before, end = p.end - from > SHOWN ? from + SHOWN : p.end;
    const char *cut = from > p.start ? "..." : "";
    fputs(cut, to);
    for (i = from; i < end && !(text[i] == '\r' && i + 1 == p.end); i++)
        fputc(text[i] == '\t' || text[i] == '\r' ? ' ' : text[i] < 32 || text[i] > 126 ? '?' : text[i], to);
    fprintf(to, "%s\n%*s^\n", end < p.end ? "..." : "", (int)(before + (*cut ? 3 : 0)), "");
}

static inline int is_name_byte(uint8_t byte)
{
    return (byte >= 'A' && byte <= 'Z') || (byte >= 'a' && byte <= 'z') || (byte >= '0' && byte <= '9') || byte == '.' || byte == '-';
}

/* How many bytes the name has that stands at `at`, or the word with "#" before it. */
static inline size_t name_length(const uint8_t *text, size_t length, size_t at)
{
    size_t end = at;
    if (end < length && text[end] == '#')
        end++;
    while (end < length && is_name_byte(text[end]))
        end++;
    return end - at;
}

/* Where the place stands that is so many places before the one at `at`, in a content model that was read whole: there only a
 * name or #PCDATA has name bytes. */
static inline size_t place_before(const uint8_t *text, size_t at, size_t places)
{
    while (places && at) {
        at--;
        if (text[at] == '#' || (is_name_byte(text[at]) && at && !is_name_byte(text[at - 1]) && text[at - 1] != '#'))
            places--;
    }
    return at;
}

#endif
