/* sgml_position.h - line and column of a byte, for the position of an answer (C99 and C++). Nothing to link:
 * the functions are here. */
#ifndef SGML_POSITION_H
#define SGML_POSITION_H

#include <stddef.h>
#include <stdint.h>

#ifdef __cplusplus
extern "C" {
#endif

/* Where a byte stands. Lines and columns count from 1; a line ends with byte 10, and a column is a byte. */
struct sgml_position {
    size_t line, column;
    size_t start, end; /* the line is the bytes from start to before end, without its byte 10 */
};

/* The position of the byte `at` of a text of `length` bytes. `at` may be the text's length, which is just
 * behind its last byte; a larger one is taken for the length. */
static inline struct sgml_position sgml_position_of(const uint8_t *text, size_t length, size_t at)
{
    struct sgml_position p;
    size_t i;
    if (at > length)
        at = length;
    p.line = 1;
    p.start = 0;
    for (i = 0; i < at; i++)
        if (text[i] == 10) {
            p.line++;
            p.start = i + 1;
        }
    p.column = at - p.start + 1;
    p.end = at;
    while (p.end < length && text[p.end] != 10)
        p.end++;
    return p;
}

#ifdef __cplusplus
}
#endif
#endif
