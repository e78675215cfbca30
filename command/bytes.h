/* bytes.h - bytes of an input, and the names there. */
#ifndef BYTES_H
#define BYTES_H

#include <stddef.h>
#include <stdint.h>
#include <string.h>

struct input {
    const char *name; /* as people call it */
    const uint8_t *bytes;
    size_t length;
};

static inline int is_separator(uint8_t byte)
{
    return byte == 9 || byte == 10 || byte == 13 || byte == ' ';
}

static inline int is_letter(uint8_t byte)
{
    return (byte >= 'A' && byte <= 'Z') || (byte >= 'a' && byte <= 'z');
}

static inline int is_name_byte(uint8_t byte)
{
    return is_letter(byte) || (byte >= '0' && byte <= '9') || byte == '.' || byte == '-';
}

static inline char upper(uint8_t byte)
{
    return (char)(byte >= 'a' && byte <= 'z' ? byte - 'a' + 'A' : byte);
}

/* The byte, or 0 at the input's end. */
static inline uint8_t byte_at(const struct input *input, size_t at)
{
    return at < input->length ? input->bytes[at] : 0;
}

/* This text stands at the byte. */
static inline int stands(const struct input *input, size_t at, const char *text)
{
    size_t length = strlen(text);
    return at <= input->length && length <= input->length - at && !memcmp(input->bytes + at, text, length);
}

/* How many bytes the name has that stands at a byte, or the word with "#" before it. */
static inline size_t word_length(const struct input *input, size_t at)
{
    size_t end = at;
    if (byte_at(input, end) == '#')
        end++;
    while (is_name_byte(byte_at(input, end)))
        end++;
    return end - at;
}

/* Copies bytes in upper case, with a zero behind them, as far as there is room. */
static inline void fold(const struct input *input, size_t at, size_t length, char *to, size_t room)
{
    size_t i;
    for (i = 0; i < length && i + 1 < room; i++)
        to[i] = upper(input->bytes[at + i]);
    to[i] = 0;
}

/* Appends a text, if there is room. */
static inline void append(char *text, size_t room, const char *more)
{
    size_t length = strlen(text), own = strlen(more);
    if (length + own + 1 <= room)
        memcpy(text + length, more, own + 1);
}

#endif
