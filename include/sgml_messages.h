/* sgml_messages.h - the messages of the command sgml, for programs in C (C99 and C++): why an input was
 * refused, with the names of what is open, missing or allowed there.
 *
 *     if (sgml_read(type, type_len, document, document_len, buffer, room, answer, name_length, edition)) {
 *         struct sgml_refused r = { "stock.type", type,        type_len, "list.sgm", document,
 *                                   document_len, name_length, edition,  answer };
 *         char text[SGML_MESSAGE_SIZE];
 *         sgml_message(&r, memory, memory_len, text, sizeof text);
 *         puts(text); // list.sgm:2:11: the element QTTY is not declared in stock.type; is it QTY? [10]
 *     }
 *
 * Linking.   -lsgml_messages -lsgml, in this order; pkg-config --libs sgml prints both.
 *
 * Memory.    Nothing here allocates, keeps state or prints. The inputs are only read. `memory` is lent for
 *            the call; any alignment and any content will do, and it must overlap nothing else that is
 *            passed. SGML_MESSAGE_MEMORY bytes are enough for catalogues as people write them. With less
 *            than SGML_MESSAGE_LEAST the text is that of sgml_refusal_text. The bytes beyond that hold the
 *            events before the fault, SGML_EVENT_BYTES each; where they do not fit, the message does not
 *            name the open elements. After a refusal the buffer that was lent to sgml_read is free, so it
 *            can be lent here.
 * Time.      A message is made by calling the library again, some hundred times, with parts of the inputs.
 *            That takes milliseconds for most messages, and about a second at most.
 * Threads.   Calls share nothing, so any number may run at the same time, each with its own memory.
 * Stack.     SGML_STACK_BYTES, and 16 KB more.
 * Functions  of the C library: memcmp, memcpy, memmove, memset, strcmp, strlen.
 *
 * The functions are plain C: tested, not proved. What they say is taken from answers of the proved library.
 * The wording may change with every version; number and position do not. */
#ifndef SGML_MESSAGES_H
#define SGML_MESSAGES_H

#include "sgml.h"
#include "sgml_position.h"

#ifdef __cplusplus
extern "C" {
#endif

enum {
    SGML_MESSAGE_LEAST = 320 * 1024,       /* bytes of memory, without events */
    SGML_MESSAGE_MEMORY = 2 * 1024 * 1024, /* bytes of memory that are enough for 80,000 events */
    SGML_MESSAGE_SIZE = 2048               /* bytes of text; longer messages are cut */
};

/* A refusal: what was passed to the call, and its answer. */
struct sgml_refused {
    const char *type_name; /* the file's name, as the message shows it */
    const uint8_t *type;
    size_t type_length;
    const char *document_name; /* null, null and 0 where the type file alone was judged */
    const uint8_t *document;
    size_t document_length;
    uint32_t name_length, edition;
    const uint32_t *answer; /* SGML_ANSWER_SIZE numbers */
};

/* Writes FILE:LINE:COLUMN: TEXT [NUMBER] and a zero after it, as far as `room` goes. Returns the length of
 * the whole message. */
size_t sgml_message(const struct sgml_refused *r, void *memory, size_t memory_len, char *text, size_t room);

/* The same without file, line, column and number. */
size_t sgml_message_text(const struct sgml_refused *r, void *memory, size_t memory_len, char *text,
                         size_t room);

/* Writes the warning about the next name, from the byte *from of the type file on, that is used in a content
 * model and is never declared: FILE:LINE:COLUMN: warning: TEXT. Sets *from to the name's last byte plus 1,
 * and *at to its first. Returns the length of the warning, and 0 where there is no further one, or no memory.
 * The answer of `r` is not used. Start with *from = 0. */
size_t sgml_warning(const struct sgml_refused *r, void *memory, size_t memory_len, size_t *from, size_t *at,
                    char *text, size_t room);

/* Writes the line that the byte `at` of an input stands in, a line end, a caret under the byte and a line
 * end. A long line is cut to its surroundings, with "..." for what is left out; a byte that is no printable
 * character is shown as a space or a question mark. Returns the length. */
size_t sgml_source_line(const uint8_t *input, size_t length, size_t at, char *text, size_t room);

#ifdef __cplusplus
}
#endif
#endif
