/* fault.h - a refusal that is being explained, and the words that its text is made of. */
#ifndef FAULT_H
#define FAULT_H

#include "ask.h"
#include "sgml_position.h"

enum { NAME_ROOM = 80, NAMES = 4 };

/* A text in lent room, with a zero behind it; its length counts what there was no room for, too. */
struct text {
    char *to;
    size_t room, length;
    char names[NAMES][NAME_ROOM]; /* what name_at returned last */
    unsigned next;
};

struct fault {
    struct text *to;
    struct question *q;
    const struct input *type, *document, *input; /* the last is the one at fault */
    size_t at;
    const uint32_t *answer;
};

/* Words to be listed one after the other. */
struct list {
    char text[1024];
    size_t count, last; /* last: where the last word begins */
};

void add(struct list *list, const char *what);

/* Appends to a text: %s a string, %c a byte, %u an unsigned number. */
void put(const struct fault *f, const char *form, ...);

/* Appends a list that has something in it: this text, and then "A, B or C". */
void put_list(const struct fault *f, const char *before, const struct list *list);

/* Appends LINE:COLUMN of a byte. */
void put_place(const struct fault *f, const struct input *input, size_t at);

/* Appends so many bytes of an input as they are written, on one line; a long text is cut and has ".." behind
 * it. */
void put_written(const struct fault *f, const struct input *input, size_t at, size_t length);

/* Appends what stands at a byte: a word if one begins there, else the byte in quotes, or "a separator". */
void put_here(const struct fault *f, const struct input *input, size_t at);

/* Appends "; is it A or B?" where a list has something in it. */
void put_question(const struct fault *f, const struct list *list);

/* A start tag stands at the byte, or what else begins with "<" and a letter. */
int is_tag(const struct input *input, size_t at);

/* The name that stands at a byte, and that of the tag there; in upper case, good until three more were asked
 * for. */
const char *name_at(const struct fault *f, const struct input *input, size_t at);
const char *tag_name(const struct fault *f, const struct input *input, size_t at);

/* Two names differ in one letter or in the order of two; of short names too many are that close, so these are
 * not near. */
int is_close(const char *a, const char *b);
int is_near(const char *a, const char *b);

/* Where the tag, comment or declaration began that holds the byte at fault, or is not finished there. The
 * input's length where it was not found. */
size_t form_start(const struct fault *f);

/* The byte behind a tag or a declaration that begins at s; the input's length where it has no end. */
size_t form_end(const struct input *input, size_t s);

/* Appends a note where a comment in a declaration is not closed, or a value between the form's beginning at s
 * and the fault may lack its closing quote. */
void put_open_quote(const struct fault *f, size_t s);

/* The text of one refusal each: 4 of a type file and 6 to 9, */
void unfit_in_type(const struct fault *f);
void quantity(const struct fault *f);
void declared_twice(const struct fault *f);
void elements(const struct fault *f);
void ambiguous(const struct fault *f);

/* The warning of the next name from *from on that is never declared. */
void warn(const struct fault *f, size_t *from, size_t *at);

/* 7, 10 and 20 of an attribute list, and 20, 21 and 22, */
int is_in_list(const struct fault *f);
void attribute_twice(const struct fault *f);
void unlisted(const struct fault *f);
void attribute(const struct fault *f);
void attribute_missing(const struct fault *f);
void misfit(const struct fault *f);
void add_near_attributes(const struct fault *f, const char *element, const char *name, struct list *list);

/* and 4 of a tag and 10 to 18. */
void unfit_in_tag(const struct fault *f);
void undeclared(const struct fault *f);
void add_near_elements(const struct fault *f, const char *name, struct list *list);
void not_open(const struct fault *f);
void not_allowed_here(const struct fault *f);
void incomplete(const struct fault *f);
void end_missing(const struct fault *f);
void too_deep(const struct fault *f);
void after_end(const struct fault *f);
void section_end(const struct fault *f);
void no_document(const struct fault *f);

#endif
