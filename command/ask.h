/* ask.h - questions to the library about a refused input, so that a message can name what is open and what
 * may come. Each is put as another input: the beginning of the refused one, with something else behind it.
 * The library answers by the same rules, so nothing here knows them. */
#ifndef ASK_H
#define ASK_H

#include "bytes.h"
#include "sgml.h"

enum {
    WORK = 200 * 1000 * 1000, /* bytes read for a search at most: half a second or so */
    QUESTION = 5000,          /* as many bytes as a question costs, however short it is */
    TAIL = 8192,              /* bytes put behind a beginning */
    MOST_CHILDREN = 8192      /* of an open element, of which its content model is asked */
};

/* An open element: its number, and the offset of its start tag, or of what called for it. */
struct open {
    uint32_t element, offset;
    uint32_t event; /* the number of its start event */
    int is_written;
};

/* What stands in an element: a subelement, or data (element 0). */
struct child {
    uint32_t element, offset;
};

/* A type file, a document and its fault at the byte `cut`. Everything that a question needs is in here, or in
 * the memory lent behind it. */
struct question {
    uint32_t name_limit, edition;
    const struct input *type, *document;
    size_t cut;
    struct input asked; /* the type, and declarations behind it of the names that it does not declare */
    uint32_t declared, attributes; /* elements of the type, and attributes; 0 where the type is refused */
    uint32_t elements;             /* those declared for the question too */
    size_t work;                   /* bytes read for the search at hand */
    size_t form;                   /* where the form at the fault began, once that was asked */
    int is_form_known;
    uint8_t *events; /* lent for events */
    size_t events_length;
    uint32_t event_count; /* events before the fault that open_at found */
    uint32_t child_count;
    struct input small; /* a type of one element, whose content model is asked */
    char own[8];        /* the start tag of that element */
    struct child children[MOST_CHILDREN];
    uint8_t records[SGML_MOST_RECORD_BYTES], lists[SGML_MOST_ATTRIBUTE_BYTES];
    uint8_t asked_room[SGML_TYPE_LIMIT + TAIL];
    uint8_t room[SGML_DOCUMENT_LIMIT + TAIL]; /* the input that is asked */
    uint8_t small_room[TAIL];
    char tail[TAIL], token[TAIL], start[TAIL];
};

/* Judges the type, so that the records are there. The events and limits are set already. */
void begin_question(struct question *q, const struct input *type, const struct input *document, size_t cut);

/* Judges the beginning of the type with a tail behind it: the records are then those of it. */
void judge_beginning(struct question *q, size_t cut, const char *tail);

/* The beginning of the type file and then a tail: whether the word may stand there that begins `before` bytes
 * after the cut. */
int may_stand(struct question *q, size_t cut, const char *tail, size_t before);

/* The beginning of an input ends within a tag, a comment or a declaration. */
int ends_within(struct question *q, const struct input *input, size_t cut);

/* The name at these bytes of the type file stands in a content model. */
int is_token(struct question *q, size_t at, size_t length);

/* The beginning of the document and then a tail: whether the token may come that begins `before` bytes after
 * the cut. */
int may_come(struct question *q, const char *tail, size_t before);

/* The same of an end tag: whether its element is open there. */
int is_open_after(struct question *q, const char *tail, size_t before);

/* The beginning of the document, which is within a tag, and then a tail: whether the tag may go on so. */
int may_go_on(struct question *q, const char *tail);

/* The document's beginning up to `at`, then an attribute, then its bytes up to `end`: whether the tag has
 * that attribute already. */
int has_attribute(struct question *q, size_t at, const char *attribute, size_t end);

/* Appends an element's tag to a text, if there is room: before is "<" or "</". */
void add_tag(const struct question *q, char *text, size_t room, const char *before, uint32_t element);

/* Appends a required attribute with a value that fits it, if there is room. */
void add_attribute(const struct question *q, char *text, size_t room, struct sgml_attribute a);

/* Appends an element's start tag with the attributes that it must have, if there is room. */
void add_start_tag(const struct question *q, char *text, size_t room, uint32_t element);

/* Copies the name of an element. */
void copy_name(const struct question *q, uint32_t element, char name[SGML_MOST_NAMELEN + 1]);

/* The number of the element of this name, in upper case; 0 if there is none. */
uint32_t element_named(const struct question *q, const char *name);

/* The elements open at the fault, from the outermost; how many they are, and -1 where this could not be found
 * out. */
int open_at(struct question *q, struct open open[SGML_TAGLVL]);

/* Reads the events of the document's beginning into the lent memory; 0 where it is not accepted or there is
 * no room. */
int read_beginning(struct question *q, size_t cut);

/* The content model of an element: where its group begins in the asked type, and its length with the
 * indicator; 0 for EMPTY. */
size_t model_of(const struct question *q, uint32_t element, size_t *start);

/* Begins the small question about the content of an open element: its model, and its children so far. 0 where
 * it is too large. */
int begin_small(struct question *q, struct open o);

/* The small question: whether the element (0 for data) stands in the model, whether it may come after the
 * first `count` children and then, unless it is SGML_NONE, another element, and whether the content is then
 * complete. */
#define SGML_NONE UINT32_MAX
int is_in_model(const struct question *q, uint32_t element);
int may_follow_in(struct question *q, uint32_t count, uint32_t between, uint32_t element);
int is_complete_with(struct question *q, uint32_t first, uint32_t second);

#endif
