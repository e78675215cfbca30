/* sgml.h - a proved reader of SGML (ISO 8879) for stock catalogues, for C99 and C++.
 *
 *     sgml_judge       checks a type file and returns a record for each element that it declares
 *     sgml_attributes  checks a type file and returns a record for each attribute that it declares
 *     sgml_read        reads a document under a type file and returns its events
 *     sgml_read_batch  reads up to 200 documents under one type file, which is judged only once
 *
 * Every call either accepts what it is given, or refuses it with exactly one refusal: a number, the input at
 * fault and a byte position. This program prints the events of a document:
 *
 *     #define SGML_WITH_MALLOC // for sgml_read_alloc; nothing else here uses malloc
 *     #include "sgml.h"
 *     #include <stdio.h>
 *
 *     // One byte more than the limits: the library refuses a file that is too long.
 *     static uint8_t type[SGML_TYPE_LIMIT + 1], document[SGML_DOCUMENT_LIMIT + 1];
 *
 *     int main(int argc, char **argv)
 *     {
 *         FILE *type_file = argc == 3 ? fopen(argv[1], "rb") : NULL;
 *         FILE *document_file = argc == 3 ? fopen(argv[2], "rb") : NULL;
 *         uint32_t answer[SGML_ANSWER_SIZE], k;
 *         uint8_t *events;
 *         size_t type_len, document_len;
 *         if (!type_file || !document_file) {
 *             fprintf(stderr, "two files that can be read are needed: a type file and a document\n");
 *             return 2;
 *         }
 *         type_len = fread(type, 1, sizeof type, type_file);
 *         document_len = fread(document, 1, sizeof document, document_file);
 *         if (sgml_read_alloc(type, type_len, document, document_len, &events, answer, SGML_NAMELEN,
 *                             SGML_FIRST_EDITION)) {
 *             fprintf(stderr, "%s at byte %u of the %s\n", sgml_refusal_text(answer[SGML_ANSWER_NUMBER]),
 *                     (unsigned)answer[SGML_ANSWER_POSITION],
 *                     answer[SGML_ANSWER_INPUT] == SGML_IN_TYPE ? "type file" : "document");
 *             return 1;
 *         }
 *         for (k = 0; k < answer[SGML_ANSWER_COUNT]; k++) {
 *             struct sgml_event e = sgml_event_at(events, k);
 *             printf("%u %u %u %u %u\n", (unsigned)e.kind, (unsigned)e.element, (unsigned)e.offset,
 *                    (unsigned)e.length, (unsigned)e.place);
 *         }
 *         free(events);
 *         return 0;
 *     }
 *
 * Memory.  The library allocates nothing, keeps no state, and touches no memory but what the caller lends.
 *     Inputs are only read; the buffer and the answer are lent for the duration of the call. A pointer may be
 *     null if its length is 0. The two inputs may overlap. The buffer and the answer may overlap neither each
 *     other nor an input: if they do, the results are unspecified, and nothing reports it.
 *     A refusal zeroes all that you lend, so lend little and grow: begin with 64 KB, and lend more when a
 *     call returns SGML_ERR_NO_ROOM, as sgml_read_alloc does. A device without malloc lends what it has:
 *
 *         static uint8_t events[64 * 1024];
 *         uint32_t number = sgml_read(type, type_len, document, document_len, events, sizeof events, answer,
 *                                     SGML_NAMELEN, SGML_FIRST_EDITION);
 *         // SGML_ERR_NO_ROOM: nothing is wrong with the document, but this buffer does not hold its events
 *
 * Stack.  sgml_read and sgml_read_batch use at most SGML_STACK_BYTES (268 KB) of stack, sgml_judge and
 *     sgml_attributes at most SGML_JUDGE_STACK_BYTES (56 KB), whatever the inputs are. Both bounds are
 *     measured, not proved. The main thread of a Linux program and threads created by glibc have 8 MB by
 *     default; elsewhere ask for it, with some room for the thread's own functions:
 *
 *         pthread_attr_init(&attributes);
 *         pthread_attr_setstacksize(&attributes, SGML_STACK_BYTES + 64 * 1024);
 *         pthread_create(&thread, &attributes, function, argument);
 *
 *     With less stack the call runs into the guard page below it and the process receives SIGSEGV; the code
 *     touches the pages of its stack one by one, so it does not skip the guard page. Where a stack has no
 *     guard page, whatever lies below it is overwritten.
 * Threads.  Calls share nothing: any number of threads may call at once, each with its own buffer and answer.
 *     A call may interrupt another one, as from a signal handler. There are no callbacks.
 * Time.  Every call returns, for any bytes.
 *
 * Names.  `name_length` is the largest number of bytes that a name may have: SGML_NAMELEN (8) unless the
 *     supplier declares a longer NAMELEN, up to SGML_MOST_NAMELEN (32). Any other number is refused by
 *     SGML_ERR_SETTINGS before anything else is checked.
 * Record ends.  `edition` selects the rule for byte 13, the record end, and changes nothing else. In both
 *     editions byte 10 is ignored, so a document without byte 13, whose lines end with byte 10 alone, has the
 *     same events in both. SGML_FIRST_EDITION: byte 13 is data wherever #PCDATA may come next, and ignored
 *     elsewhere. SGML_SECOND_EDITION, by clause 7.6.1 of ISO 8879: of the bytes 13 that would be data, three
 *     kinds are ignored. (1) The first in its element, with no byte 10, data or subelement before it. (2) One
 *     that ends a record of nothing but comments: between it and the byte 10 or 13 before it stand one or
 *     more comments, and nothing else. (3) The last in its element that neither (1) nor (2) ignores, with no
 *     data or subelement after it. So in the element `<L>text` 13 10 `<!-- c -->` 13 10 `</L>` both bytes 13
 *     are ignored, the second by (2) and then the first by (3), and its data is `text`. Any other number is
 *     refused by SGML_ERR_SETTINGS. A type file is judged alike in both editions.
 * Events.  An event has SGML_EVENT_SIZE numbers: its kind, the element, offset and length in the document,
 *     and the place that a start took in the content model of its parent. See enum sgml_kind and struct
 *     sgml_event.
 * Attributes.  The attributes of an element, as in <ITEM PAR="40">, are events before the start event of that
 *     element, in the order of declaration: SGML_KIND_ATTRIBUTE if the tag specifies the attribute,
 *     SGML_KIND_ATTRIBUTE_DEFAULTED if the type file supplies its default. An attribute that is neither
 *     specified nor defaulted produces no event. In such an event `element` is not the number of an element
 *     but that of the attribute in its list, from 1. sgml_attributes, called once for a type file, returns
 *     the names and declarations; sgml_element_at returns the element that an attribute belongs to, and
 *     sgml_value its value:
 *
 *         if (e.kind == SGML_KIND_ATTRIBUTE || e.kind == SGML_KIND_ATTRIBUTE_DEFAULTED) {
 *             struct sgml_attribute a = sgml_attribute_of(attributes, attribute_count,
 *                                                         sgml_element_at(events, count, k), e.element);
 *             printf("%.*s=%.*s\n", (int)a.name_length, (const char *)type + a.name_offset, (int)e.length,
 *                    (const char *)sgml_value(type, document, e));
 *         }
 *
 * Batches.  sgml_read_batch reads up to SGML_BATCH_LIMIT documents of one type. Each gets the answer that
 *     sgml_read would give it, and short documents are read much faster, since the type is judged once. The
 *     documents are parts of one string, and the events of each go to a separate stretch of one buffer:
 *
 *         size_t starts[2] = { 0, a_len }, lengths[2] = { a_len, b_len }; // the documents within `string`
 *         size_t froms[2] = { 0, 5000 }, sizes[2] = { 5000, 5000 };       // their stretches of `buffer`
 *         uint32_t answers[2 * SGML_ANSWER_SIZE];
 *         if (sgml_read_batch(type, type_len, string, a_len + b_len, starts, 2, lengths, 2, buffer, 10000,
 *                             froms, 2, sizes, 2, answers, 2 * SGML_ANSWER_SIZE, answer, SGML_NAMELEN,
 *                             SGML_FIRST_EDITION))
 *             return 1; // refused as a whole: SGML_ERR_BATCH or SGML_ERR_SETTINGS
 *         for (k = 0; k < 2; k++)
 *             use(answers + SGML_ANSWER_SIZE * k, buffer + froms[k]);
 *
 * Platform.  The library is built for x86-64 with the System V calling convention, and for no other processor
 *     today. It calls memcpy and memset and no other function. This header does not depend on byte order.
 * Versions.  The numbers of refusals, fields and kinds never change their meaning. A later version may add
 *     refusals, kinds of event and calls, and may append numbers to events and records: use the names below,
 *     skip events of a kind that you do not know, and treat a number that you do not know as a refusal.
 *     Before 1.0.0 names may change with the minor version; CHANGELOG.md lists what changed. A program that
 *     was compiled with an older header either runs as before or does not link: see SGML_ABI.
 *
 * What each call returns is proved equal to the rules of the scope paper; README.md says what is proved and
 * what is assumed, and docs/RULES.md explains the rules, with an example of each refusal. The functions
 * defined in this header are plain C, tested and not proved. Installed beside it are sgml_messages.h, the
 * messages of the command for a program in C, and sgml_position.h, line and column of a position. */
#ifndef SGML_H
#define SGML_H

#include <stddef.h>
#include <stdint.h>

#define SGML_VERSION "0.9.0"
#define SGML_VERSION_NUMBER 900 /* 10000 * major + 100 * minor + patch */

/* The number of the binary interface, which is part of the names that the library exports. It rises by one
 * whenever the parameters of a call change, or how many numbers an answer, a record or an event has, or what
 * one of these numbers means. So a program that was compiled with a header of another number does not link:
 * the linker reports sgml_read_abi9 or the like as undefined, and the program must be recompiled. Programs in
 * other languages use these names. */
#define SGML_ABI 9
#define sgml_judge sgml_judge_abi9
#define sgml_attributes sgml_attributes_abi9
#define sgml_read sgml_read_abi9
#define sgml_read_batch sgml_read_batch_abi9

#ifdef __cplusplus
#define SGML_CAST(type, value) static_cast<type>(value)
extern "C" {
#else
#define SGML_CAST(type, value) ((type)(value))
#endif

/* Marks a call whose result must be used: gcc and clang warn if it is not. */
#if defined(__GNUC__)
#define SGML_LOOK_AT_ANSWER __attribute__((warn_unused_result))
#else
#define SGML_LOOK_AT_ANSWER
#endif

/* Limits. */
enum {
    SGML_TYPE_LIMIT = 32768,     /* bytes of a type file */
    SGML_DOCUMENT_LIMIT = 65535, /* bytes of a document */
    SGML_ELEMENT_LIMIT = 64,     /* declared elements */
    SGML_NAMELEN = 8,            /* bytes of a name: the smallest name_length */
    SGML_MOST_NAMELEN = 32,      /* and the largest */
    SGML_FIRST_EDITION = 1,      /* record ends as the scope paper has them */
    SGML_SECOND_EDITION = 2,     /* record ends by clause 7.6.1 of ISO 8879 */
    SGML_GRPCNT = 32,            /* content tokens in one model group */
    SGML_GRPLVL = 16,            /* levels of nested model groups */
    SGML_GRPGTCNT = 96,          /* content tokens in a content model */
    SGML_ATTCNT = 40,            /* attributes of an element */
    SGML_TAGLVL = 24,            /* open elements */
    SGML_BATCH_LIMIT = 200,      /* documents in one call */
    SGML_STACK_BYTES = 268 * 1024,      /* stack that any call uses at most; measured, not proved */
    SGML_JUDGE_STACK_BYTES = 56 * 1024  /* stack that sgml_judge and sgml_attributes use at most; likewise */
};

/* Sizes: in 32-bit numbers, and as bytes of a lent buffer, four to a number. */
enum {
    SGML_ANSWER_SIZE = 6,    /* numbers in an answer */
    SGML_RECORD_SIZE = 6,    /* numbers in an element's record */
    SGML_ATTRIBUTE_SIZE = 9, /* numbers in an attribute's record */
    SGML_EVENT_SIZE = 5,     /* numbers in an event */
    SGML_RECORD_BYTES = 4 * SGML_RECORD_SIZE,
    SGML_ATTRIBUTE_BYTES = 4 * SGML_ATTRIBUTE_SIZE,
    SGML_EVENT_BYTES = 4 * SGML_EVENT_SIZE,
    SGML_MOST_RECORD_BYTES = SGML_RECORD_BYTES * SGML_ELEMENT_LIMIT, /* the most of any type file */
    SGML_MOST_ATTRIBUTE_BYTES = SGML_ATTRIBUTE_BYTES * SGML_ATTCNT * SGML_ELEMENT_LIMIT /* likewise */
};

/* SGML_MOST_EVENTS(n): an upper bound on the events of a document of n bytes, under any type.
 * SGML_MOST_EVENTS_WITH(n, m): the same under a type whose elements have at most m attributes each.
 *
 * SGML_EVENT_BYTES times as many bytes are enough for every document of that length: for SGML_DOCUMENT_LIMIT
 * bytes 30 million bytes without attributes, and 633 million with SGML_ATTCNT of them. Do not lend that much.
 * The documents that people write have some three events to ten bytes, and a refusal zeroes all that is lent:
 * begin with 64 KB, and lend twice as much each time the call returns SGML_ERR_NO_ROOM, up to this bound or
 * to what the device has. SGML_ERR_NO_ROOM never means that the document is at fault.
 *
 * Why it is a bound. The starts that one tag or run of data brings are all open once it is settled. So the
 * first brings at most TAGLVL of them, and since the document element then stays open, each later one at most
 * TAGLVL - 1. A run of data with no tag between it and the run before brings none, since #PCDATA may come
 * again where it came. Let there be a start tags, b end tags, r runs of data that are the first or have a tag
 * before them, and s other runs. Then there are at most 1 + 23 (a + r) starts, each with at most m
 * attributes, as many ends, and r + s runs. With B for 23 (m + 2) that is m + 2 + B a + (B + 1) r + s events.
 * Now r <= a + b + 1, and the document has at least 3 a + 4 b + r + 2 s bytes: "<A>", "</A>", a byte, and a
 * byte after one that is ignored. By these two,
 * B a + (B + 1) r + s <= (2 B + 1)/4 (3 a + 4 b + r + 2 s) + (2 B + 3)/4 (r - a - b)
 * <= ((2 B + 1) n + 2 B + 3) / 4. Without attributes B is 46. */
#define SGML_MOST_EVENTS(n) SGML_MOST_EVENTS_WITH(n, SGML_ATTCNT)
#define SGML_MOST_EVENTS_WITH(n, m) \
    (((2 * SGML_MOST_B(m) + 1) * SGML_CAST(size_t, n) + 2 * SGML_MOST_B(m) + 3 + \
      4 * (SGML_CAST(size_t, m) + 2)) / 4)
#define SGML_MOST_B(m) ((SGML_CAST(size_t, SGML_TAGLVL) - 1) * (SGML_CAST(size_t, m) + 2))

/* The numbers of an answer, by their index in `answer`. */
enum sgml_answer {
    SGML_ANSWER_NUMBER = 0,   /* 0, or the refusal's number: an enum sgml_refusal */
    SGML_ANSWER_INPUT = 1,    /* the input at fault: an enum sgml_input */
    SGML_ANSWER_POSITION = 2, /* the byte at fault, from 0; the input's length if it ends too early */
    SGML_ANSWER_FIRST = 3,    /* under SGML_ERR_AMBIGUOUS the first place of the pair, from 1; else 0 */
    SGML_ANSWER_SECOND = 4,   /* and the second, whose first byte is at SGML_ANSWER_POSITION */
    SGML_ANSWER_COUNT = 5     /* records, events or documents; 0 on refusal */
};

/* The inputs of a call, as in answer[SGML_ANSWER_INPUT]. */
enum sgml_input { SGML_IN_NEITHER = 0, SGML_IN_TYPE = 1, SGML_IN_DOCUMENT = 2 };

/* The refusals. 1 to 5, 10, 20 and 22 can be of the type file or of the document, 6 to 9 and 25 are of the
 * type file, 11 to 18 and 21 of the document. 19 is reported as position 0 of the document by the calls that
 * read, and of the type file by the others. 23 and 24 are about the call's arguments, and are reported as
 * position 0 of the type file. */
enum sgml_refusal {
    SGML_ACCEPTED = 0,
    SGML_ERR_TOO_LONG = 1,          /* the input is longer than its limit; position 0 */
    SGML_ERR_BYTE = 2,              /* a byte that is not allowed: the first one */
    SGML_ERR_NAME_TOO_LONG = 3,     /* a name or keyword of more than name_length bytes: its first byte */
    SGML_ERR_MALFORMED = 4,         /* malformed: the first unexpected byte, or the input's length if it
                                       ends too early */
    SGML_ERR_LEFT_OUT = 5,          /* a form of ISO 8879 that is not supported: its first byte */
    SGML_ERR_QUANTITY = 6,          /* GRPCNT, GRPLVL or GRPGTCNT is exceeded: the token or "(" */
    SGML_ERR_DECLARED_TWICE = 7,    /* an element or an attribute of a list declared twice: the second name */
    SGML_ERR_ELEMENTS = 8,          /* more than SGML_ELEMENT_LIMIT elements: that name; none: the length */
    SGML_ERR_AMBIGUOUS = 9,         /* an ambiguous content model: the second place of the pair */
    SGML_ERR_UNDECLARED = 10,       /* an undeclared element: the tag; in an attribute list the name */
    SGML_ERR_NOT_OPEN = 11,         /* an end tag of an element that is not open: the tag */
    SGML_ERR_NOT_ALLOWED_HERE = 12, /* a start tag or data that is not allowed here: the tag or the data */
    SGML_ERR_INCOMPLETE = 13,       /* an element ends before it is complete: the end tag, or the length */
    SGML_ERR_END_MISSING = 14,      /* an end tag is missing that may not be omitted: the end tag that came,
                                       or the document's length */
    SGML_ERR_TOO_DEEP = 15,         /* more than SGML_TAGLVL open elements: the tag or the data */
    SGML_ERR_AFTER_END = 16,        /* a start tag or data after the document element: the tag or the data */
    SGML_ERR_SECTION_END = 17,      /* "]]>" outside tags and comments: its first byte */
    SGML_ERR_NO_DOCUMENT = 18,      /* no document element: the document's length */
    SGML_ERR_NO_ROOM = 19,          /* the lent buffer is too small, and nothing else is wrong; position 0 */
    SGML_ERR_ATTRIBUTE = 20,        /* an attribute that is undeclared or specified twice: its name. In a type
                                       file a second list for an element: the element's name; an attribute
                                       beyond SGML_ATTCNT: its name; a token twice in a list: the second */
    SGML_ERR_ATTRIBUTE_MISSING = 21, /* a required attribute is missing: the tag */
    SGML_ERR_VALUE = 22,            /* a value that does not fit its declared value, or has a tab or a line
                                       end in it: its opening quote */
    SGML_ERR_BATCH = 23,            /* sgml_read_batch only: too many documents, or lists that do not fit */
    SGML_ERR_SETTINGS = 24,         /* name_length is not SGML_NAMELEN to SGML_MOST_NAMELEN, or edition is
                                       neither SGML_FIRST_EDITION nor SGML_SECOND_EDITION */
    SGML_ERR_REPEATED = 25          /* an "&" group that carries "+" or "*", or is nested in what carries
                                       one: the first such "&" */
};

/* A refusal's number in words. */
static inline const char *sgml_refusal_text(uint32_t number)
{
    switch (number) {
    case SGML_ACCEPTED: return "accepted";
    case SGML_ERR_TOO_LONG: return "longer than the limit";
    case SGML_ERR_BYTE: return "a byte that is not allowed";
    case SGML_ERR_NAME_TOO_LONG: return "a name longer than the limit";
    case SGML_ERR_MALFORMED: return "malformed, or ends too early";
    case SGML_ERR_LEFT_OUT: return "a form of ISO 8879 that is not supported";
    case SGML_ERR_QUANTITY: return "too many content tokens or group levels";
    case SGML_ERR_DECLARED_TWICE: return "an element or attribute declared twice";
    case SGML_ERR_ELEMENTS: return "too many elements, or none";
    case SGML_ERR_AMBIGUOUS: return "an ambiguous content model";
    case SGML_ERR_UNDECLARED: return "a tag or attribute list of an undeclared element";
    case SGML_ERR_NOT_OPEN: return "an end tag, but no such element is open";
    case SGML_ERR_NOT_ALLOWED_HERE: return "this start tag or data is not allowed here";
    case SGML_ERR_INCOMPLETE: return "an element ends before its content is complete";
    case SGML_ERR_END_MISSING: return "an end tag that may not be omitted is missing";
    case SGML_ERR_TOO_DEEP: return "too many elements are open";
    case SGML_ERR_AFTER_END: return "a start tag or data after the document element";
    case SGML_ERR_SECTION_END: return "]]> outside tags and comments";
    case SGML_ERR_NO_DOCUMENT: return "there is no document element";
    case SGML_ERR_NO_ROOM: return "the lent buffer is too small";
    case SGML_ERR_ATTRIBUTE: return "an attribute that is not declared, or is there twice";
    case SGML_ERR_ATTRIBUTE_MISSING: return "a required attribute is missing";
    case SGML_ERR_VALUE: return "a value that does not fit its declared value";
    case SGML_ERR_BATCH: return "lists of documents and stretches that do not fit";
    case SGML_ERR_SETTINGS: return "a name length or an edition that is not supported";
    case SGML_ERR_REPEATED: return "an \"&\" group that is repeated";
    default: return "no refusal has this number";
    }
}

/* The numbers of an element's record, by their index in it. */
enum sgml_record_place {
    SGML_RECORD_NAME_OFFSET = 0, /* offset of its name in the type file */
    SGML_RECORD_NAME_LENGTH = 1,
    SGML_RECORD_START_TAG = 2, /* 0 for "-", 1 for "O": the start tag may be omitted */
    SGML_RECORD_END_TAG = 3,   /* likewise for the end tag */
    SGML_RECORD_CONTENT = 4,   /* 0 for EMPTY, 1 for a content model */
    SGML_RECORD_TOKENS = 5     /* content tokens of the model; 0 for EMPTY */
};

/* The record of a declared element. */
struct sgml_record {
    uint32_t name_offset, name_length; /* its name in the type file */
    uint32_t start_tag, end_tag;       /* 0 for "-", 1 for "O": the tag may be omitted */
    uint32_t content;                  /* 0 for EMPTY, 1 for a content model */
    uint32_t tokens;                   /* content tokens of the model; 0 for EMPTY */
};

/* The numbers of an attribute's record, by their index in it. */
enum sgml_attribute_place {
    SGML_ATTRIBUTE_ELEMENT = 0,     /* number of its element */
    SGML_ATTRIBUTE_NUMBER = 1,      /* its own number in the list, from 1 */
    SGML_ATTRIBUTE_NAME_OFFSET = 2, /* offset of its name in the type file */
    SGML_ATTRIBUTE_NAME_LENGTH = 3,
    SGML_ATTRIBUTE_VALUE = 4,          /* its declared value: an enum sgml_declared */
    SGML_ATTRIBUTE_GROUP_OFFSET = 5,   /* offset of the "(" of its name token group; else 0 */
    SGML_ATTRIBUTE_DEFAULT = 6,        /* its default: an enum sgml_default */
    SGML_ATTRIBUTE_DEFAULT_OFFSET = 7, /* offset of the default's value, without quotes; else 0 */
    SGML_ATTRIBUTE_DEFAULT_LENGTH = 8
};

/* Declared values. */
enum sgml_declared {
    SGML_CDATA = 0,  /* any text without tabs and line ends */
    SGML_NUMBER = 1, /* 1 to name_length digits */
    SGML_NAME = 2,   /* a name */
    SGML_TOKENS = 3  /* one of the tokens of a group; case is not significant */
};

/* Defaults. */
enum sgml_default { SGML_REQUIRED = 0, SGML_IMPLIED = 1, SGML_LITERAL = 2 };

/* The record of an attribute. */
struct sgml_attribute {
    uint32_t element, number;          /* number of its element, and its own number in the list, from 1 */
    uint32_t name_offset, name_length; /* its name in the type file */
    uint32_t value, group_offset;      /* an enum sgml_declared; the "(" of a name token group, else 0 */
    uint32_t preset;                   /* an enum sgml_default */
    uint32_t preset_offset, preset_length; /* the default's value in the type file, without quotes */
};

/* The kinds of event, and what their offset and length are; they refer to the document, but for kind 8. */
enum sgml_kind {
    SGML_KIND_START = 1,          /* a start tag: its offset and length */
    SGML_KIND_START_INFERRED = 2, /* an omitted start tag: offset of the tag or data that implies it; 0 */
    SGML_KIND_END = 3,            /* an end tag: its offset and length */
    SGML_KIND_END_INFERRED = 4,   /* an omitted end tag: offset of what implies it, or the end; 0 */
    SGML_KIND_DATA = 5,           /* a longest run of adjacent data bytes: its offset and length */
    SGML_KIND_END_OF_EMPTY = 6,   /* the end of an EMPTY element: the offset just after its tag; 0 */
    SGML_KIND_ATTRIBUTE = 7,      /* an attribute that the tag of the next start specifies: its value */
    SGML_KIND_ATTRIBUTE_DEFAULTED = 8 /* a default for the next start: its value in the type file */
};

/* An event. A line feed (byte 10) or a comment ends a run of data: "4", line feed, "0" is two events, and
 * joining them would make 40 of it. A content model's places are its names and #PCDATAs, counted from 1, left
 * to right: in (ITEM*,NEXT,ITEM*) an ITEM with place 1 comes before NEXT, one with place 3 after it. */
struct sgml_event {
    uint32_t kind;    /* an enum sgml_kind */
    uint32_t element; /* the element's number from 1, in the order of declaration; 0 for data; for an
                         attribute its own number in its list, from 1: sgml_element_at returns the element */
    uint32_t offset;
    uint32_t length;
    uint32_t place; /* for a start: the place that it took in its parent's content model, 0 for the document
                       element; 0 for every other event */
};

/* Judges a type file.
 *
 *   type, type_len      the type file
 *   buffer, buffer_len  lent for the records: 32-bit numbers of four bytes each, low byte first. One to three
 *                       bytes that remain at its end hold no number. SGML_MOST_RECORD_BYTES are enough.
 *   answer              receives the SGML_ANSWER_SIZE numbers of the answer
 *   name_length         largest length of a name: SGML_NAMELEN to SGML_MOST_NAMELEN
 *   edition             SGML_FIRST_EDITION or SGML_SECOND_EDITION; makes no difference here
 *
 * Accepted (answer[SGML_ANSWER_NUMBER] is 0): the buffer begins with answer[SGML_ANSWER_COUNT] records of
 * SGML_RECORD_SIZE numbers, one for each element in the order of declaration; the bytes after them are
 * unchanged.
 * Refused: every byte of the buffer is zero, and answer[SGML_ANSWER_COUNT] is 0.
 *
 * Returns answer[SGML_ANSWER_NUMBER]: SGML_ACCEPTED, which is 0, or the refusal's number. */
SGML_LOOK_AT_ANSWER uint32_t sgml_judge(const uint8_t *type, size_t type_len, uint8_t *buffer,
                                        size_t buffer_len, uint32_t answer[SGML_ANSWER_SIZE],
                                        uint32_t name_length, uint32_t edition);

/* Lists the attributes of a type file. Parameters, answer and refusals are those of sgml_judge.
 *
 * Accepted: the buffer begins with answer[SGML_ANSWER_COUNT] records of SGML_ATTRIBUTE_SIZE numbers, one for
 * each attribute, in the order of the elements and of each list; the bytes after them are unchanged.
 * SGML_MOST_ATTRIBUTE_BYTES are always enough.
 * Refused: every byte of the buffer is zero, and answer[SGML_ANSWER_COUNT] is 0.
 *
 * Returns answer[SGML_ANSWER_NUMBER]. */
SGML_LOOK_AT_ANSWER uint32_t sgml_attributes(const uint8_t *type, size_t type_len, uint8_t *buffer,
                                             size_t buffer_len, uint32_t answer[SGML_ANSWER_SIZE],
                                             uint32_t name_length, uint32_t edition);

/* Reads a document under a type file, which is judged each time.
 *
 *   type, type_len          the type file
 *   document, document_len  the document
 *   buffer, buffer_len      lent for the events: 32-bit numbers of four bytes each, low byte first, as above.
 *                           SGML_MOST_EVENTS says how much is always enough, and why to lend less.
 *   answer                  receives the SGML_ANSWER_SIZE numbers of the answer
 *   name_length             largest length of a name, as above
 *   edition                 the rule for record ends: SGML_FIRST_EDITION or SGML_SECOND_EDITION
 *
 * Accepted (answer[SGML_ANSWER_NUMBER] is 0): the buffer begins with answer[SGML_ANSWER_COUNT] events of
 * SGML_EVENT_SIZE numbers, in the order of the document; the bytes after them are unchanged.
 * Refused: every byte of the buffer is zero, and answer[SGML_ANSWER_COUNT] is 0. SGML_ERR_NO_ROOM is returned
 * only if nothing else is wrong.
 *
 * Returns answer[SGML_ANSWER_NUMBER], as sgml_judge does. */
SGML_LOOK_AT_ANSWER uint32_t sgml_read(const uint8_t *type, size_t type_len, const uint8_t *document,
                                       size_t document_len, uint8_t *buffer, size_t buffer_len,
                                       uint32_t answer[SGML_ANSWER_SIZE], uint32_t name_length,
                                       uint32_t edition);

/* Reads many documents under one type file, which is judged once.
 *
 *   type, type_len          the type file
 *   string, string_len      the bytes of all documents, which may overlap and be in any order
 *   starts, lengths         for each document its offset in the string and its length
 *   buffer, buffer_len      lent for the events of all documents
 *   froms, sizes            for each document its stretch of the buffer: offset and length in bytes.
 *                           Stretches may be in any order and adjacent, but no byte may be in two of them; an
 *                           empty stretch may be anywhere in the buffer.
 *   answers, answers_len    receives SGML_ANSWER_SIZE numbers for each document, in the order of the lists;
 *                           answers_len counts numbers
 *   answer                  receives the SGML_ANSWER_SIZE numbers of the answer to the whole call
 *   name_length             largest length of a name, as above
 *   edition                 the rule for record ends, as above
 *
 * Each list is followed by the number of its entries. The four lists have as many entries as there are
 * documents, and answers_len is SGML_ANSWER_SIZE times that.
 *
 * Accepted (answer[SGML_ANSWER_NUMBER] is 0, and answer[SGML_ANSWER_COUNT] is the number of documents): each
 * answer and each stretch is what sgml_read returns for that document with its stretch as the buffer: its
 * events, or a refusal and zeros. A refused document does not affect the others. A refused type file is
 * reported in every answer, except where the document's own refusal comes first in the order of refusals. A
 * document that extends beyond the string's end is refused as too long (SGML_ERR_TOO_LONG); sums of offsets
 * and lengths may exceed what a size_t holds. Bytes of the buffer outside the stretches are unchanged.
 * Refused (SGML_ERR_BATCH): there are more than SGML_BATCH_LIMIT documents, the lists differ in length,
 * answers_len is not SGML_ANSWER_SIZE times the number of documents, a stretch extends beyond the buffer's
 * end, or a byte is in two stretches. Every byte of the buffer is zero, and answers is unchanged.
 * Refused (SGML_ERR_SETTINGS): name_length or edition is not supported, whatever the lists are. Every byte of
 * the buffer is zero, and answers is unchanged, exactly as for SGML_ERR_BATCH.
 *
 * Returns answer[SGML_ANSWER_NUMBER]: SGML_ACCEPTED, SGML_ERR_BATCH or SGML_ERR_SETTINGS. */
SGML_LOOK_AT_ANSWER uint32_t sgml_read_batch(const uint8_t *type, size_t type_len, const uint8_t *string,
                                             size_t string_len, const size_t *starts, size_t starts_count,
                                             const size_t *lengths, size_t lengths_count, uint8_t *buffer,
                                             size_t buffer_len, const size_t *froms, size_t froms_count,
                                             const size_t *sizes, size_t sizes_count, uint32_t *answers,
                                             size_t answers_len, uint32_t answer[SGML_ANSWER_SIZE],
                                             uint32_t name_length, uint32_t edition);

/* The helpers below only read what the calls wrote. Those with a count accept any number and any event. */

/* The k-th number of a lent buffer, k from 0. The buffer has at least 4 * k + 4 bytes. */
static inline uint32_t sgml_number(const uint8_t *buffer, size_t k)
{
    const uint8_t *b = buffer + 4 * k;
    return SGML_CAST(uint32_t, b[0]) | SGML_CAST(uint32_t, b[1]) << 8 | SGML_CAST(uint32_t, b[2]) << 16 |
           SGML_CAST(uint32_t, b[3]) << 24;
}

/* The k-th event of a lent buffer, k from 0 and below answer[SGML_ANSWER_COUNT]. */
static inline struct sgml_event sgml_event_at(const uint8_t *buffer, size_t k)
{
    const uint8_t *b = buffer + SGML_EVENT_BYTES * k;
    struct sgml_event e;
    e.kind = sgml_number(b, 0);
    e.element = sgml_number(b, 1);
    e.offset = sgml_number(b, 2);
    e.length = sgml_number(b, 3);
    e.place = sgml_number(b, 4);
    return e;
}

/* The k-th record of a lent buffer, k from 0 and below answer[SGML_ANSWER_COUNT]. */
static inline struct sgml_record sgml_record_at(const uint8_t *buffer, size_t k)
{
    const uint8_t *b = buffer + SGML_RECORD_BYTES * k;
    struct sgml_record r;
    r.name_offset = sgml_number(b, SGML_RECORD_NAME_OFFSET);
    r.name_length = sgml_number(b, SGML_RECORD_NAME_LENGTH);
    r.start_tag = sgml_number(b, SGML_RECORD_START_TAG);
    r.end_tag = sgml_number(b, SGML_RECORD_END_TAG);
    r.content = sgml_number(b, SGML_RECORD_CONTENT);
    r.tokens = sgml_number(b, SGML_RECORD_TOKENS);
    return r;
}

/* The record of element number `element`, from 1, among `count` records. All zero if there is none. */
static inline struct sgml_record sgml_record_of(const uint8_t *buffer, size_t count, uint32_t element)
{
    struct sgml_record none = { 0, 0, 0, 0, 0, 0 };
    return element >= 1 && element <= count ? sgml_record_at(buffer, element - 1) : none;
}

/* The k-th record of an attribute in a lent buffer, k from 0 and below answer[SGML_ANSWER_COUNT]. */
static inline struct sgml_attribute sgml_attribute_at(const uint8_t *buffer, size_t k)
{
    const uint8_t *b = buffer + SGML_ATTRIBUTE_BYTES * k;
    struct sgml_attribute a;
    a.element = sgml_number(b, SGML_ATTRIBUTE_ELEMENT);
    a.number = sgml_number(b, SGML_ATTRIBUTE_NUMBER);
    a.name_offset = sgml_number(b, SGML_ATTRIBUTE_NAME_OFFSET);
    a.name_length = sgml_number(b, SGML_ATTRIBUTE_NAME_LENGTH);
    a.value = sgml_number(b, SGML_ATTRIBUTE_VALUE);
    a.group_offset = sgml_number(b, SGML_ATTRIBUTE_GROUP_OFFSET);
    a.preset = sgml_number(b, SGML_ATTRIBUTE_DEFAULT);
    a.preset_offset = sgml_number(b, SGML_ATTRIBUTE_DEFAULT_OFFSET);
    a.preset_length = sgml_number(b, SGML_ATTRIBUTE_DEFAULT_LENGTH);
    return a;
}

/* The record of attribute number `number` of element number `element`, among `count` records of
 * sgml_attributes. All zero if there is none. */
static inline struct sgml_attribute sgml_attribute_of(const uint8_t *buffer, size_t count, uint32_t element,
                                                      uint32_t number)
{
    struct sgml_attribute none = { 0, 0, 0, 0, 0, 0, 0, 0, 0 };
    size_t k;
    for (k = 0; k < count; k++) {
        const uint8_t *b = buffer + SGML_ATTRIBUTE_BYTES * k;
        if (sgml_number(b, SGML_ATTRIBUTE_ELEMENT) == element &&
            sgml_number(b, SGML_ATTRIBUTE_NUMBER) == number)
            return sgml_attribute_at(buffer, k);
    }
    return none;
}

/* The element that the k-th of `count` events belongs to: for an attribute that of the next start, 0 for data
 * and if there is no such event. */
static inline uint32_t sgml_element_at(const uint8_t *events, size_t count, size_t k)
{
    for (; k < count; k++) {
        struct sgml_event e = sgml_event_at(events, k);
        if (e.kind != SGML_KIND_ATTRIBUTE && e.kind != SGML_KIND_ATTRIBUTE_DEFAULTED)
            return e.element;
    }
    return 0;
}

/* The e.length bytes that an event refers to: the value of an attribute without quotes, which for a defaulted
 * one is in the type file, the bytes of data, a tag. They do not end with a zero. */
static inline const uint8_t *sgml_value(const uint8_t *type, const uint8_t *document, struct sgml_event e)
{
    return (e.kind == SGML_KIND_ATTRIBUTE_DEFAULTED ? type : document) + e.offset;
}

/* Copies `length` bytes of a name to a string of `room` bytes, in upper case and with a zero after it, as far
 * as there is room. Returns the length of the name. */
static inline size_t sgml_copy_upper(const uint8_t *name, size_t length, char *to, size_t room)
{
    size_t i;
    for (i = 0; i < length && i + 1 < room; i++)
        to[i] = SGML_CAST(char, name[i] >= 'a' && name[i] <= 'z' ? name[i] - 'a' + 'A' : name[i]);
    if (room)
        to[i] = 0;
    return length;
}

/* Copies the name of element number `element`, from 1, among `count` records of the type file `type`, to a
 * string of `room` bytes, in upper case and with a zero after it, as far as there is room. SGML_MOST_NAMELEN
 * + 1 bytes are always enough. Returns the length of the name. For 0, and for a number that no record has,
 * the name is empty. */
static inline size_t sgml_copy_name(const uint8_t *type, const uint8_t *records, size_t count,
                                    uint32_t element, char *to, size_t room)
{
    struct sgml_record r = sgml_record_of(records, count, element);
    return sgml_copy_upper(type + r.name_offset, r.name_length, to, room);
}

/* Copies the name of an attribute, as sgml_copy_name does that of an element. */
static inline size_t sgml_copy_attribute_name(const uint8_t *type, struct sgml_attribute a, char *to,
                                              size_t room)
{
    return sgml_copy_upper(type + a.name_offset, a.name_length, to, room);
}

#ifdef __cplusplus
}
#endif
#endif

/* sgml_read_alloc is defined if SGML_WITH_MALLOC is, before this header is included. */
#if defined(SGML_WITH_MALLOC) && !defined(SGML_READ_ALLOC)
#define SGML_READ_ALLOC

#include <stdlib.h>

/* Reads a document into memory from malloc: 64 KB first, and twice as much as long as the call returns
 * SGML_ERR_NO_ROOM. Parameters and answer are otherwise those of sgml_read.
 *
 * Accepted: *events has answer[SGML_ANSWER_COUNT] events; the caller frees it.
 * Refused: *events is null. SGML_ERR_NO_ROOM means that malloc failed.
 *
 * Returns answer[SGML_ANSWER_NUMBER]. */
SGML_LOOK_AT_ANSWER static inline uint32_t sgml_read_alloc(const uint8_t *type, size_t type_len,
                                                           const uint8_t *document, size_t document_len,
                                                           uint8_t **events,
                                                           uint32_t answer[SGML_ANSWER_SIZE],
                                                           uint32_t name_length, uint32_t edition)
{
    size_t room = 64 * 1024;
    for (;;) {
        uint8_t *buffer = SGML_CAST(uint8_t *, malloc(room));
        uint32_t number = sgml_read(type, type_len, document, document_len, buffer, buffer ? room : 0, answer,
                                    name_length, edition);
        *events = number ? NULL : buffer;
        if (number)
            free(buffer);
        if (number != SGML_ERR_NO_ROOM || !buffer)
            return number;
        room *= 2;
    }
}
#endif
