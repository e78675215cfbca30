/* sgml.c - the reader as a command: prints the events of documents under a type file, or where and why one of
 * them is refused. It decides nothing: what is accepted, and where and why not, is the library's answer. */
#include "print.h"
#include "sgml_messages.h"
#include <errno.h>
#include <stdio.h>
#include <stdlib.h>

#define NAME "sgml"

enum status { ACCEPTED = 0, REFUSED = 1, NOT_RUN = 2 };
enum form { EVENTS, ESIS, CHECK, ANSWER, BATCH };

/* What was asked for on the command line, and what was reported so far. */
struct job {
    enum form form;
    int is_short;     /* -q: a refusal is one line */
    int is_silent;    /* -s */
    int has_places;   /* an event's line has its place too */
    int has_lines;    /* -l */
    const char *type; /* files; the documents stand where the words do */
    char **documents;
    size_t count;
    uint32_t name_length, edition;
    int is_type_reported, is_warned;
};

/* A document of several: its bytes in a common string, or why it could not be read. */
struct loaded {
    struct input input;
    size_t start;
    int error; /* of errno; 0 if it was read */
};

static uint8_t type_bytes[SGML_TYPE_LIMIT + 1], document_bytes[SGML_DOCUMENT_LIMIT + 1];
static struct declared declared;
static FILE *errors; /* where refusals and warnings go */

static const char usage[] = "usage: " NAME " [OPTION]... [--] TYPE DOCUMENT...\n"
                            "       " NAME " [OPTION]... --check [--] TYPE\n"
                            "       " NAME " -h | --help | --version\n";

static const char help[] =
    "Reads SGML documents under a type file and prints their events, or where and why they are refused.\n"
    "\n"
    "  TYPE        the type file, with element and attribute declarations; - for standard input\n"
    "  DOCUMENT    a document without <!DOCTYPE; - for standard input\n"
    "\n"
    "Output. Without one of these options: a line \"events N\", then a line for each event.\n"
    "  --check, -s print nothing but refusals; without a document, check the type file alone and warn\n"
    "              about names in its content models that are never declared\n"
    "  --esis      print the events in the output format of onsgmls\n"
    "  -l          with --esis: print L commands (line number and file name)\n"
    "  --batch     read all documents, at most 200, in one call, and print for each a line\n"
    "              \"== DOCUMENT\", then its events or \"refused N in document at P\"\n"
    "  --answer    print exactly what the small program of the scope paper prints: a refusal as\n"
    "              \"refused N in type at P\" on standard output, and at most 4,096 events\n"
    "  --places    add to each event's line the place that a start took in its parent's content model;\n"
    "              0 for the document element and for all other events\n"
    "\n"
    "Reading.\n"
    "  --name-length N\n"
    "              names have at most N bytes, 8 to 32; default 8\n"
    "  --edition N by which rule record ends (byte 13) are data. In edition 1, the default, byte 13 is\n"
    "              data wherever data may stand. Edition 2 follows clause 7.6.1 of ISO 8879: byte 13\n"
    "              is ignored where it is there because of markup. In both editions byte 10 is\n"
    "              ignored, so files whose lines end with byte 10 alone read alike in both, and words\n"
    "              on two lines join; edition 2 is for files whose lines end with bytes 13 and 10.\n"
    "\n"
    "To compare with onsgmls, use --esis --edition 2, lines that end with bytes 13 and 10, and make\n"
    "onsgmls read the bytes as they are:\n"
    "  { printf '<!DOCTYPE NAME ['; cat TYPE; printf ']>'; cat DOCUMENT; } >whole.sgm\n"
    "  onsgmls '<OSFILE RECORDS=ASIS>whole.sgm'\n"
    "\n"
    "Messages.\n"
    "  -q          print a refusal as one line, without the line of the file\n"
    "  -f FILE     append refusals and warnings to FILE, not to standard error\n"
    "  -h, --help  print this help and exit\n"
    "  --version   print name and version and exit\n"
    "  --          end of the options\n"
    "\n"
    "A refusal is a line FILE:LINE:COLUMN: TEXT [NUMBER] on standard error, then that line of the file.\n"
    "With several documents, each output stands under a line with the document's name, except with\n"
    "--esis: there each accepted document ends with a line \"C\". A value may follow a long option after\n"
    "\"=\": --edition=2.\n"
    "Exit status: 0 all accepted, 1 at least one refused, 2 misuse, or a file cannot be read or written.\n";

static const char no_length[] = "--name-length takes a number from 8 to 32, not ",
                  no_edition[] = "--edition takes 1 or 2, not ";

static enum status misused(const char *text, const char *what)
{
    fprintf(stderr, NAME ": %s%s\n%s", text, what, usage);
    return NOT_RUN;
}

static enum status failed(const char *name, const char *why)
{
    fflush(stdout);
    fprintf(errors, NAME ": %s: %s\n", name, why);
    return NOT_RUN;
}

/* What was printed counts only if it could be written. */
static enum status written(enum status status)
{
    errno = 0;
    if (!fflush(stdout) && !ferror(stdout))
        return status;
    return failed("standard output", errno ? strerror(errno) : "cannot be written");
}

static enum status worse(enum status a, enum status b)
{
    return a > b ? a : b;
}

/* Fills `bytes` from the input's file, "-" being standard input; 0, or why it could not be read. There is
 * room for a byte more than the library takes, so a file that is too long is the library's to refuse. */
static int load(struct input *input, uint8_t *bytes, size_t room)
{
    int is_standard = !strcmp(input->name, "-"), error = 0;
    FILE *file = is_standard ? stdin : fopen(input->name, "rb");
    input->bytes = bytes;
    if (is_standard)
        input->name = "<stdin>";
    if (!file)
        return errno;
    input->length = fread(bytes, 1, room, file);
    if (ferror(file))
        error = errno;
    if (!is_standard)
        fclose(file);
    return error;
}

static struct sgml_refused refusal_of(const struct job *job, const struct input *document,
                                      const uint32_t *answer)
{
    struct sgml_refused r = { declared.type.name,
                              declared.type.bytes,
                              declared.type.length,
                              document ? document->name : NULL,
                              document ? document->bytes : NULL,
                              document ? document->length : 0,
                              job->name_length,
                              job->edition,
                              answer };
    return r;
}

/* Memory for a message: as much as there is, for as many events as a document may have before its fault. */
static void *message_memory(size_t *length)
{
    void *memory = NULL;
    for (*length = 64 * (size_t)SGML_MESSAGE_MEMORY; !memory && *length >= SGML_MESSAGE_LEAST; *length /= 2)
        memory = malloc(*length);
    *length = memory ? 2 * *length : 0;
    return memory;
}

static void report_line(const struct job *job, const struct input *input, size_t at)
{
    char text[256];
    if (job->is_short)
        return;
    sgml_source_line(input->bytes, input->length, at, text, sizeof text);
    fputs(text, errors);
}

/* A name that is never declared is allowed in a model, and often a slip. */
static void warn_of_undeclared(const struct job *job)
{
    struct sgml_refused r = refusal_of(job, NULL, NULL);
    char text[SGML_MESSAGE_SIZE];
    size_t length, from = 0, at;
    void *memory = message_memory(&length);
    while (sgml_warning(&r, memory, length, &from, &at, text, sizeof text)) {
        fprintf(errors, "%s\n", text);
        report_line(job, &declared.type, at);
    }
    free(memory);
}

/* FILE:LINE:COLUMN: TEXT [NUMBER], and the line with a caret. A type that is refused is reported once; the
 * names that it does not declare are warned of with the first document that is refused under it. */
static enum status refused(struct job *job, const struct input *document, const uint32_t *answer)
{
    struct sgml_refused r = refusal_of(job, document, answer);
    uint32_t number = answer[SGML_ANSWER_NUMBER];
    int is_type = answer[SGML_ANSWER_INPUT] == SGML_IN_TYPE;
    char text[SGML_MESSAGE_SIZE];
    void *memory;
    size_t length;
    if (is_type && job->is_type_reported)
        return REFUSED;
    memory = message_memory(&length);
    sgml_message(&r, memory, length, text, sizeof text);
    free(memory);
    fflush(stdout);
    fprintf(errors, "%s\n", text);
    if (number != SGML_ERR_TOO_LONG && number != SGML_ERR_SETTINGS)
        report_line(job, is_type ? &declared.type : document, answer[SGML_ANSWER_POSITION]);
    if (is_type)
        job->is_type_reported = 1;
    else if (number >= SGML_ERR_UNDECLARED && !job->is_warned) {
        job->is_warned = 1;
        warn_of_undeclared(job);
    }
    return REFUSED;
}

/* Edition 2 is about byte 13. */
static void warn_of_record_ends(const struct job *job, const struct input *document)
{
    if (job->edition != SGML_SECOND_EDITION || !document->length ||
        memchr(document->bytes, 13, document->length) || !memchr(document->bytes, 10, document->length))
        return;
    fflush(stdout);
    fprintf(errors,
            "%s:1:1: warning: the lines of this document end with byte 10 alone; edition 2 is about byte 13, "
            "so it reads as in edition 1\n",
            document->name);
}

/* What the small program prints of an answer: a refusal goes to standard output. */
static enum status print_answer(const struct job *job, const uint8_t *events, const uint32_t *answer)
{
    if (answer[SGML_ANSWER_NUMBER])
        printf("refused %u in %s at %u\n", (unsigned)answer[SGML_ANSWER_NUMBER],
               answer[SGML_ANSWER_INPUT] == SGML_IN_TYPE ? "type" : "document",
               (unsigned)answer[SGML_ANSWER_POSITION]);
    else
        print_events(&declared, events, answer[SGML_ANSWER_COUNT], job->has_places);
    return answer[SGML_ANSWER_NUMBER] ? REFUSED : ACCEPTED;
}

/* --answer: the small program's buffer has 20,480 numbers. */
static enum status answered(const struct job *job, struct input *document)
{
    static uint8_t events[4 * 20480];
    uint32_t answer[SGML_ANSWER_SIZE], number;
    int error = load(document, document_bytes, sizeof document_bytes);
    if (error)
        return failed(document->name, strerror(error));
    if (job->count > 1)
        printf("%s:\n", document->name);
    number = sgml_read(declared.type.bytes, declared.type.length, document->bytes, document->length, events,
                       sizeof events, answer, job->name_length, job->edition);
    return number == answer[SGML_ANSWER_NUMBER] ? written(print_answer(job, events, answer)) : NOT_RUN;
}

/* The events of a document, in memory to be freed; null where there is no more. Little is lent first, since a
 * refusal zeroes all of it. */
static uint8_t *events_of(const struct job *job, const struct input *document, uint32_t *answer)
{
    size_t most = SGML_EVENT_BYTES * SGML_MOST_EVENTS(document->length), room = 65536;
    for (;;) {
        uint8_t *events = malloc(room);
        if (!events)
            return NULL;
        if (sgml_read(declared.type.bytes, declared.type.length, document->bytes, document->length, events,
                      room, answer, job->name_length, job->edition) != SGML_ERR_NO_ROOM ||
            room >= most)
            return events;
        free(events);
        room = 4 * room < most ? 4 * room : most;
    }
}

/* The output for a document and its answer. */
static enum status report(struct job *job, const struct input *document, const uint8_t *events,
                          const uint32_t *answer)
{
    enum status status = ACCEPTED;
    if (job->form == EVENTS && job->count > 1 && answer[SGML_ANSWER_INPUT] != SGML_IN_TYPE)
        printf("%s:\n", document->name);
    if (job->form == BATCH) {
        printf("== %s\n", document->name);
        print_answer(job, events, answer);
    }
    if (answer[SGML_ANSWER_NUMBER])
        status = refused(job, document, answer);
    else if (job->form == ESIS)
        print_esis(&declared, document, events, answer[SGML_ANSWER_COUNT], job->has_lines);
    else if (job->form == EVENTS)
        print_events(&declared, events, answer[SGML_ANSWER_COUNT], job->has_places);
    if (document->length <= SGML_DOCUMENT_LIMIT && answer[SGML_ANSWER_INPUT] != SGML_IN_TYPE)
        warn_of_record_ends(job, document);
    return job->form == CHECK ? status : written(status);
}

/* A document by itself, with as much room as it needs. */
static enum status read_alone(struct job *job, const struct input *document)
{
    uint32_t answer[SGML_ANSWER_SIZE];
    uint8_t *events = events_of(job, document, answer);
    enum status status =
        events ? report(job, document, events, answer) : failed(document->name, strerror(ENOMEM));
    free(events);
    return status;
}

/* Documents that are read in one call: lists for it, and their events. */
struct batch {
    size_t count, end; /* documents, and bytes of their string */
    struct loaded *documents;
    uint8_t *string, *events;
    size_t *starts, *lengths, *froms, *sizes;
    uint32_t *answers;
};

/* Loads the documents one behind the other. */
static int load_batch(const struct job *job, struct batch *b, size_t first)
{
    size_t i;
    for (i = 0; i < b->count; i++) {
        struct loaded *d = &b->documents[i];
        uint8_t *longer;
        d->input.name = job->documents[first + i];
        d->start = b->end;
        d->error = load(&d->input, document_bytes, sizeof document_bytes);
        if (d->error)
            d->input.length = 0;
        longer = realloc(b->string, b->end + d->input.length + 1);
        if (!longer)
            return 0;
        b->string = longer;
        memcpy(b->string + b->end, document_bytes, d->input.length);
        b->end += d->input.length;
    }
    for (i = 0; i < b->count; i++)
        b->documents[i].input.bytes = b->string + b->documents[i].start;
    return 1;
}

/* Lends each document eight bytes for each of its own, which is enough for most; a check needs none, since
 * "no room" says that nothing else is wrong. What needs more is read by itself afterwards. */
static size_t lend(const struct job *job, struct batch *b)
{
    size_t i, end = 0;
    for (i = 0; i < b->count; i++) {
        b->starts[i] = b->documents[i].start;
        b->lengths[i] = b->documents[i].input.length;
        b->froms[i] = end;
        b->sizes[i] = job->form == CHECK ? 0 : 8 * b->lengths[i] + 1024;
        end += b->sizes[i];
    }
    b->events = malloc(end + 1);
    for (i = 0; i < b->count && !b->events; i++)
        b->froms[i] = b->sizes[i] = 0;
    return b->events ? end : 0;
}

static enum status report_batch(struct job *job, struct batch *b)
{
    enum status status = ACCEPTED, own;
    size_t i;
    for (i = 0; i < b->count; i++) {
        const struct loaded *d = &b->documents[i];
        uint32_t *answer = b->answers + SGML_ANSWER_SIZE * i;
        if (d->error) {
            own = failed(d->input.name, strerror(d->error));
        } else if (answer[SGML_ANSWER_NUMBER] == SGML_ERR_NO_ROOM && job->form == CHECK) {
            answer[SGML_ANSWER_NUMBER] = SGML_ACCEPTED;
            own = report(job, &d->input, NULL, answer);
        } else if (answer[SGML_ANSWER_NUMBER] == SGML_ERR_NO_ROOM) {
            own = read_alone(job, &d->input);
        } else {
            own = report(job, &d->input, b->events ? b->events + b->froms[i] : NULL, answer);
        }
        status = worse(status, own);
    }
    return status;
}

static enum status read_batch(struct job *job, struct batch *b, size_t first)
{
    uint32_t answer[SGML_ANSWER_SIZE];
    size_t n = b->count, room;
    if (!load_batch(job, b, first))
        return failed("documents", strerror(ENOMEM));
    room = lend(job, b);
    if (!sgml_read_batch(declared.type.bytes, declared.type.length, b->string, b->end, b->starts, n,
                         b->lengths, n, b->events, room, b->froms, n, b->sizes, n, b->answers,
                         SGML_ANSWER_SIZE * n, answer, job->name_length, job->edition))
        return report_batch(job, b);
    if (job->form == BATCH)
        print_answer(job, NULL, answer);
    fflush(stdout);
    fprintf(errors, NAME ": --batch reads at most %d documents in one call, not %zu [%u]\n", SGML_BATCH_LIMIT,
            n, (unsigned)answer[SGML_ANSWER_NUMBER]);
    return written(REFUSED);
}

/* So many documents from the first, in one call. */
static enum status run_batch(struct job *job, size_t first, size_t n)
{
    struct batch b = { n,
                       0,
                       calloc(n, sizeof(struct loaded)),
                       NULL,
                       NULL,
                       malloc(n * sizeof(size_t)),
                       malloc(n * sizeof(size_t)),
                       malloc(n * sizeof(size_t)),
                       malloc(n * sizeof(size_t)),
                       malloc(SGML_ANSWER_SIZE * n * sizeof(uint32_t)) };
    enum status status = NOT_RUN;
    if (b.documents && b.starts && b.lengths && b.froms && b.sizes && b.answers)
        status = read_batch(job, &b, first);
    else
        failed("documents", strerror(ENOMEM));
    free(b.documents);
    free(b.string);
    free(b.events);
    free(b.starts);
    free(b.lengths);
    free(b.froms);
    free(b.sizes);
    free(b.answers);
    return status;
}

static enum status read_single(struct job *job, struct input document)
{
    int error = load(&document, document_bytes, sizeof document_bytes);
    return error ? failed(document.name, strerror(error)) : read_alone(job, &document);
}

static enum status run(struct job *job)
{
    uint32_t answer[SGML_ANSWER_SIZE];
    enum status status = ACCEPTED;
    size_t i;
    int error;
    declared.type.name = job->type;
    error = load(&declared.type, type_bytes, sizeof type_bytes);
    if (error)
        return failed(declared.type.name, strerror(error));
    if (!sgml_attributes(type_bytes, declared.type.length, declared.attributes, sizeof declared.attributes,
                         answer, job->name_length, job->edition))
        declared.attribute_count = answer[SGML_ANSWER_COUNT];
    if (sgml_judge(type_bytes, declared.type.length, declared.records, sizeof declared.records, answer,
                   job->name_length, job->edition) &&
        !job->count)
        return refused(job, NULL, answer);
    if (!job->count) {
        warn_of_undeclared(job);
        return ACCEPTED;
    }
    for (i = 0; i < job->count && job->form == ANSWER; i++) {
        struct input document = { job->documents[i], NULL, 0 };
        status = worse(status, answered(job, &document));
    }
    if (job->form == ANSWER)
        return status;
    if (job->form == BATCH)
        return run_batch(job, 0, job->count);
    if (job->count == 1) {
        struct input document = { job->documents[0], NULL, 0 };
        return read_single(job, document);
    }
    for (i = 0; i < job->count; i += SGML_BATCH_LIMIT)
        status = worse(
            status, run_batch(job, i, job->count - i < SGML_BATCH_LIMIT ? job->count - i : SGML_BATCH_LIMIT));
    return status;
}

static enum status print(const char *text, const char *more)
{
    printf("%s%s", text, more);
    return written(ACCEPTED);
}

/* Takes a setting; 0 if the word is no number. Every number that 32 bits do not hold is taken for the
 * largest, which is not offered. */
static int is_setting(const char *word, uint32_t *setting)
{
    size_t digits = word ? strspn(word, "0123456789") : 0;
    unsigned long long number;
    if (!digits || word[digits])
        return 0;
    number = strtoull(word, NULL, 10);
    *setting = number < UINT32_MAX ? (uint32_t)number : UINT32_MAX;
    return 1;
}

/* Takes an option without a value; 0 if there is none of that name. */
static int is_option(struct job *job, const char *word, int *forms)
{
    static const struct {
        const char *word;
        enum form form;
    } named[] = { { "--esis", ESIS }, { "--check", CHECK }, { "--answer", ANSWER }, { "--batch", BATCH } };
    size_t k;
    if (!strcmp(word, "-q"))
        return job->is_short = 1;
    if (!strcmp(word, "-s"))
        return job->is_silent = 1;
    if (!strcmp(word, "-l"))
        return job->has_lines = 1;
    if (!strcmp(word, "--places"))
        return job->has_places = 1;
    for (k = 0; k < sizeof named / sizeof *named; k++)
        if (!strcmp(word, named[k].word)) {
            *forms += job->form != named[k].form;
            job->form = named[k].form;
            return 1;
        }
    return 0;
}

/* The value of an option that has this name, in its own word or in the next; null if the word is another
 * option. A value that is not there is the empty text. */
static const char *value_of(const char *option, char **argv, int *i)
{
    size_t length = strlen(option);
    const char *word = argv[*i];
    int is_short = option[1] != '-';
    if (!strcmp(word, option))
        return argv[*i + 1] ? argv[++*i] : "";
    if (strncmp(word, option, length) || (!is_short && word[length] != '='))
        return NULL;
    return word + length + !is_short;
}

/* What does not go together, or is missing; null if all is well. */
static const char *fault_of(const struct job *job, int forms, int standard)
{
    int is_check = job->form == CHECK || job->is_silent;
    if (!job->type)
        return "missing operands: TYPE and DOCUMENT";
    if (!job->count && !is_check)
        return "missing operand: DOCUMENT";
    if (forms > 1)
        return "--esis, --check, -s, --answer and --batch exclude each other";
    if (job->has_places && (job->form == ESIS || is_check))
        return "--places adds to the lines of events, and --esis, --check and -s print none";
    if (job->has_lines && job->form != ESIS && !is_check)
        return "-l needs --esis";
    if (standard > 1)
        return "only one file can be standard input";
    return NULL;
}

/* A length of names or an edition that is not offered is a misuse; --answer hands it to the library as it is.
 */
static enum status checked(const struct job *job)
{
    int is_length = job->name_length >= SGML_NAMELEN && job->name_length <= SGML_MOST_NAMELEN;
    int is_edition = job->edition == SGML_FIRST_EDITION || job->edition == SGML_SECOND_EDITION;
    char number[16];
    if (job->form == ANSWER || (is_length && is_edition))
        return ACCEPTED;
    snprintf(number, sizeof number, "%u", (unsigned)(is_length ? job->edition : job->name_length));
    return misused(is_length ? no_edition : no_length, number);
}

/* Takes the words; NOT_RUN if they are misused, REFUSED if the job is done already. */
static enum status take_words(struct job *job, char **argv, int argc)
{
    int i, forms = 0, standard = 0, is_over = 0; /* is_over: the options have ended */
    const char *value, *fault;
    for (i = 1; i < argc; i++) {
        char *word = argv[i];
        if (is_over || word[0] != '-' || !word[1]) {
            standard += !strcmp(word, "-");
            if (job->type)
                job->documents[job->count++] = word;
            else
                job->type = word;
        } else if (!strcmp(word, "--")) {
            is_over = 1;
        } else if ((value = value_of("--name-length", argv, &i))) {
            if (!is_setting(value, &job->name_length))
                return misused(no_length, *value ? value : "nothing");
        } else if ((value = value_of("--edition", argv, &i))) {
            if (!is_setting(value, &job->edition))
                return misused(no_edition, *value ? value : "nothing");
        } else if ((value = value_of("-f", argv, &i))) {
            if (!*value)
                return misused("-f takes the name of a file", "");
            errors = fopen(value, "a");
            if (!errors) {
                errors = stderr;
                return failed(value, strerror(errno));
            }
        } else if (!is_option(job, word, &forms)) {
            return misused("unknown option: ", word);
        }
    }
    forms += job->is_silent && (job->form == ANSWER || job->form == BATCH);
    fault = fault_of(job, forms, standard);
    if (job->is_silent)
        job->form = CHECK;
    return fault ? misused(fault, "") : checked(job);
}

/* These stand for all the rest, wherever they are among the options. */
static int is_asked_for(const char *option, char **argv, int argc)
{
    int i;
    for (i = 1; i < argc && strcmp(argv[i], "--"); i++)
        if (!strcmp(argv[i], option))
            return 1;
    return 0;
}

int main(int argc, char **argv)
{
    struct job job = { EVENTS, 0, 0, 0, 0, NULL, argv, 0, SGML_NAMELEN, SGML_FIRST_EDITION, 0, 0 };
    enum status status;
    errors = stderr;
    if (is_asked_for("--help", argv, argc) || is_asked_for("-h", argv, argc))
        return print(usage, help);
    if (is_asked_for("--version", argv, argc))
        return print(NAME " " SGML_VERSION, "\n");
    status = take_words(&job, argv, argc);
    if (status)
        return status;
    status = run(&job);
    if (errors != stderr && fclose(errors)) {
        fprintf(stderr, NAME ": the file of -f: %s\n", strerror(errno));
        return NOT_RUN;
    }
    return status;
}
