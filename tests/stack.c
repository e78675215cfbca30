/* stack.c - how much stack a call takes: each runs in a thread whose stack was painted before, and then in one that has no more than
 * the header promises for it, above a page that may not be touched. With less, down to two pages, a call is killed by SIGSEGV at that
 * page, and what lies below it is as it was. The types have models as deep as they may be, which is where the judge and the reader go
 * deepest; names may be as long as they ever may. */
#define _GNU_SOURCE
#include "sgml.h"
#include <pthread.h>
#include <stdio.h>
#include <stdlib.h>
#include <string.h>
#include <signal.h>
#include <sys/mman.h>
#include <sys/resource.h>
#include <sys/wait.h>
#include <unistd.h>

#define STACK (512 * 1024)
#define PAINT 0x5A
#define ROOM (SGML_EVENT_BYTES * 1024 + SGML_MOST_RECORD_BYTES + SGML_MOST_ATTRIBUTE_BYTES)

static char type[SGML_TYPE_LIMIT];
static size_t type_len;
static const char *document;
static uint32_t expected; /* the number of the answer */
static int wrong;

static void text(const char *what, int times)
{
    while (times--)
        type_len += (size_t)sprintf(type + type_len, "%s", what);
}

static void look(uint32_t number, const uint32_t *answer)
{
    if (number == expected)
        return;
    wrong = 1;
    printf("answered %u at %u, expected %u\n", (unsigned)number, (unsigned)answer[SGML_ANSWER_POSITION], (unsigned)expected);
}

static void *judge_call(void *buffer)
{
    uint32_t answer[SGML_ANSWER_SIZE];
    look(sgml_judge((const uint8_t *)type, type_len, buffer, ROOM, answer, SGML_MOST_NAMELEN, SGML_FIRST_EDITION), answer);
    return NULL;
}

static void *read_call(void *buffer)
{
    uint32_t answer[SGML_ANSWER_SIZE];
    look(sgml_read((const uint8_t *)type, type_len, (const uint8_t *)document, strlen(document), buffer, ROOM, answer, SGML_MOST_NAMELEN, SGML_FIRST_EDITION), answer);
    return NULL;
}

static void *list_call(void *buffer)
{
    uint32_t answer[SGML_ANSWER_SIZE];
    look(sgml_attributes((const uint8_t *)type, type_len, buffer, ROOM, answer, SGML_MOST_NAMELEN, SGML_FIRST_EDITION), answer);
    return NULL;
}

/* A batch of the document twice. */
static void *batch_call(void *buffer)
{
    uint32_t answer[SGML_ANSWER_SIZE], answers[2 * SGML_ANSWER_SIZE];
    size_t starts[2] = { 0, 0 }, lengths[2], froms[2] = { 0, ROOM / 2 }, sizes[2] = { ROOM / 2, ROOM / 2 };
    lengths[0] = lengths[1] = strlen(document);
    if (sgml_read_batch((const uint8_t *)type, type_len, (const uint8_t *)document, lengths[0], starts, 2, lengths, 2, buffer, ROOM, froms, 2, sizes, 2, answers,
                        2 * SGML_ANSWER_SIZE, answer, SGML_MOST_NAMELEN, SGML_FIRST_EDITION)) {
        wrong = 1;
        puts("the batch is refused");
    }
    look(answers[SGML_ANSWER_SIZE], answers + SGML_ANSWER_SIZE);
    return NULL;
}

static void *nothing(void *unused)
{
    return unused;
}

/* The bytes of a painted stack of this size that a function has written. */
static size_t used(void *(*function)(void *), void *argument, size_t size)
{
    size_t page = (size_t)sysconf(_SC_PAGESIZE), i = 0;
    uint8_t *below = mmap(NULL, page + size, PROT_READ | PROT_WRITE, MAP_PRIVATE | MAP_ANONYMOUS, -1, 0), *stack;
    pthread_attr_t attributes;
    pthread_t thread;
    if (below == MAP_FAILED || mprotect(below, page, PROT_NONE)) {
        perror("a stack");
        exit(1);
    }
    stack = below + page;
    memset(stack, PAINT, size);
    pthread_attr_init(&attributes);
    if (pthread_attr_setstack(&attributes, stack, size) || pthread_create(&thread, &attributes, function, argument)) {
        puts("no thread");
        exit(1);
    }
    pthread_join(thread, NULL);
    while (i < size && stack[i] == PAINT)
        i++;
    munmap(below, page + size);
    return size - i;
}

static uint8_t buffer[ROOM];

/* The most that a call is promised to take. */
static size_t promised(void *(*function)(void *))
{
    return function == judge_call || function == list_call ? SGML_JUDGE_STACK_BYTES : SGML_STACK_BYTES;
}

/* How much a call takes beside what its thread does, and `most` so far; and it runs in what the header promises. */
static void take(void *(*function)(void *), size_t *most)
{
    size_t thread = used(nothing, NULL, STACK), own = used(function, buffer, STACK) - thread;
    if (own > *most)
        *most = own;
    if (own == 0 || own > promised(function)) {
        printf("a call takes %zu bytes of stack; the limit is %zu\n", own, promised(function));
        wrong = 1;
        return;
    }
    used(function, buffer, (promised(function) + thread + 4095) / 4096 * 4096);
}

/* In a process of its own: a call in a thread with `size` bytes of stack, above a page that may not be touched, below which lies as much
 * as a call takes at most, shared with this process. It ends by SIGSEGV, and nothing is written there. */
static void check_killed(void *(*function)(void *), size_t size)
{
    size_t page = (size_t)sysconf(_SC_PAGESIZE), i = 0;
    uint8_t *low = mmap(NULL, STACK + page + size, PROT_READ | PROT_WRITE, MAP_SHARED | MAP_ANONYMOUS, -1, 0);
    int status = 0;
    pid_t child;
    if (low == MAP_FAILED || mprotect(low + STACK, page, PROT_NONE)) {
        perror("a stack");
        exit(1);
    }
    memset(low, PAINT, STACK);
    fflush(stdout);
    child = fork();
    if (child == 0) {
        struct rlimit none = { 0, 0 };
        pthread_attr_t attributes;
        pthread_t thread;
        setrlimit(RLIMIT_CORE, &none);
        pthread_attr_init(&attributes);
        if (pthread_attr_setstack(&attributes, low + STACK + page, size) || pthread_create(&thread, &attributes, function, buffer))
            _exit(1);
        pthread_join(thread, NULL);
        _exit(0);
    }
    if (child < 0 || waitpid(child, &status, 0) != child || !WIFSIGNALED(status) || WTERMSIG(status) != SIGSEGV) {
        printf("a call with %zu bytes of stack ended with status %d\n", size, status);
        wrong = 1;
    }
    while (i < STACK && low[i] == PAINT)
        i++;
    if (i < STACK) {
        printf("a call with %zu bytes of stack wrote below its guard page\n", size);
        wrong = 1;
    }
    munmap(low, STACK + page + size);
}

/* A call that takes `most` bytes, with every size of stack that a thread may have and that is less. */
static int check_less(void *(*function)(void *), size_t most)
{
    size_t size = (size_t)sysconf(_SC_THREAD_STACK_MIN), page = (size_t)sysconf(_SC_PAGESIZE);
    int tried = 0;
    for (size = (size + page - 1) / page * page; size + page <= most; size += 2 * page, tried++)
        check_killed(function, size);
    return tried;
}

/* The type with as many levels, tokens and elements as there may be. */
static void make_wide(void)
{
    int level, k;
    type_len = 0;
    for (k = 0; k < SGML_ELEMENT_LIMIT; k++) {
        type_len += (size_t)sprintf(type + type_len, "<!ELEMENT E%d - O ", k);
        text("(", SGML_GRPLVL);
        for (level = 0; level < SGML_GRPLVL; level++)
            type_len += (size_t)sprintf(type + type_len, "%cA%d,B%d,C%d)+", level ? ',' : ' ', level, level, level);
        text(">", 1);
    }
}

/* The type under which as many elements are open as there may be, all inferred, in models of as many levels. */
static void make_deep(void)
{
    int k;
    type_len = 0;
    for (k = 0; k < SGML_TAGLVL; k++) {
        type_len += (size_t)sprintf(type + type_len, "<!ELEMENT E%d O O ", k);
        text("(", SGML_GRPLVL);
        if (k + 1 < SGML_TAGLVL)
            type_len += (size_t)sprintf(type + type_len, "E%d", k + 1);
        else
            text("#PCDATA", 1);
        text(")", SGML_GRPLVL);
        text(">", 1);
    }
}

/* Attributes for it, with a group of as many tokens as there may be, and defaults before each inferred start. */
static void add_lists(void)
{
    int k, token;
    for (k = 0; k < SGML_TAGLVL; k++) {
        type_len += (size_t)sprintf(type + type_len, "<!ATTLIST E%d A%s", k, k ? "" : "(");
        for (token = 0; !k && token < SGML_GRPCNT; token++)
            type_len += (size_t)sprintf(type + type_len, "%sT%d", token ? "|" : "", token);
        text(k ? " CDATA 'x'" : ")'t31' B NUMBER '1' C NAME #IMPLIED", 1);
        text(">", 1);
    }
}

int main(void)
{
    size_t judging = 0, listing = 0, reading = 0, batch = 0;
    int tried;
    make_wide();
    expected = SGML_ACCEPTED;
    take(judge_call, &judging);
    take(list_call, &listing);
    expected = SGML_ERR_NOT_ALLOWED_HERE;
    document = "<E0><E1>";
    take(read_call, &reading);
    take(batch_call, &batch);

    make_deep();
    expected = SGML_ACCEPTED;
    document = "x<!-- -->y</E20>";
    take(read_call, &reading);
    take(batch_call, &batch);

    add_lists();
    take(read_call, &reading);
    take(batch_call, &batch);
    take(list_call, &listing);
    take(judge_call, &judging);
    printf("bytes of stack: the judge %zu, the list of attributes %zu, at most %d; the reader %zu, a batch %zu, at most %d\n", judging, listing,
           SGML_JUDGE_STACK_BYTES, reading, batch, SGML_STACK_BYTES);

    /* the same type, judged to its deepest, and read */
    tried = check_less(read_call, reading) + check_less(batch_call, batch);
    make_wide();
    tried += check_less(judge_call, judging) + check_less(list_call, listing);
    printf("killed by SIGSEGV with less stack: %d of %d\n", wrong ? 0 : tried, tried);
    return wrong || !tried;
}
