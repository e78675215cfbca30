/* driver.c - runs the fuzz target where there is no libFuzzer: driver SECONDS SEED FILE.. calls it with each file as it is, then
 * with random changes of them until the time is up. An input that fails is left in the file "failed". */
#include <signal.h>
#include <stdint.h>
#include <stdio.h>
#include <stdlib.h>
#include <string.h>
#include <time.h>

#define LONGEST 4096
#define FILES 4096

int LLVMFuzzerTestOneInput(const uint8_t *data, size_t size);

struct input {
    size_t length;
    uint8_t bytes[LONGEST];
};

static struct input files[FILES], current;
static size_t file_count;
static uint64_t state;

static const char *const words[] = {
    "<!ELEMENT ", " - O ", " O O ", "EMPTY>", "(#PCDATA)", "#PCDATA", "<!--", "-->", "<!>", "--", ")>", "(A|B)*", ",", "|", "?", "+",
    "*", "(", ")", "<A>", "</A>", "<B>", "</B>", "<", "</", ">", "]]>", "&#", "\n", "\r", " ", "A", "B", "ABCDEFGH", "ABCDEFGHI", "\x8c", "\xa0", "%", "-",
    "<!ATTLIST A ", " X CDATA ", " NUMBER ", " NAME ", "#REQUIRED", "#IMPLIED", "\"1\"", "'a'", "=\"", " X=\"1\"", "(a|b)", "\"", "=",
};

static size_t below(size_t n)
{
    state ^= state << 13;
    state ^= state >> 7;
    state ^= state << 17;
    return n ? (size_t)(state >> 11) % n : 0;
}

static void keep_failed(int number)
{
    FILE *file = fopen("failed", "wb");
    if (file) {
        fwrite(current.bytes, 1, current.length, file);
        fclose(file);
    }
    signal(number, SIG_DFL);
    raise(number);
}

/* Puts bytes in place of the `old` bytes at a place, as far as there is room. */
static void put(size_t at, size_t old, const uint8_t *from, size_t length)
{
    if (current.length - old + length > LONGEST)
        return;
    memmove(current.bytes + at + length, current.bytes + at + old, current.length - at - old);
    if (length)
        memmove(current.bytes + at, from, length);
    current.length += length - old;
}

static void change(void)
{
    static struct input other;
    size_t at = below(current.length + 1), old = below(current.length - at + 1), from;
    uint8_t byte = (uint8_t)(below(8) ? 32 + below(95) : below(256));
    const char *word = words[below(sizeof words / sizeof *words)];
    switch (below(6)) {
    case 0: put(at, at < current.length, &byte, 1); break;
    case 1: put(at, below(3) ? 0 : old % 8, (const uint8_t *)word, strlen(word)); break;
    case 2: put(at, old % 32, NULL, 0); break;
    case 3: other = current; put(below(current.length + 1), 0, other.bytes + at, old); break;
    case 4: put(at, old, NULL, 0); break;
    default:
        other = files[below(file_count)];
        from = below(other.length + 1);
        put(at, current.length - at, other.bytes + from, other.length - from);
    }
}

static void load(const char *path)
{
    FILE *file = fopen(path, "rb");
    struct input *f = files + file_count;
    if (!file || file_count + 1 == FILES) {
        fprintf(stderr, "%s: cannot be read, or there are too many files\n", path);
        exit(2);
    }
    f->length = fread(f->bytes, 1, LONGEST, file);
    file_count++;
    fclose(file);
}

int main(int argc, char **argv)
{
    time_t end = time(NULL) + (argc > 1 ? atol(argv[1]) : 0);
    unsigned long runs = 0;
    size_t k;
    int i;
    state = 0x9E3779B97F4A7C15u ^ (argc > 2 ? strtoull(argv[2], NULL, 10) : 1);
    for (i = 3; i < argc; i++)
        load(argv[i]);
    signal(SIGABRT, keep_failed);
    signal(SIGSEGV, keep_failed);
    for (k = 0; k < file_count; k++, runs++) {
        current = files[k];
        LLVMFuzzerTestOneInput(current.bytes, current.length);
    }
    while (time(NULL) < end) {
        current = files[below(file_count)];
        for (k = below(6) + 1; k; k--)
            change();
        LLVMFuzzerTestOneInput(current.bytes, current.length);
        runs++;
    }
    printf("%lu inputs, nothing failed\n", runs);
    return 0;
}
