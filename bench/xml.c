/* xml.c - times expat and libxml2's SAX on XML documents, with handlers that count: the best of many parses from memory. */
#include "timing.h"
#include <expat.h>
#include <libxml/parser.h>
#include <stdio.h>
#include <string.h>

static char document[262144];
static unsigned long tags, runs;

static void start(void *data, const XML_Char *name, const XML_Char **attributes)
{
    tags++;
}

static void end(void *data, const XML_Char *name)
{
    tags++;
}

static void characters(void *data, const XML_Char *s, int n)
{
    runs++;
}

static void start_x(void *data, const xmlChar *name, const xmlChar **attributes)
{
    tags++;
}

static void end_x(void *data, const xmlChar *name)
{
    tags++;
}

static void characters_x(void *data, const xmlChar *s, int n)
{
    runs++;
}

static int by_expat(size_t n)
{
    XML_Parser p = XML_ParserCreate(NULL);
    int ok;
    XML_SetElementHandler(p, start, end);
    XML_SetCharacterDataHandler(p, characters);
    ok = XML_Parse(p, document, (int)n, 1) == XML_STATUS_OK;
    XML_ParserFree(p);
    return ok;
}

static int by_libxml2(size_t n)
{
    xmlSAXHandler h;
    memset(&h, 0, sizeof h);
    h.startElement = start_x;
    h.endElement = end_x;
    h.characters = characters_x;
    return xmlSAXUserParseMemory(&h, NULL, document, (int)n) == 0;
}

/* The best time of many parses, or a large one where the document is refused. */
static double best_of(int (*parse)(size_t), size_t n)
{
    double best = 1e12;
    int k;
    for (k = 0; k < 300; k++) {
        double t = now();
        tags = runs = 0;
        if (!parse(n))
            return 1e12;
        t = now() - t;
        if (t < best)
            best = t;
    }
    return best;
}

int main(int argc, char **argv)
{
    int i;
    for (i = 1; i < argc; i++) {
        double e, x;
        FILE *file = fopen(argv[i], "rb");
        size_t n = file ? fread(document, 1, sizeof document, file) : 0;
        if (!file)
            return 2;
        fclose(file);
        e = best_of(by_expat, n);
        x = best_of(by_libxml2, n);
        printf("%s %.2f %.2f %lu %lu\n", argv[i], e, x, tags, runs);
    }
    return 0;
}
