/* print.h - events of an accepted document on standard output. */
#ifndef PRINT_H
#define PRINT_H

#include "bytes.h"
#include "sgml.h"

/* An accepted type: the records of its elements and attributes. */
struct declared {
    struct input type;
    uint8_t records[SGML_MOST_RECORD_BYTES], attributes[SGML_MOST_ATTRIBUTE_BYTES];
    uint32_t attribute_count;
};

/* Prints "events N", and a line for each event; with its place if that is wanted. */
void print_events(const struct declared *d, const uint8_t *events, uint32_t count, int has_places);

/* Prints the events in the output format of onsgmls; with L commands if they are wanted. */
void print_esis(const struct declared *d, const struct input *document, const uint8_t *events, uint32_t count,
                int has_lines);

#endif
