/* installed.c - links with the installed library by pkg-config, as C or C++, and calls it. */
#include <sgml.h>
#include <stdio.h>
int main(void)
{
    const uint8_t type[] = "<!ELEMENT A O O (#PCDATA)>", document[] = "clamp";
    uint8_t buffer[3 * SGML_EVENT_BYTES];
    uint32_t answer[SGML_ANSWER_SIZE];
    uint32_t number = sgml_read(type, sizeof type - 1, document, sizeof document - 1, buffer, sizeof buffer, answer, SGML_NAMELEN, SGML_FIRST_EDITION);
    printf("%s, %u events, the first of kind %u\n", sgml_refusal_text(number), (unsigned)answer[SGML_ANSWER_COUNT],
           (unsigned)sgml_event_at(buffer, 0).kind);
    return number != 0;
}
