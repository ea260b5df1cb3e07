/* Only for trying out the comparison itself, in the place of the checker's library. It asks the engine on sets, or for
   texts that take that too long the diagram engine, and can be told to err: STUB_FAULT=verdict, refusal, over, under,
   change, stop or stack makes it do so for about one text in a thousand. */
#include "../independent.h"

#include <stdlib.h>
#include <string.h>

static volatile uint8_t sink;

static unsigned deep(unsigned n)
{
    volatile uint8_t room[4096];
    room[n % 4096] = (uint8_t)n;
    return n == 0 ? room[0] : deep(n - 1) + room[n % 4096];
}

uint8_t zulfringa_check(const uint8_t *text, size_t length)
{
    struct details details;
    uint8_t answer = independent_zdd(text, length, &details);
    if ((size_t)details.nodes * length < 100000 && getenv("STUB_FAST") == NULL)
        answer = independent_walk(text, length, &details);
    const char *fault = getenv("STUB_FAULT");
    if (fault == NULL)
        return answer;
    unsigned sum = 0;
    for (size_t k = 0; k < length; k++)
        sum = sum * 31 + text[k];
    if (sum % 1000 != 7)
        return answer;
    if (!strcmp(fault, "verdict") && answer < 2)
        return !answer;
    if (!strcmp(fault, "refusal") && answer > 10)
        return answer + 1;
    if (!strcmp(fault, "over"))
        sink = text[length];
    if (!strcmp(fault, "under"))
        sink = *(text - 1);
    if (!strcmp(fault, "change") && length > 0)
        *(uint8_t *)(text + length / 2) ^= 1;
    if (!strcmp(fault, "stop"))
        abort();
    if (!strcmp(fault, "stack"))
        sink = (uint8_t)deep(1000000);
    return answer;
}
