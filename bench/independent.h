/* The independent engines, and the checker's entry that they are compared with. */
#ifndef INDEPENDENT_H
#define INDEPENDENT_H

#include <stddef.h>
#include <stdint.h>

/* 0 false, 1 true, 10 more than the number of a refusal. */
uint8_t zulfringa_check(const uint8_t *text, size_t length);

struct details {
    uint32_t value; /* splits of a verdict; offset of 1 to 6, 0 of a load's 10, splits of a decision's 10 to 12 */
    uint32_t v;     /* 0 after a refusal, as is c */
    uint32_t c;
    uint32_t nodes; /* in the table at the end */
    uint32_t pairs; /* in the memo at the end */
};

/* Both answer as zulfringa_check does. */
uint8_t independent_walk(const uint8_t *text, size_t length, struct details *details);
uint8_t independent_zdd(const uint8_t *text, size_t length, struct details *details);

/* 0 or 1, or 2 if the text is refused or its prefix has more than `greatest` variables. */
uint8_t independent_expansion(const uint8_t *text, size_t length, size_t greatest);

#endif
