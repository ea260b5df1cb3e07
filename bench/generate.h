/* Texts for the comparison and the measurements, each from a seed and a number alone. */
#ifndef GENERATE_H
#define GENERATE_H

#include <stddef.h>
#include <stdint.h>

#define TEXT_ROOM 200000

struct text {
    size_t length;
    uint8_t bytes[TEXT_ROOM];
};

/* What a text was meant to be. Its answer shows what it is. */
enum sort {
    SORT_FIXED,      /* written by hand, and the limits, the same in every run */
    SORT_SMALL,      /* valid, at most about ten variables */
    SORT_MIDDLE,     /* valid, ten to thirty variables */
    SORT_LARGE,      /* valid, many variables or clauses; many of these fill the node table */
    SORT_STRUCTURED, /* valid, by a pattern: pairs, parity, pigeon holes, long chains */
    SORT_SPLITS,     /* valid, more splits than the memo has pairs */
    SORT_LIMITS,     /* at the ends of what the format allows, and just past them */
    SORT_DAMAGED,    /* one of the above with one to three faults put in */
    SORTS
};

extern const char *const sort_names[SORTS];

/* The numbers below this one are the fixed texts. */
uint64_t fixed_texts(void);

/* Text number `index` of the run with this seed. */
enum sort generate_text(uint64_t seed, uint64_t index, struct text *text);

/* From now on valid formulas are written with one space between words and one clause on each line. */
void only_plain_texts(void);

/* Families of valid texts with a size that can be raised, for the measurements. */
enum family {
    FAMILY_RANDOM,  /* random clauses of three literals; size: variables */
    FAMILY_PAIRS,   /* for each x there is a y that differs; size: pairs */
    FAMILY_PARITY,  /* a chain of sums; size: summands */
    FAMILY_CHAIN,   /* a long chain of implications, closed to a ring; size: variables */
    FAMILY_MANY,    /* few variables and many clauses; size: clauses */
    FAMILY_REPEATS, /* the same, but most clauses stand there already; size: clauses */
    FAMILY_SPLITS,  /* the memo overflows and every further variable doubles the splits; size: such variables */
    FAMILIES
};

extern const char *const family_names[FAMILIES];

void family_text(enum family family, unsigned size, uint64_t seed, struct text *text);

#endif
