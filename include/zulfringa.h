/* The checker's entry for an editor written in C. */
#ifndef ZULFRINGA_H
#define ZULFRINGA_H

#include <stddef.h>
#include <stdint.h>

#ifdef __cplusplus
extern "C" {
#endif

/* Checks one formula text of `length` bytes.
 *
 * 0: the formula is false. 1: it is true. Otherwise the answer is 10 more than the number of a refusal:
 *
 *   11  more than 60,000 bytes
 *   12  a word that may not stand where it stands, or an end with something missing or unfinished
 *   13  a number out of range
 *   14  a variable bound twice
 *   15  a literal whose variable is not bound
 *   16  a clause too many, or an end with too few
 *   20  the table is full: the formula needs more than 4,096 nodes
 *   21  spent: the formula needs more than 1,000,000 splits
 *   22  more than 256 splits would be open (does not arise)
 *
 * The text is only read, and nothing is kept from one call to the next: calls from several threads do not disturb each
 * other. No memory is allocated. `text` may be any pointer that is not null if `length` is 0. */
uint8_t zulfringa_check(const uint8_t *text, size_t length);

#ifdef __cplusplus
}
#endif

#endif
