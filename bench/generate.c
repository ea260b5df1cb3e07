#include "generate.h"

#include <stdbool.h>
#include <stdio.h>
#include <stdlib.h>
#include <string.h>

const char *const sort_names[SORTS] = {
    "fixed", "small", "middle", "large", "structured", "splits", "limits", "damaged",
};

const char *const family_names[FAMILIES] = { "random", "pairs", "parity", "chain", "many", "repeats", "splits" };

/* ---- random numbers ---- */

struct random {
    uint64_t state;
};

static uint64_t mixed(uint64_t x)
{
    x += 0x9E3779B97F4A7C15u;
    x = (x ^ (x >> 30)) * 0xBF58476D1CE4E5B9u;
    x = (x ^ (x >> 27)) * 0x94D049BB133111EBu;
    return x ^ (x >> 31);
}

static struct random random_from(uint64_t seed, uint64_t index)
{
    struct random r = { mixed(mixed(seed) ^ (index * 0xD1342543DE82EF95u)) };
    if (r.state == 0)
        r.state = 1;
    return r;
}

static uint64_t next(struct random *r)
{
    r->state ^= r->state >> 12;
    r->state ^= r->state << 25;
    r->state ^= r->state >> 27;
    return r->state * 0x2545F4914F6CDD1Du;
}

static unsigned below(struct random *r, unsigned n)
{
    return n == 0 ? 0 : (unsigned)((next(r) >> 33) % n);
}

static unsigned between(struct random *r, unsigned low, unsigned high)
{
    return low + below(r, high - low + 1);
}

/* True once in n times. */
static bool once_in(struct random *r, unsigned n)
{
    return below(r, n) == 0;
}

/* ---- formulas ---- */

#define CLAUSE_ROOM 4096
#define LITERAL_ROOM 65536
#define VARIABLE_ROOM 300

struct formula {
    unsigned v;
    unsigned bound;
    unsigned variable[VARIABLE_ROOM]; /* by place in the prefix */
    bool universal[VARIABLE_ROOM];
    unsigned clauses;
    unsigned literals;
    unsigned end[CLAUSE_ROOM]; /* of each clause, in `literal` */
    int literal[LITERAL_ROOM]; /* place + 1, or its negative */
};

static struct formula scratch;

static void begin(struct formula *f)
{
    f->v = f->bound = f->clauses = f->literals = 0;
}

static unsigned bind(struct formula *f, bool universal)
{
    if (f->bound >= VARIABLE_ROOM)
        abort();
    f->universal[f->bound] = universal;
    f->variable[f->bound] = f->bound + 1;
    f->bound++;
    if (f->v < f->bound)
        f->v = f->bound;
    return f->bound; /* place + 1 */
}

static void put(struct formula *f, int literal)
{
    if (f->literals < LITERAL_ROOM)
        f->literal[f->literals++] = literal;
}

static void end_clause(struct formula *f)
{
    if (f->clauses < CLAUSE_ROOM)
        f->end[f->clauses++] = f->literals;
}

static void clause2(struct formula *f, int a, int b)
{
    put(f, a);
    put(f, b);
    end_clause(f);
}

static void clause3(struct formula *f, int a, int b, int c)
{
    put(f, a);
    put(f, b);
    put(f, c);
    end_clause(f);
}

/* Gives the variables of the prefix other numbers, and perhaps V more than are bound. */
static void renumber(struct random *r, struct formula *f)
{
    unsigned number[VARIABLE_ROOM];
    unsigned v = f->bound;
    if (once_in(r, 3) && v < 256)
        v += below(r, 256 - v < 6 ? 256 - v + 1 : 6);
    if (v > 256)
        v = f->bound;
    for (unsigned k = 0; k < v; k++)
        number[k] = k + 1;
    for (unsigned k = v; k > 1; k--) {
        unsigned other = below(r, k);
        unsigned kept = number[k - 1];
        number[k - 1] = number[other];
        number[other] = kept;
    }
    for (unsigned k = 0; k < f->bound; k++)
        f->variable[k] = number[k];
    f->v = v;
}

/* ---- writing ---- */

static void byte(struct text *t, uint8_t b)
{
    if (t->length < TEXT_ROOM)
        t->bytes[t->length++] = b;
}

static void string(struct text *t, const char *s)
{
    while (*s)
        byte(t, (uint8_t)*s++);
}

static void number(struct text *t, int n)
{
    char digits[16];
    snprintf(digits, sizeof digits, "%d", n);
    string(t, digits);
}

static void write_counts(struct text *t, unsigned v, unsigned c)
{
    string(t, "p cnf ");
    number(t, (int)v);
    byte(t, ' ');
    number(t, (int)c);
    byte(t, '\n');
}

static int signed_variable(const struct formula *f, int literal)
{
    return literal > 0 ? (int)f->variable[literal - 1] : -(int)f->variable[-literal - 1];
}

/* One prefix line for each block, one clause on each line. */
static void write_plain(const struct formula *f, struct text *t)
{
    write_counts(t, f->v, f->clauses);
    for (unsigned k = 0; k < f->bound;) {
        bool universal = f->universal[k];
        byte(t, universal ? 'a' : 'e');
        while (k < f->bound && f->universal[k] == universal) {
            byte(t, ' ');
            number(t, (int)f->variable[k++]);
        }
        string(t, " 0\n");
    }
    unsigned at = 0;
    for (unsigned c = 0; c < f->clauses; c++) {
        for (; at < f->end[c]; at++) {
            number(t, signed_variable(f, f->literal[at]));
            byte(t, ' ');
        }
        string(t, "0\n");
    }
}

static void spaces(struct random *r, struct text *t, unsigned least)
{
    unsigned n = least + (once_in(r, 4) ? below(r, 4) : 0);
    while (n-- > 0)
        byte(t, ' ');
}

static void line_end(struct random *r, struct text *t)
{
    spaces(r, t, 0);
    byte(t, '\n');
    while (once_in(r, 8)) {
        spaces(r, t, 0);
        byte(t, '\n');
    }
}

static void comment(struct random *r, struct text *t)
{
    static const char *const openings[] = { "c", "c ", "cnf ", "c p cnf 1 1 ", "c0", "c\t" };
    string(t, openings[below(r, 6)]);
    unsigned n = once_in(r, 20) ? below(r, 300) : below(r, 12);
    while (n-- > 0) {
        uint8_t b = (uint8_t)(once_in(r, 3) ? below(r, 256) : between(r, 32, 126));
        byte(t, b == '\n' ? ' ' : b);
    }
    byte(t, '\n');
}

/* The same formula with spaces, blank lines, comments, and line ends where they may stand. */
static void write_loose(struct random *r, const struct formula *f, struct text *t)
{
    while (once_in(r, 2)) {
        if (once_in(r, 3))
            line_end(r, t);
        else
            comment(r, t);
    }
    spaces(r, t, 0);
    byte(t, 'p');
    spaces(r, t, 1);
    string(t, "cnf");
    spaces(r, t, 1);
    number(t, (int)f->v);
    spaces(r, t, 1);
    number(t, (int)f->clauses);
    line_end(r, t);
    for (unsigned k = 0; k < f->bound;) {
        bool universal = f->universal[k];
        spaces(r, t, 0);
        byte(t, universal ? 'a' : 'e');
        do {
            spaces(r, t, 1);
            number(t, (int)f->variable[k++]);
        } while (k < f->bound && f->universal[k] == universal && !once_in(r, 5));
        spaces(r, t, 1);
        byte(t, '0');
        line_end(r, t);
    }
    unsigned at = 0;
    for (unsigned c = 0; c < f->clauses; c++) {
        spaces(r, t, 0);
        for (; at < f->end[c]; at++) {
            number(t, signed_variable(f, f->literal[at]));
            if (once_in(r, 12))
                line_end(r, t);
            else
                spaces(r, t, 1);
        }
        byte(t, '0');
        if (c + 1 < f->clauses && once_in(r, 6))
            spaces(r, t, 1);
        else
            line_end(r, t);
    }
}

static bool only_plain;

void only_plain_texts(void)
{
    only_plain = true;
}

static void write_formula(struct random *r, struct formula *f, struct text *t)
{
    if (!once_in(r, 3))
        renumber(r, f);
    if (once_in(r, 3) && !only_plain)
        write_loose(r, f, t);
    else
        write_plain(f, t);
}

/* ---- shapes ---- */

/* Any clauses at all. */
static void shape_any(struct random *r, struct formula *f, unsigned most_bound, unsigned most_clauses)
{
    begin(f);
    unsigned bound = below(r, most_bound + 1);
    unsigned change = between(r, 1, 4);
    bool universal = once_in(r, 2);
    for (unsigned k = 0; k < bound; k++) {
        if (once_in(r, change))
            universal = !universal;
        bind(f, universal);
    }
    unsigned clauses = below(r, most_clauses + 1);
    unsigned widest = between(r, 1, 5);
    for (unsigned c = 0; c < clauses; c++) {
        unsigned width = once_in(r, 50) || bound == 0 ? 0 : between(r, 1, widest);
        if (bound == 0 && !once_in(r, 4))
            break;
        while (width-- > 0) {
            int place = (int)between(r, 1, bound);
            put(f, once_in(r, 2) ? place : -place);
        }
        end_clause(f);
    }
}

/* Clauses of one width with two existential literals or more, near each other in the prefix if `reach` is small. The
   share of universal variables is one in `rare`. */
static void shape_hard(struct random *r, struct formula *f, unsigned bound, unsigned clauses, unsigned width,
    unsigned reach, unsigned rare, unsigned change)
{
    begin(f);
    unsigned existential[VARIABLE_ROOM];
    unsigned count = 0;
    bool universal = once_in(r, 2);
    for (unsigned k = 0; k < bound; k++) {
        if (once_in(r, change))
            universal = rare != 0 && once_in(r, rare);
        if (k + 2 >= bound)
            universal = false;
        unsigned place = bind(f, universal);
        if (!universal)
            existential[count++] = place;
    }
    if (bound == 0 || count == 0)
        return;
    for (unsigned c = 0; c < clauses; c++) {
        unsigned home = below(r, count);
        unsigned centre = existential[home];
        int used[8];
        unsigned have = 0;
        for (unsigned k = 0; k < width && k < 8; k++) {
            unsigned place;
            if (k == 0) {
                place = centre;
            } else if (k == 1) {
                unsigned span = reach < count ? reach : count;
                unsigned from = home + span <= count ? home : count - span;
                place = existential[from + below(r, span)];
            } else {
                unsigned span = 2 * reach < bound ? 2 * reach : bound;
                unsigned from = centre > reach ? centre - reach : 1;
                if (from + span > bound + 1)
                    from = bound + 1 - span;
                place = from + below(r, span);
            }
            bool again = false;
            for (unsigned m = 0; m < have; m++)
                again = again || used[m] == (int)place;
            if (again && !once_in(r, 30))
                continue;
            used[have++] = (int)place;
            put(f, once_in(r, 2) ? (int)place : -(int)place);
        }
        end_clause(f);
        if (once_in(r, 60)) { /* the same clause again, turned around */
            unsigned to = f->literals;
            unsigned from = f->clauses >= 2 ? f->end[f->clauses - 2] : 0;
            for (unsigned k = to; k > from; k--)
                put(f, f->literal[k - 1]);
            end_clause(f);
        }
    }
}

/* For each x there is a y with y = x or y = not x. */
static void shape_pairs(struct random *r, struct formula *f, unsigned pairs, bool universal_first, bool mixed_order)
{
    begin(f);
    int x[128], y[128];
    if (mixed_order) {
        for (unsigned k = 0; k < pairs; k++) {
            x[k] = (int)bind(f, true);
            y[k] = (int)bind(f, false);
        }
    } else {
        for (unsigned k = 0; k < pairs; k++)
            (universal_first ? x : y)[k] = (int)bind(f, universal_first);
        for (unsigned k = 0; k < pairs; k++)
            (universal_first ? y : x)[k] = (int)bind(f, !universal_first);
    }
    for (unsigned k = 0; k < pairs; k++) {
        int other = r != NULL && once_in(r, 2) ? -y[k] : y[k];
        clause2(f, x[k], other);
        clause2(f, -x[k], -other);
    }
}

/* t1 = x1, then each t is the sum of the one before and the next x; at last perhaps a condition on the sum. */
static void shape_parity(struct random *r, struct formula *f, unsigned summands, bool interleaved)
{
    begin(f);
    int x[128], t[128];
    bool universal = r == NULL || !once_in(r, 3);
    for (unsigned k = 0; k < summands; k++) {
        x[k] = (int)bind(f, universal);
        if (interleaved)
            t[k] = (int)bind(f, false);
    }
    if (!interleaved)
        for (unsigned k = 0; k < summands; k++)
            t[k] = (int)bind(f, false);
    for (unsigned k = 0; k < summands; k++) {
        if (k == 0) {
            clause2(f, x[0], -t[0]);
            clause2(f, -x[0], t[0]);
            continue;
        }
        clause3(f, t[k - 1], x[k], -t[k]);
        clause3(f, t[k - 1], -x[k], t[k]);
        clause3(f, -t[k - 1], x[k], t[k]);
        clause3(f, -t[k - 1], -x[k], -t[k]);
    }
    if (r != NULL && summands > 0 && once_in(r, 2)) {
        put(f, once_in(r, 2) ? t[summands - 1] : -t[summands - 1]);
        end_clause(f);
    }
}

static void shape_pigeons(struct formula *f, unsigned pigeons, unsigned holes)
{
    begin(f);
    for (unsigned k = 0; k < pigeons * holes; k++)
        bind(f, false);
    for (unsigned p = 0; p < pigeons; p++) {
        for (unsigned h = 0; h < holes; h++)
            put(f, (int)(p * holes + h + 1));
        end_clause(f);
    }
    for (unsigned h = 0; h < holes; h++)
        for (unsigned p = 0; p < pigeons; p++)
            for (unsigned q = 0; q < p; q++)
                clause2(f, -(int)(p * holes + h + 1), -(int)(q * holes + h + 1));
}

/* Each variable implies the next. Closed to a ring it needs a split, and all the rest follows by single literals. */
static void shape_chain(struct random *r, struct formula *f, unsigned length, bool ring)
{
    begin(f);
    for (unsigned k = 0; k < length; k++)
        bind(f, r != NULL && once_in(r, 40));
    for (unsigned k = 1; k < length; k++)
        clause2(f, -(int)k, (int)k + 1);
    if (length > 1) {
        if (ring)
            clause2(f, -(int)length, 1);
        else {
            put(f, r != NULL && once_in(r, 2) ? 1 : -(int)length);
            end_clause(f);
        }
    }
}

/* Few variables, many different clauses. */
static void shape_many(struct random *r, struct formula *f, unsigned bound, unsigned clauses, unsigned width)
{
    begin(f);
    for (unsigned k = 0; k < bound; k++)
        bind(f, k % 7 == 3);
    for (unsigned c = 0; c < clauses; c++) {
        for (unsigned k = 0; k < width; k++) {
            int place = (int)between(r, 1, bound);
            put(f, once_in(r, 2) ? place : -place);
        }
        end_clause(f);
    }
}

/* More reduced sets than the memo takes, in a table that holds them all.

   The y's form a ring of implications, which is always there. Each u and each x has a clause with its positive literal
   and an implication of the ring, so that setting it false leaves the rest as it was. The u's have the same for their
   negative literal: each doubles the walks of what follows and adds next to nothing to the table. The negative literal
   of an x brings a clause of its own to z, or to not z: every choice of the x's makes another set, of which one node
   is new. With nine x's that is one set fewer than the memo takes.

   Once z is set, a single y settles the rest. With `deeper` that holds only for z false, and there are splits below z
   true too: then the last sets of the x's find the memo full and are walked again and again. With `all_false` every
   variable is existential and every walk ends with false. */
static void shape_splits(struct formula *f, unsigned doublings, unsigned bits, bool deeper, bool all_false)
{
    begin(f);
    enum { RING = 5 };
    static const unsigned char pairs[6][2] = { { 1, 2 }, { 1, 3 }, { 1, 4 }, { 2, 3 }, { 2, 4 }, { 3, 4 } };
    int u[64], x[16], y[RING];
    for (unsigned k = 0; k < doublings; k++)
        u[k] = (int)bind(f, !all_false);
    for (unsigned k = 0; k < bits; k++)
        x[k] = (int)bind(f, !all_false);
    int z = (int)bind(f, !all_false);
    for (unsigned k = 0; k < RING; k++)
        y[k] = (int)bind(f, false);
    for (unsigned k = 0; k < RING; k++)
        clause2(f, -y[k], y[(k + 1) % RING]);
    if (all_false)
        clause2(f, -y[0], -y[RING - 1]);
    clause2(f, z, y[0]);
    if (deeper)
        clause3(f, -z, -y[0], y[1]);
    else
        clause2(f, -z, y[0]);
    if (all_false && deeper)
        clause3(f, -z, y[0], y[RING - 1]);
    for (unsigned k = bits; k-- > 0;) {
        bool first_half = k < bits / 2;
        unsigned which = first_half ? k : k - bits / 2;
        put(f, -x[k]);
        put(f, first_half ? z : -z);
        if (first_half || !deeper)
            put(f, y[0]);
        put(f, y[pairs[which % 6][0]]);
        put(f, y[pairs[which % 6][1]]);
        end_clause(f);
        clause3(f, x[k], -y[0], y[1]);
    }
    for (unsigned k = doublings; k-- > 0;) {
        clause3(f, -u[k], -y[0], y[1]);
        clause3(f, u[k], -y[0], y[1]);
    }
}

/* A text that makes exactly so many nodes, from 4,000 to 4,100.

   Wide clauses fill the table at the load. Each begins with a variable behind those of the ones before it and has a
   literal of its own next to its end, so that it shares next to nothing: clause i with w literals makes w nodes alone,
   and i or so as the set so far is made anew from its top down to it.

   With `at_load` a single universal literal gives the verdict then and no further set is made. Otherwise a single
   existential literal that all wide clauses have drops them, and a small room is left whose walk makes the last
   nodes, the very last after a split. */
static void shape_exact_nodes(struct formula *f, unsigned nodes, bool at_load)
{
    enum { WIDE = 30, MIDDLE = 190, ROOM = 4 };
    begin(f);
    for (unsigned k = 0; k < WIDE + MIDDLE; k++)
        bind(f, false);
    int x[ROOM];
    for (unsigned k = 0; k < ROOM; k++)
        x[k] = (int)bind(f, k < 2);
    int last = (int)bind(f, at_load);
    /* The single literal makes one node, which all wide clauses share. The room makes thirty more, as measured. */
    int made = 1 - WIDE;
    if (!at_load) {
        made += 30;
        clause3(f, x[0], x[1], x[2]);
        clause3(f, -x[0], x[2], -x[3]);
        clause3(f, -x[1], -x[2], x[3]);
        clause3(f, x[1], -x[2], -x[3]);
    }
    put(f, last);
    end_clause(f);
    for (unsigned i = 1; i <= WIDE; i++) {
        unsigned left = (unsigned)((int)nodes - made);
        unsigned still = 0; /* what the sets so far will need from here on */
        for (unsigned k = i; k <= WIDE; k++)
            still += k;
        unsigned width = (left - still) / (WIDE + 1 - i);
        put(f, (int)i);
        for (unsigned k = 0; k + 3 < width; k++)
            put(f, (int)(WIDE + 1 + k));
        put(f, (int)(WIDE + MIDDLE + 1 - i));
        put(f, last);
        end_clause(f);
        made += (int)(width + i);
    }
}

/* The splits that a chain of variables adds to a decision below it that takes none: a doubling makes 2 n + 1 of n, a
   single step n + 1. This is shape_splits with the steps that make its splits exactly so many, from 1,100 on. */
static void shape_exact_splits(struct formula *f, unsigned splits)
{
    enum { BITS = 9, STEPS = 64, FIRST = 1024 };
    bool doubling[STEPS];
    unsigned steps = 0;
    for (unsigned n = splits - FIRST; n > 0 && steps < STEPS; steps++) {
        doubling[steps] = n % 2 == 1;
        n = doubling[steps] ? (n - 1) / 2 : n - 1;
    }
    static struct formula below_them;
    shape_splits(&below_them, 1, BITS, false, false);
    begin(f);
    for (unsigned k = 0; k < steps; k++)
        bind(f, doubling[k]);
    for (unsigned k = 0; k < below_them.bound; k++)
        bind(f, below_them.universal[k]);
    unsigned at = 0;
    for (unsigned c = 0; c < below_them.clauses; c++) {
        for (; at < below_them.end[c]; at++) {
            int literal = below_them.literal[at];
            put(f, literal > 0 ? literal + (int)steps : literal - (int)steps);
        }
        end_clause(f);
    }
    int y = (int)(steps + 1 + BITS + 2); /* the first of the ring: behind the steps, one doubling, the bits and z */
    for (unsigned k = steps; k-- > 0;) {
        int u = (int)k + 1;
        clause3(f, -u, -y, y + 1);
        if (doubling[k]) {
            clause3(f, u, -y, y + 1);
        } else { /* false at once if it is false */
            clause2(f, u, y);
            clause2(f, u, -y);
        }
    }
}

/* Every clause has very many literals. */
static void shape_wide(struct random *r, struct formula *f, unsigned bound, unsigned clauses, unsigned width)
{
    begin(f);
    for (unsigned k = 0; k < bound; k++)
        bind(f, once_in(r, 3));
    for (unsigned c = 0; c < clauses; c++) {
        bool both = once_in(r, 5);
        for (unsigned k = 0; k < width; k++) {
            int place = (int)between(r, 1, bound);
            /* without `both` the sign goes by the place, so that a clause rarely has both */
            bool minus = both ? once_in(r, 2) : (place * 7 + (int)c) % 3 == 0;
            put(f, minus ? -place : place);
        }
        end_clause(f);
    }
}

static void shape_small(struct random *r, struct formula *f)
{
    switch (below(r, 5)) {
    case 0:
        shape_any(r, f, 8, 14);
        break;
    case 1:
        shape_any(r, f, 4, 30);
        break;
    default: {
        unsigned bound = between(r, 3, 10);
        shape_hard(r, f, bound, bound * between(r, 4, 18) / 4, between(r, 2, 4), between(r, 3, 10), between(r, 0, 4),
            between(r, 1, 4));
    }
    }
}

static void shape_middle(struct random *r, struct formula *f)
{
    unsigned bound = between(r, 10, 30);
    shape_hard(r, f, bound, bound * between(r, 6, 18) / 4, between(r, 2, 4), between(r, 3, 30), between(r, 0, 5),
        between(r, 1, 5));
}

static void shape_large(struct random *r, struct formula *f)
{
    switch (below(r, 6)) {
    case 0:
        shape_any(r, f, 256, 400);
        break;
    case 1:
        shape_many(r, f, between(r, 3, 8), between(r, 100, 2048), between(r, 2, 6));
        break;
    case 2:
        shape_wide(r, f, between(r, 20, 256), between(r, 1, 120), between(r, 5, 100));
        break;
    case 3: {
        unsigned bound = between(r, 60, 256);
        shape_hard(r, f, bound, bound * between(r, 4, 8) / 4, 2, between(r, 2, 6), between(r, 0, 9), between(r, 1, 9));
        break;
    }
    default: {
        unsigned bound = between(r, 30, 120);
        shape_hard(r, f, bound, bound * between(r, 4, 16) / 4, between(r, 2, 4), between(r, 3, 20), between(r, 0, 9),
            between(r, 1, 9));
    }
    }
}

static void shape_structured(struct random *r, struct formula *f)
{
    switch (below(r, 6)) {
    case 0:
        shape_pairs(r, f, between(r, 1, 9), once_in(r, 2), once_in(r, 2));
        break;
    case 1:
        shape_parity(r, f, between(r, 1, 14), once_in(r, 2));
        break;
    case 2: {
        unsigned holes = between(r, 1, 4);
        shape_pigeons(f, holes + below(r, 2), holes);
        break;
    }
    case 3:
        shape_chain(r, f, between(r, 2, 60), once_in(r, 2));
        break;
    case 4:
        shape_chain(r, f, between(r, 60, 256), once_in(r, 2));
        break;
    default:
        shape_splits(f, between(r, 0, 4), between(r, 1, 6), once_in(r, 2), once_in(r, 2));
    }
}

/* ---- texts at the limits ---- */

static void fill_spaces(struct text *t, size_t length)
{
    while (t->length < length)
        byte(t, ' ');
}

/* Fills up to a length with what changes nothing: spaces on the last line, or blank lines. */
static void pad_to(struct random *r, struct text *t, size_t length)
{
    if (t->length >= length)
        return;
    bool blank_lines = once_in(r, 2);
    while (t->length + 1 < length)
        byte(t, blank_lines ? '\n' : ' ');
    byte(t, '\n');
}

/* Puts a comment in front so that the text gets this length. */
static void comment_to(struct text *t, size_t length)
{
    if (t->length + 2 > length)
        return;
    size_t more = length - t->length;
    memmove(t->bytes + more, t->bytes, t->length);
    t->bytes[0] = 'c';
    memset(t->bytes + 1, 'x', more - 2);
    t->bytes[more - 1] = '\n';
    t->length = length;
}

static void limit_text(struct random *r, struct text *t)
{
    struct formula *f = &scratch;
    t->length = 0;
    switch (below(r, 13)) {
    case 0: { /* V 256 or 257, all bound or few */
        unsigned v = between(r, 255, 257);
        begin(f);
        unsigned bound = once_in(r, 2) ? v : below(r, v);
        for (unsigned k = 0; k < bound; k++)
            bind(f, once_in(r, 2));
        unsigned clauses = below(r, 40);
        for (unsigned c = 0; c < clauses && bound > 0; c++) {
            unsigned width = between(r, 1, 4);
            while (width-- > 0) {
                int place = (int)between(r, bound > 3 ? bound - 3 : 1, bound);
                put(f, once_in(r, 2) ? place : -place);
            }
            end_clause(f);
        }
        f->v = v;
        write_plain(f, t);
        break;
    }
    case 1: { /* C 2,048 or 2,049, with as many clauses or one more or less */
        unsigned c = between(r, 2047, 2049);
        unsigned have = c - 1 + below(r, 3);
        unsigned bound = between(r, 1, 30);
        write_counts(t, bound, c);
        byte(t, once_in(r, 2) ? 'a' : 'e');
        for (unsigned k = 1; k <= bound; k++) {
            byte(t, ' ');
            number(t, (int)k);
        }
        string(t, " 0\n");
        unsigned kind = below(r, 3);
        for (unsigned k = 0; k < have; k++) {
            if (kind > 0) {
                int place = (int)between(r, 1, bound);
                number(t, kind == 1 || once_in(r, 2) ? place : -place);
                byte(t, ' ');
            }
            string(t, once_in(r, 3) ? "0\n" : "0 ");
        }
        byte(t, '\n');
        break;
    }
    case 2: /* 59,999 to 60,001 bytes by spaces or blank lines */
        shape_small(r, f);
        write_formula(r, f, t);
        pad_to(r, t, between(r, 59999, 60001));
        break;
    case 3: /* the same by a comment */
        shape_small(r, f);
        write_formula(r, f, t);
        comment_to(t, between(r, 59999, 60001));
        break;
    case 4: { /* the length filled with repeated literals; perhaps cut in the middle */
        unsigned bound = between(r, 1, 256);
        write_counts(t, bound, 1);
        string(t, "e");
        for (unsigned k = 1; k <= bound; k++) {
            byte(t, ' ');
            number(t, (int)k);
        }
        string(t, " 0\n");
        size_t length = between(r, 59997, 60003);
        bool signs = once_in(r, 4);
        while (t->length + 12 < length) {
            int place = (int)between(r, 1, bound);
            number(t, signs && once_in(r, 2) ? -place : place);
            byte(t, once_in(r, 9) ? '\n' : ' ');
        }
        fill_spaces(t, length - 2);
        if (!once_in(r, 4)) {
            byte(t, '0');
            byte(t, '\n');
        }
        break;
    }
    case 5: { /* the length filled with clauses */
        unsigned bound = between(r, 2, 256);
        unsigned c = between(r, 1000, 2048);
        size_t length = 59990 + below(r, 20);
        static struct text body;
        body.length = 0;
        unsigned have = 0;
        unsigned width = 60000 / c / 5;
        while (have < c) {
            unsigned w = width;
            while (w-- > 0) {
                int place = (int)between(r, 1, bound);
                number(&body, once_in(r, 2) ? place : -place);
                byte(&body, ' ');
            }
            string(&body, "0\n");
            have++;
        }
        write_counts(t, bound, c);
        string(t, "e");
        for (unsigned k = 1; k <= bound; k++) {
            byte(t, ' ');
            number(t, (int)k);
        }
        string(t, " 0\n");
        for (size_t k = 0; k < body.length; k++)
            byte(t, body.bytes[k]);
        if (t->length < length)
            pad_to(r, t, length);
        break;
    }
    case 6: { /* wide clauses over all variables */
        unsigned clauses = between(r, 1, 60);
        shape_wide(r, f, 256, clauses, between(r, 100, 60000 / 5 / clauses < 600 ? 60000 / 5 / clauses + 100 : 600));
        write_plain(f, t);
        break;
    }
    case 7: /* far too long */
        fill_spaces(t, between(r, 60001, 120000));
        if (once_in(r, 2))
            t->bytes[t->length - 1] = '\n';
        break;
    case 8: { /* bytes that are no text */
        unsigned n = once_in(r, 3) ? between(r, 1, 60000) : below(r, 40);
        while (n-- > 0)
            byte(t, (uint8_t)below(r, 256));
        break;
    }
    case 9: { /* nothing but spaces, line ends and comments */
        unsigned n = below(r, 30);
        while (n-- > 0)
            byte(t, (uint8_t)" \n\nc "[below(r, 5)]);
        break;
    }
    case 10: { /* the load comes close to the end of the table, or passes it */
        unsigned bound = between(r, 100, 256);
        shape_wide(r, f, bound, between(r, 18, 42), between(r, 80, 160));
        write_plain(f, t);
        break;
    }
    case 11: /* the table filled to about its last node */
        shape_exact_nodes(f, between(r, 4090, 4100), once_in(r, 2));
        write_plain(f, t);
        break;
    default: { /* clauses that share their ends, so that the table fills slowly */
        begin(f);
        unsigned bound = between(r, 30, 128);
        for (unsigned k = 0; k < bound; k++)
            bind(f, false);
        unsigned clauses = between(r, 20, 200);
        for (unsigned c = 0; c < clauses; c++) {
            unsigned from = between(r, 1, bound);
            unsigned until = from + between(r, 0, 40);
            for (unsigned k = from; k <= bound && k <= until; k++)
                put(f, (k + c) % 5 == 0 ? -(int)k : (int)k);
            end_clause(f);
        }
        write_plain(f, t);
    }
    }
}

/* ---- damage ---- */

static void replace(struct text *t, size_t at, size_t length, const char *with, size_t with_length)
{
    if (t->length - length + with_length > TEXT_ROOM)
        return;
    memmove(t->bytes + at + with_length, t->bytes + at + length, t->length - at - length);
    memcpy(t->bytes + at, with, with_length);
    t->length = t->length - length + with_length;
}

static bool divides(uint8_t b)
{
    return b == ' ' || b == '\n';
}

/* A random word; false if the text has none near a random place. */
static bool find_word(struct random *r, const struct text *t, size_t *start, size_t *end)
{
    if (t->length == 0)
        return false;
    size_t at = below(r, (unsigned)t->length);
    while (at < t->length && divides(t->bytes[at]))
        at++;
    if (at == t->length)
        return false;
    *start = at;
    while (*start > 0 && !divides(t->bytes[*start - 1]))
        --*start;
    *end = at;
    while (*end < t->length && !divides(t->bytes[*end]))
        ++*end;
    return true;
}

static size_t random_line(struct random *r, const struct text *t)
{
    if (t->length == 0)
        return 0;
    size_t at = below(r, (unsigned)t->length);
    while (at > 0 && t->bytes[at - 1] != '\n')
        at--;
    return at;
}

/* The start and end of word number `which` of the problem line. */
static bool find_count(const struct text *t, unsigned which, size_t *start, size_t *end)
{
    size_t line = 0;
    while (line < t->length) {
        size_t stop = line;
        while (stop < t->length && t->bytes[stop] != '\n')
            stop++;
        size_t at = line;
        while (at < stop && t->bytes[at] == ' ')
            at++;
        if (at < stop && t->bytes[at] == 'p') {
            for (unsigned k = 0;; k++) {
                while (at < stop && t->bytes[at] == ' ')
                    at++;
                if (at == stop)
                    return false;
                *start = at;
                while (at < stop && t->bytes[at] != ' ')
                    at++;
                *end = at;
                if (k == which)
                    return true;
            }
        }
        line = stop + 1;
    }
    return false;
}

/* From behind the letter of a prefix line to the end of that line. */
static bool find_prefix_line(struct random *r, const struct text *t, size_t *start, size_t *end)
{
    unsigned found = 0;
    for (size_t line = 0; line < t->length;) {
        size_t stop = line;
        while (stop < t->length && t->bytes[stop] != '\n')
            stop++;
        size_t at = line;
        while (at < stop && t->bytes[at] == ' ')
            at++;
        if (at < stop && (t->bytes[at] == 'a' || t->bytes[at] == 'e') && once_in(r, ++found)) {
            *start = at + 1;
            *end = stop;
        }
        line = stop + 1;
    }
    return found > 0;
}

static const char *const odd_words[] = {
    "0", "00", "01", "-0", "-", "--1", "1-", "+1", "1.0", "1x", "-01", "a", "e", "c", "p", "cnf", "ae", "A", "E", "257",
    "-257", "256", "-256", "9999", "10000", "-10000", "-9999", "00256", "10000x", "99999999999999999999",
    "-99999999999999999999", "18446744073709551617", "4294967297", "65537", "2048", "2049", "1", "-1", "2", "-2", "3",
    "-3", "1e1", "0x1", "-a", "\xc3\xa9", "0\r", "1\t2", "\t", "\v", "\r", "%", "c1", "0 0", "0\n0", "1 0\n", "-1 0\n",
};

static void damage(struct random *r, struct text *t)
{
    size_t start, end;
    char digits[32];
    switch (below(r, 25)) {
    case 22: /* a variable bound once more */
        if (find_prefix_line(r, t, &start, &end)) {
            snprintf(digits, sizeof digits, " %u", between(r, 1, 10));
            replace(t, start, 0, digits, strlen(digits));
        }
        break;
    case 23: /* a variable no longer bound */
    case 24:
        if (find_prefix_line(r, t, &start, &end)) {
            size_t at = start;
            while (at < end && t->bytes[at] == ' ')
                at++;
            while (at < end && t->bytes[at] != ' ')
                at++;
            if (once_in(r, 3)) { /* the whole line */
                while (start > 0 && t->bytes[start - 1] != '\n')
                    start--;
                at = end < t->length ? end + 1 : end;
            }
            replace(t, start, at - start, "", 0);
        }
        break;
    case 0:
    case 1: { /* another byte */
        static const uint8_t bytes[] = " \n\n0123459-acep\t\r\v\f+.\x7f\x80\xff\x00";
        if (t->length > 0)
            t->bytes[below(r, (unsigned)t->length)] =
                once_in(r, 6) ? (uint8_t)below(r, 256) : bytes[below(r, (unsigned)sizeof bytes - 1)];
        break;
    }
    case 2: { /* a byte more */
        static const char bytes[] = " \n0123-acep\t\r\xff\x00";
        replace(t, below(r, (unsigned)t->length + 1), 0, bytes + below(r, (unsigned)sizeof bytes - 1), 1);
        break;
    }
    case 3: /* bytes fewer */
        if (t->length > 0) {
            size_t at = below(r, (unsigned)t->length);
            size_t n = between(r, 1, 3);
            replace(t, at, n < t->length - at ? n : t->length - at, "", 0);
        }
        break;
    case 4: /* cut */
        t->length = below(r, (unsigned)t->length + 1);
        break;
    case 5: /* cut after a line or a word */
        t->length = below(r, (unsigned)t->length + 1);
        if (once_in(r, 2))
            t->length = random_line(r, t);
        else
            byte(t, '\n');
        break;
    case 6: /* no last line end */
        while (t->length > 0 && t->bytes[t->length - 1] == '\n')
            t->length--;
        if (once_in(r, 4))
            byte(t, ' ');
        break;
    case 7: /* a word doubled */
    case 8: /* a word left out */
        if (find_word(r, t, &start, &end)) {
            if (once_in(r, 2)) {
                char word[64];
                size_t n = end - start < 60 ? end - start : 60;
                memcpy(word, t->bytes + start, n);
                word[n] = once_in(r, 8) ? '\n' : ' ';
                replace(t, start, 0, word, n + 1);
            } else {
                replace(t, start, end - start, "", 0);
            }
        }
        break;
    case 9:
    case 10:
    case 11: /* another word */
        if (find_word(r, t, &start, &end)) {
            const char *word = odd_words[below(r, sizeof odd_words / sizeof *odd_words)];
            replace(t, start, once_in(r, 4) ? 0 : end - start, word, strlen(word));
        }
        break;
    case 12:
    case 13: /* a wrong count */
        if (find_count(t, between(r, 2, 3), &start, &end)) {
            if (once_in(r, 2) && end - start < 10) {
                char old[16] = "";
                memcpy(old, t->bytes + start, end - start);
                snprintf(digits, sizeof digits, "%d", atoi(old) + (once_in(r, 2) ? 1 : -1));
            } else {
                strcpy(digits, odd_words[below(r, sizeof odd_words / sizeof *odd_words)]);
            }
            replace(t, start, end - start, digits, strlen(digits));
        }
        break;
    case 14: { /* a comment, or what looks like one */
        static const char *const lines[] = { "c note\n", " c note\n", "c\n", "cnf\n", "c 1 0\n", "c" };
        const char *line = lines[below(r, 6)];
        replace(t, random_line(r, t), 0, line, strlen(line));
        break;
    }
    case 15: { /* a line more */
        static const char *const lines[] = { "p cnf 1 1\n", "a 1 0\n", "e 2 0\n", "1 0\n", "0\n", "-1 2 0\n", "a 0\n",
            "e\n", "   \n", "\t\n", "\r\n", "%\n0\n" };
        const char *line = lines[below(r, 12)];
        replace(t, once_in(r, 3) ? t->length : random_line(r, t), 0, line, strlen(line));
        break;
    }
    case 16: /* carriage returns or tabs throughout */
        if (once_in(r, 2)) {
            for (size_t k = 0; k < t->length && k < 4000; k++)
                if (t->bytes[k] == '\n')
                    replace(t, k++, 0, "\r", 1);
        } else {
            size_t from = below(r, (unsigned)t->length + 1);
            for (size_t k = from; k < t->length; k++)
                if (t->bytes[k] == ' ')
                    t->bytes[k] = '\t';
        }
        break;
    case 17: /* two lines joined, or a line broken */
        if (t->length > 0) {
            size_t at = below(r, (unsigned)t->length);
            uint8_t wanted = once_in(r, 2) ? '\n' : ' ';
            while (at < t->length && t->bytes[at] != wanted)
                at++;
            if (at < t->length)
                t->bytes[at] = wanted == '\n' ? ' ' : '\n';
        }
        break;
    case 18: { /* a line left out or doubled */
        size_t from = random_line(r, t);
        size_t until = from;
        while (until < t->length && t->bytes[until] != '\n')
            until++;
        if (until < t->length)
            until++;
        if (once_in(r, 2)) {
            replace(t, from, until - from, "", 0);
        } else if (until - from < 2000) {
            char line[2000];
            memcpy(line, t->bytes + from, until - from);
            replace(t, once_in(r, 2) ? from : random_line(r, t), 0, line, until - from);
        }
        break;
    }
    case 19: /* a literal more, at times one that is not bound or out of range */
        if (find_word(r, t, &start, &end)) {
            snprintf(digits, sizeof digits, "%s%u ", once_in(r, 2) ? "-" : "", between(r, 0, once_in(r, 3) ? 300 : 12));
            replace(t, start, 0, digits, strlen(digits));
        }
        break;
    default: /* a clause more at the end, or the last one cut off */
        if (once_in(r, 2)) {
            snprintf(digits, sizeof digits, "%s%u 0\n", once_in(r, 2) ? "-" : "", between(r, 0, 6));
            string(t, digits);
        } else if (t->length > 2) {
            size_t at = t->length - 1;
            while (at > 0 && t->bytes[at - 1] != '\n')
                at--;
            t->length = at;
        }
    }
}

/* ---- fixed texts ---- */

static const char *const hand_written[] = {
    /* worked formulas */
    "p cnf 0 0\n",
    "p cnf 0 1\n0\n",
    "p cnf 2 2\na 1 0\ne 2 0\n1 2 0\n-1 -2 0\n",
    "p cnf 2 2\ne 2 0\na 1 0\n1 2 0\n-1 -2 0\n",
    "p cnf 1 1\na 1 0\n1 0\n",
    "p cnf 2 2\na 1 0\ne 2 0\n1 2 0\n1 -2 0\n",
    "p cnf 1 1\ne 1 0\n1 -1 0\n",
    "p cnf 3 3\na 1 2 0\ne 3 0\n1 2 3 0\n-1 2 3 0\n-2 -3 0\n",
    /* accepted */
    "c a small room\np cnf 3 3\na 1 2 0\ne 3 0\n1 2 3 0\n-1 2 3 0\n-2 -3 0\n",
    "p cnf 0 2\n0 0\n",
    "cnf\n\n  p  cnf 1 1 \n e 1 0\n1\n\n0\n",
    "p cnf 2 3\na 1 2 0\n1 0 2\n0 -1 -2 0\n",
    "p cnf 2 3\ne 1 2 0\n2 1 2 0\n1 2 0\n1 -1 0\n",
    "p cnf 256 1\na 256 0\n-256 0\n",
    "p cnf 256 0\n",
    "p cnf 1 1\ne 1 0\n1 0\n   \n\n",
    /* refused */
    "",
    "\n",
    "c",
    "c note\n",
    " c note\np cnf 0 0\n",
    "p cnf 0 0\nc note\n",
    "p cnf 0 0",
    "p cnf 0 0\r\n",
    "p\tcnf 0 0\n",
    "p cnf 1\n1\n",
    "p cnf 1\nc\n1\n",
    "p cnf 0 1 0\n",
    "p cnf 01 0\n",
    "p cnf 257 0\n",
    "p cnf 0 2049\n",
    "p cnf 10000 0\n",
    "p cnf 10000x 0\n",
    "p cnf 00256 0\n",
    "p cnf 3 0\ne 0\n",
    "p cnf 0 0\na 0\n",
    "p cnf 3 0\ne 1\n2 0\n",
    "p cnf 3 0\ne -1 0\n",
    "p cnf 3 0\ne 4 0\n",
    "p cnf 3 0\na 1 2 0\ne 3 2 0\n",
    "p cnf 3 0\na 1 1 0\n",
    "p cnf 3 1\ne 1 2 0\n1 -0\n",
    "p cnf 3 1\ne 1 2 0\n1 -4 0\n",
    "p cnf 3 1\ne 1 2 0\n-10000 0\n",
    "p cnf 3 1\ne 1 2 0\n1 3 0\n",
    "p cnf 0 1\n1 0\n",
    "p cnf 3 2\ne 1 2 0\n1 0\na 3 0\n3 0\n",
    "p cnf 3 1\ne 1 2 0\n1\n",
    "p cnf 3 2\ne 1 2 0\n1 0\n",
    "p cnf 3 2\ne 1 2 0\n1 0",
    "p cnf 3 1\ne 1 2 0\n1 0\n1 0\n",
    "p cnf 3 1\ne 1 2 0\n1 0\n-3 0\n",
    "p cnf 3 1\ne 1 2 0\n1 0\n4 0\n",
    "p cnf 3 1\ne 1 2 0\n1 0\nx 0\n",
    "p cnf 3 1\ne 1 2 0\n1 0\n0\n",
    "p cnf 3 1\ne 1 2 0\n1 0\na 3 0\n",
    "p cnf 3 1\ne 1 2 0\n3 4 0\n",
    "p cnf 1 1\ne 1 0 1 0\n",
    "p cnf 1 1\ne 1 0\n1 0\n ",
    "p cnf 1 1\ne 1",
    "p cnf 1 1\ne",
    "p cnf 0 0\np cnf 0 0\n",
};

#define HAND_WRITTEN (sizeof hand_written / sizeof *hand_written)
#define FIXED_LIMITS 20

uint64_t fixed_texts(void)
{
    return HAND_WRITTEN + FIXED_LIMITS;
}

static void all_bound(struct text *t, unsigned v, unsigned c)
{
    write_counts(t, v, c);
    string(t, "e");
    for (unsigned k = 1; k <= v; k++) {
        byte(t, ' ');
        number(t, (int)k);
    }
    string(t, " 0\n");
}

static void fixed_limit(unsigned which, struct text *t)
{
    struct formula *f = &scratch;
    struct random r = random_from(7, which);
    t->length = 0;
    switch (which) {
    case 0: /* V 256 and 257 */
    case 1:
        all_bound(t, 256 + which, 2);
        string(t, "1 256 0\n-1 -256 0\n");
        break;
    case 2: /* C 2,048 and 2,049 */
    case 3:
        all_bound(t, 11, 2046 + which);
        for (unsigned k = 0; k < 2046 + which; k++) {
            number(t, 1 + (int)(k % 11));
            string(t, " 0\n");
        }
        break;
    case 4: /* as many literals as a text has room for, in clauses as short as they come */
    case 5:
        all_bound(t, 9, 2048);
        for (unsigned k = 0; k < 2048; k++) {
            for (unsigned m = 0; m < 13; m++) {
                number(t, 1 + (int)((k + m * m) % 9));
                byte(t, ' ');
            }
            string(t, "0 ");
        }
        pad_to(&r, t, 56000 + which);
        break;
    case 6: /* 60,000 and 60,001 bytes */
    case 7:
        string(t, "p cnf 1 1\ne 1 0\n1 0\n");
        pad_to(&r, t, 59994 + which);
        break;
    case 8: /* only spaces */
    case 9:
        fill_spaces(t, 59992 + which);
        break;
    case 10: /* 60,000 bytes with a clause missing, or with an unfinished one */
    case 11:
        string(t, which == 10 ? "p cnf 1 2\ne 1 0\n1 0\n" : "p cnf 1 2\ne 1 0\n1 0\n1\n");
        pad_to(&r, t, 60000);
        break;
    case 12: /* a clause with every variable, and its complement */
        all_bound(t, 256, 2);
        for (int sign = 1; sign >= -1; sign -= 2) {
            for (int k = 1; k <= 256; k++) {
                number(t, sign * k);
                byte(t, ' ');
            }
            string(t, "0\n");
        }
        break;
    case 13: /* a load that fills the table */
        shape_wide(&r, f, 256, 60, 120);
        write_plain(f, t);
        break;
    case 14: /* a decision that fills it */
        shape_pigeons(f, 6, 5);
        write_plain(f, t);
        break;
    case 15: /* the table filled to its last node, and one node too many */
    case 16:
    case 17:
    case 18:
        shape_exact_nodes(f, 4096 + (which - 15) % 2, which < 17);
        write_plain(f, t);
        break;
    default: /* more splits than the memo takes pairs */
        shape_splits(f, 3, 9, true, false);
        write_plain(f, t);
    }
}

/* ---- one text ---- */

enum sort generate_text(uint64_t seed, uint64_t index, struct text *t)
{
    struct formula *f = &scratch;
    struct random r = random_from(seed, index);
    t->length = 0;
    if (index < HAND_WRITTEN) {
        string(t, hand_written[index]);
        return SORT_FIXED;
    }
    if (index < fixed_texts()) {
        fixed_limit((unsigned)(index - HAND_WRITTEN), t);
        return SORT_FIXED;
    }
    switch (index % 50000) {
    case 40000: /* the allowance just suffices, is one split short, and is far from enough */
    case 40001:
        shape_exact_splits(f, 1000000 + (unsigned)(index % 2));
        write_plain(f, t);
        return SORT_SPLITS;
    case 40002:
        shape_splits(f, 22, 9, true, index / 50000 % 2 == 1);
        write_plain(f, t);
        return SORT_SPLITS;
    default:
        break;
    }
    if (index % 4000 == 2000) {
        if (once_in(&r, 3))
            shape_exact_splits(f, between(&r, 1100, 5000));
        else
            shape_splits(f, between(&r, 0, 10), once_in(&r, 4) ? 8 : 9, once_in(&r, 2), once_in(&r, 2));
        write_formula(&r, f, t);
        return SORT_SPLITS;
    }
    enum sort sort;
    unsigned draw = below(&r, 1000);
    if (draw < 400) {
        shape_small(&r, f);
        sort = SORT_SMALL;
    } else if (draw < 780) {
        unsigned what = below(&r, 100);
        if (what < 2) {
            limit_text(&r, t);
        } else if (what < 6) {
            string(t, hand_written[below(&r, HAND_WRITTEN)]);
        } else {
            if (what < 12)
                shape_middle(&r, f);
            else if (what < 16)
                shape_structured(&r, f);
            else
                shape_small(&r, f);
            write_formula(&r, f, t);
        }
        unsigned faults = once_in(&r, 4) ? between(&r, 2, 3) : 1;
        while (faults-- > 0)
            damage(&r, t);
        return SORT_DAMAGED;
    } else if (draw < 890) {
        shape_middle(&r, f);
        sort = SORT_MIDDLE;
    } else if (draw < 940) {
        shape_structured(&r, f);
        sort = SORT_STRUCTURED;
    } else if (draw < 965) {
        shape_large(&r, f);
        sort = SORT_LARGE;
    } else {
        limit_text(&r, t);
        return SORT_LIMITS;
    }
    write_formula(&r, f, t);
    return sort;
}

/* ---- families ---- */

void family_text(enum family family, unsigned size, uint64_t seed, struct text *t)
{
    struct formula *f = &scratch;
    struct random r = random_from(seed, size * 16u + (unsigned)family);
    t->length = 0;
    switch (family) {
    case FAMILY_RANDOM:
        shape_hard(&r, f, size, size * between(&r, 8, 14) / 4, 3, 6, 4, 3);
        break;
    case FAMILY_PAIRS:
        shape_pairs(NULL, f, size, true, true);
        break;
    case FAMILY_PARITY:
        shape_parity(NULL, f, size, true);
        break;
    case FAMILY_CHAIN:
        shape_chain(NULL, f, size, true);
        break;
    case FAMILY_MANY:
        shape_many(&r, f, 7, size, 5);
        break;
    case FAMILY_REPEATS:
        shape_many(&r, f, 6, size, 3);
        break;
    default:
        shape_splits(f, size, 9, false, false);
    }
    write_plain(f, t);
}
