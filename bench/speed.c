/* Measures the checker's entry against the diagram engine. See README.md. */
#define _GNU_SOURCE
#include "generate.h"
#include "independent.h"

#include <math.h>
#include <stdbool.h>
#include <stdio.h>
#include <stdlib.h>
#include <string.h>
#include <sys/stat.h>
#include <time.h>

#define SEED 20260
#define MOST_ROOMS 2000

struct room {
    size_t length;
    uint8_t *bytes;
    unsigned answer;
    struct details details;
};

struct group {
    const char *name;
    unsigned wanted;
    unsigned count;
    struct room rooms[MOST_ROOMS];
};

static struct group groups[3] = { { .name = "small", .wanted = 1000 }, { .name = "middle", .wanted = 300 },
    { .name = "largest", .wanted = 60 } };

static double now(void)
{
    struct timespec t;
    clock_gettime(CLOCK_MONOTONIC, &t);
    return (double)t.tv_sec + (double)t.tv_nsec / 1e9;
}

static unsigned by_checker(const struct room *room)
{
    return zulfringa_check(room->bytes, room->length);
}

static unsigned by_diagram(const struct room *room)
{
    struct details details;
    return independent_zdd(room->bytes, room->length, &details);
}

typedef unsigned (*engine)(const struct room *);

static void keep(struct group *group, const struct text *text, unsigned answer, const struct details *details)
{
    struct room *room = &group->rooms[group->count++];
    room->length = text->length;
    room->bytes = malloc(text->length + 1);
    memcpy(room->bytes, text->bytes, text->length);
    room->answer = answer;
    room->details = *details;
}

/* Texts with a verdict: the small and the middle ones as they come. The largest are forty that need half of the node
   table or more, fifteen that are half as long as a text may be or longer, and five that make more splits than the
   memo takes pairs. */
static void fill_groups(void)
{
    static struct text text;
    struct details d;
    unsigned many_nodes = 40, long_texts = 15;
    for (unsigned size = 1; size <= 5; size++) {
        family_text(FAMILY_SPLITS, size, 1, &text);
        unsigned answer = independent_zdd(text.bytes, text.length, &d);
        keep(&groups[2], &text, answer, &d);
    }
    for (uint64_t index = fixed_texts();; index++) {
        bool full = true;
        for (int g = 0; g < 3; g++)
            full = full && groups[g].count == groups[g].wanted;
        if (full)
            return;
        enum sort sort = generate_text(SEED, index, &text);
        if (sort == SORT_DAMAGED || sort == SORT_FIXED || sort == SORT_SPLITS)
            continue;
        unsigned answer = independent_zdd(text.bytes, text.length, &d);
        if (answer > 1)
            continue;
        struct group *group = NULL;
        if (d.nodes >= 2048) {
            if (many_nodes > 0) {
                many_nodes--;
                group = &groups[2];
            }
        } else if (text.length >= 30000) {
            if (long_texts > 0) {
                long_texts--;
                group = &groups[2];
            }
        } else if (sort == SORT_SMALL) {
            group = &groups[0];
        } else if (sort == SORT_MIDDLE) {
            group = &groups[1];
        }
        if (group != NULL && group->count < group->wanted)
            keep(group, &text, answer, &d);
    }
}

/* Seconds for one pass over the rooms, measured over so many passes. */
static double passes(engine engine, const struct room *rooms, unsigned count, unsigned times)
{
    double begun = now();
    for (unsigned k = 0; k < times; k++) {
        for (unsigned m = 0; m < count; m++) {
            unsigned answer = engine(&rooms[m]);
            if (answer != rooms[m].answer) {
                printf("room %u: %u expected, %u answered\n", m, rooms[m].answer, answer);
                exit(1);
            }
        }
    }
    return (now() - begun) / times;
}

/* So many passes that they take about this long. */
static unsigned enough(engine engine, const struct room *rooms, unsigned count, double seconds)
{
    double one = passes(engine, rooms, count, 1);
    one = passes(engine, rooms, count, 1);
    return one >= seconds ? 1 : (unsigned)(seconds / (one + 1e-9)) + 1;
}

static int rising(const void *a, const void *b)
{
    double x = *(const double *)a, y = *(const double *)b;
    return (x > y) - (x < y);
}

static double at_share(double *values, unsigned count, double share)
{
    qsort(values, count, sizeof *values, rising);
    double place = share * (count - 1);
    unsigned low = (unsigned)place;
    unsigned high = low + 1 < count ? low + 1 : low;
    return values[low] + (values[high] - values[low]) * (place - low);
}

static void compare_speed(unsigned most_repetitions, double seconds, double most_seconds)
{
    fill_groups();
    printf("%-9s%7s%9s%8s%9s%9s | %13s%11s | %13s%11s | %8s%17s%10s%6s\n", "group", "rooms", "bytes", "nodes",
        "clauses", "splits", "checker us", "rooms/s", "diagram us", "rooms/s", "ratio", "quarter to 3/4", "of least",
        "runs");
    double logarithms = 0;
    for (int g = 0; g < 3; g++) {
        struct group *group = &groups[g];
        double *times[2], *ratios = calloc(most_repetitions, sizeof(double));
        engine engines[2] = { by_checker, by_diagram };
        unsigned often[2];
        double begun = now();
        for (int e = 0; e < 2; e++) {
            times[e] = calloc(most_repetitions, sizeof(double));
            often[e] = enough(engines[e], group->rooms, group->count, seconds);
        }
        /* fewer repetitions of what takes long, but five */
        double one = (now() - begun) / 2 + 2 * seconds;
        unsigned repetitions = most_repetitions;
        if (one * repetitions > most_seconds)
            repetitions = (unsigned)(most_seconds / one);
        if (repetitions < 5)
            repetitions = most_repetitions < 5 ? most_repetitions : 5;
        for (unsigned k = 0; k < repetitions; k++) {
            for (int turn = 0; turn < 2; turn++) { /* each goes first in every other repetition */
                int e = (turn + (int)k) % 2;
                times[e][k] = passes(engines[e], group->rooms, group->count, often[e]) / group->count;
            }
            ratios[k] = times[0][k] / times[1][k];
        }
        double bytes = 0, nodes = 0, clauses = 0, splits = 0;
        for (unsigned m = 0; m < group->count; m++) {
            bytes += (double)group->rooms[m].length;
            nodes += group->rooms[m].details.nodes;
            clauses += group->rooms[m].details.c;
            splits += group->rooms[m].details.value;
        }
        double n = group->count;
        double checker = at_share(times[0], repetitions, 0.5), diagram = at_share(times[1], repetitions, 0.5);
        double ratio = checker / diagram;
        logarithms += log(ratio);
        printf("%-9s%7u%9.0f%8.0f%9.0f%9.1f | %13.2f%11.0f | %13.2f%11.0f | %8.2f%8.2f to %5.2f%10.2f%6u\n",
            group->name, group->count, bytes / n, nodes / n, clauses / n, splits / n, checker * 1e6, 1 / checker,
            diagram * 1e6, 1 / diagram, ratio, at_share(ratios, repetitions, 0.25),
            at_share(ratios, repetitions, 0.75), times[0][0] / times[1][0], repetitions);
        fflush(stdout);
        for (int e = 0; e < 2; e++)
            free(times[e]);
        free(ratios);
    }
    printf("bytes, nodes, clauses and splits are means; times are for one room, medians of the interleaved runs; the\n"
           "middle half of the ratios of single runs and the ratio of the least times stand beside the ratio\n");
    printf("geometric mean of the three ratios: %.2f\n", exp(logarithms / 3));
}

/* One line for each text of the families: what it is, and the time of both. */
static void growth(double most_seconds)
{
    static const struct {
        enum family family;
        unsigned from, until, step, seeds;
    } plans[] = {
        { FAMILY_RANDOM, 4, 52, 2, 4 },
        { FAMILY_PAIRS, 1, 43, 2, 1 },
        { FAMILY_PARITY, 1, 27, 1, 1 },
        { FAMILY_CHAIN, 2, 62, 3, 1 },
        { FAMILY_MANY, 20, 900, 40, 1 },
        { FAMILY_REPEATS, 32, 2048, 96, 1 },
        { FAMILY_SPLITS, 0, 18, 1, 1 },
    };
    static struct text text;
    printf("family,size,seed,bytes,clauses,nodes,pairs,splits,verdict,checker_seconds,diagram_seconds\n");
    for (size_t p = 0; p < sizeof plans / sizeof *plans; p++) {
        for (unsigned seed = 1; seed <= plans[p].seeds; seed++) {
            for (unsigned size = plans[p].from; size <= plans[p].until; size += plans[p].step) {
                family_text(plans[p].family, size, seed, &text);
                struct room room = { .length = text.length, .bytes = text.bytes };
                room.answer = independent_zdd(text.bytes, text.length, &room.details);
                if (room.answer > 1)
                    continue;
                double least[2];
                engine engines[2] = { by_checker, by_diagram };
                bool slow = false;
                for (int e = 0; e < 2; e++) {
                    double times[5];
                    times[0] = passes(engines[e], &room, 1, 1);
                    slow = slow || times[0] > most_seconds;
                    if (times[0] > 0.5) {
                        least[e] = times[0];
                        continue;
                    }
                    unsigned often = enough(engines[e], &room, 1, 0.004);
                    for (int k = 0; k < 5; k++)
                        times[k] = passes(engines[e], &room, 1, often);
                    least[e] = at_share(times, 5, 0);
                }
                printf("%s,%u,%u,%zu,%u,%u,%u,%u,%u,%.3e,%.3e\n", family_names[plans[p].family], size, seed, text.length,
                    room.details.c, room.details.nodes, room.details.pairs, room.details.value, room.answer,
                    least[0], least[1]);
                fflush(stdout);
                if (slow)
                    break; /* larger ones of this family would take longer still */
            }
        }
    }
}

/* Writes the rooms of the groups to files, for other programs. */
static void write_groups(const char *directory)
{
    only_plain_texts();
    fill_groups();
    mkdir(directory, 0755);
    for (int g = 0; g < 3; g++) {
        for (unsigned m = 0; m < groups[g].count; m++) {
            char name[4096];
            snprintf(name, sizeof name, "%s/%s-%04u.qdimacs", directory, groups[g].name, m);
            FILE *file = fopen(name, "wb");
            if (file == NULL) {
                perror(name);
                exit(2);
            }
            fwrite(groups[g].rooms[m].bytes, 1, groups[g].rooms[m].length, file);
            fclose(file);
        }
    }
}

int main(int count, char **arguments)
{
    unsigned repetitions = 61;
    double seconds = 0.02, most_seconds = 60;
    const char *directory = NULL;
    bool growing = false;
    for (int k = 1; k < count; k++) {
        bool more = k + 1 < count;
        if (!strcmp(arguments[k], "--repetitions") && more)
            repetitions = (unsigned)strtoul(arguments[++k], NULL, 10);
        else if (!strcmp(arguments[k], "--seconds") && more)
            seconds = strtod(arguments[++k], NULL);
        else if (!strcmp(arguments[k], "--most-seconds") && more)
            most_seconds = strtod(arguments[++k], NULL);
        else if (!strcmp(arguments[k], "--write") && more)
            directory = arguments[++k];
        else if (!strcmp(arguments[k], "--growth"))
            growing = true;
        else {
            fprintf(stderr, "speed [--repetitions N] [--seconds S] [--most-seconds S]\n"
                            "speed --growth [--most-seconds S]\nspeed --write DIRECTORY\n");
            return 2;
        }
    }
    if (repetitions == 0)
        repetitions = 1;
    if (directory != NULL)
        write_groups(directory);
    else if (growing)
        growth(most_seconds);
    else
        compare_speed(repetitions, seconds, most_seconds);
    return 0;
}
