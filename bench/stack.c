/* Measures how much stack the checker's entry takes at its deepest: each text named on the command line is checked on a stack of
 * its own that was painted before, and what is no longer painted was used. See README.md. */
#define _GNU_SOURCE
#include <pthread.h>
#include <stdio.h>
#include <stdlib.h>
#include <string.h>
#include <sys/mman.h>

#include "zulfringa.h"

#define MOST 60001
#define STACK (4u << 20)
#define PAINT 0xA5

static unsigned char text[MOST];
static size_t length;

static void *check(void *unused)
{
    (void)unused;
    return (void *)(size_t)zulfringa_check(text, length);
}

/* The stack that one check of the text takes, with what starting a thread on it takes. */
static size_t used_by(void *(*work)(void *), unsigned char *stack)
{
    memset(stack, PAINT, STACK);
    pthread_attr_t attributes;
    pthread_t thread;
    pthread_attr_init(&attributes);
    pthread_attr_setstack(&attributes, stack, STACK);
    if (pthread_create(&thread, &attributes, work, NULL) != 0) {
        exit(EXIT_FAILURE);
    }
    pthread_join(thread, NULL);
    size_t untouched = 0;
    while (untouched < STACK && stack[untouched] == PAINT) {
        untouched++;
    }
    return STACK - untouched;
}

static void *nothing(void *unused)
{
    return unused;
}

int main(int argc, char **argv)
{
    unsigned char *stack = mmap(NULL, STACK, PROT_READ | PROT_WRITE, MAP_PRIVATE | MAP_ANONYMOUS, -1, 0);
    size_t start = used_by(nothing, stack);
    size_t most = 0;
    const char *at = "";
    for (int i = 1; i < argc; i++) {
        FILE *file = fopen(argv[i], "rb");
        if (file == NULL) {
            fprintf(stderr, "%s: cannot be read\n", argv[i]);
            return EXIT_FAILURE;
        }
        length = fread(text, 1, MOST, file);
        fclose(file);
        size_t used = used_by(check, stack) - start;
        if (used > most) {
            most = used;
            at = argv[i];
        }
    }
    printf("%d texts: at most %zu bytes of stack, for %s\n", argc - 1, most, at);
    return EXIT_SUCCESS;
}
