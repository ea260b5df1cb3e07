/* Stamps formula texts: for each file named on the command line, one line with the checker's verdict.
 * It stands for the tile editor, which hands over a text and receives one number. */
#include <stdio.h>
#include <stdlib.h>

#include "zulfringa.h"

/* One byte more than a text may have, so that a longer text is seen to be too long. */
#define MOST 60001

static unsigned char text[MOST];

/* Reads the file into `text` and tells how many bytes came, or -1. */
static long read_text(const char *name) {
    FILE *file = fopen(name, "rb");
    if (file == NULL) {
        return -1;
    }
    size_t length = fread(text, 1, MOST, file);
    int failed = ferror(file);
    fclose(file);
    return failed ? -1 : (long)length;
}

/* Prints the stamp of one file; tells whether the file could be read. */
static int stamp(const char *name) {
    long length = read_text(name);
    if (length < 0) {
        printf("%s: cannot be read\n", name);
        return 0;
    }
    uint8_t answer = zulfringa_check(text, (size_t)length);
    if (answer == 1) {
        printf("%s: true\n", name);
    } else if (answer == 0) {
        printf("%s: false\n", name);
    } else {
        printf("%s: refused %d\n", name, answer - 10);
    }
    return 1;
}

int main(int argc, char **argv) {
    int all_read = 1;
    for (int i = 1; i < argc; i++) {
        all_read &= stamp(argv[i]);
    }
    return all_read ? EXIT_SUCCESS : EXIT_FAILURE;
}
