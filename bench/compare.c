/* Compares the checker with the independent engines on generated texts. See README.md. */
#define _GNU_SOURCE
#include "generate.h"
#include "independent.h"

#include <errno.h>
#include <fcntl.h>
#include <poll.h>
#include <signal.h>
#include <spawn.h>
#include <stdbool.h>
#include <stdio.h>
#include <stdlib.h>
#include <string.h>
#include <sys/mman.h>
#include <sys/stat.h>
#include <sys/wait.h>
#include <time.h>
#include <unistd.h>

extern char **environ;

#define ANSWERS 23 /* 0, 1, and 11 to 22 */
#define SLOW_SPLITS 20000
#define EXPANDED_VARIABLES 16
#define REPORTED 10

static struct options {
    uint64_t seed;
    uint64_t start;
    uint64_t count;
    double seconds;
    double program_share; /* of 100 texts */
    const char *program;
    const char *save;
    unsigned patience; /* seconds for one text */
    uint64_t most_differences; /* ends the run; 0 for never */
} options = { 1, 0, 100000, 0, 2, NULL, ".", 900, 0 };

static struct text text;
static uint64_t current;
static const char *stage = "generating";

static uint64_t answered[SORTS][ANSWERS];
static uint64_t by_program[ANSWERS];
static uint64_t walked, expanded, differences, load_full, decision_full, just_fits;

/* Verdicts by their splits. */
#define STEPS 7
static const uint32_t step_least[STEPS] = { 0, 1, 2, 10, 100, 1024, 10000 };
static uint64_t by_splits[STEPS];

static double now(void)
{
    struct timespec t;
    clock_gettime(CLOCK_MONOTONIC, &t);
    return (double)t.tv_sec + (double)t.tv_nsec / 1e9;
}

/* ---- what is said about a difference ---- */

static void saved_name(char *name, size_t room)
{
    snprintf(name, room, "%s/difference-%llu-%llu.txt", options.save, (unsigned long long)options.seed,
        (unsigned long long)current);
}

static void save_text(void)
{
    char name[4096];
    saved_name(name, sizeof name);
    int file = open(name, O_WRONLY | O_CREAT | O_TRUNC, 0644);
    if (file < 0)
        return;
    for (size_t done = 0; done < text.length;) {
        ssize_t n = write(file, text.bytes + done, text.length - done);
        if (n <= 0)
            break;
        done += (size_t)n;
    }
    close(file);
}

static void difference(const char *what, const char *expected, const char *got)
{
    differences++;
    if (differences > REPORTED)
        return;
    save_text();
    char name[4096];
    saved_name(name, sizeof name);
    printf("DIFFERENCE at text %llu of seed %llu (%zu bytes, saved as %s)\n  %s\n  expected: %s\n  got:      %s\n",
        (unsigned long long)current, (unsigned long long)options.seed, text.length, name, what, expected, got);
    fflush(stdout);
}

static void difference_numbers(const char *what, unsigned expected, unsigned got)
{
    char a[32], b[32];
    snprintf(a, sizeof a, "%u", expected);
    snprintf(b, sizeof b, "%u", got);
    difference(what, a, b);
}

/* A signal while the checker had the text: it read or wrote where it may not, gave up, or never came back. */
static void on_signal(int number)
{
    char line[512];
    int n = snprintf(line, sizeof line, "DIFFERENCE at text %llu of seed %llu: signal %d while %s; the text is saved\n",
        (unsigned long long)current, (unsigned long long)options.seed, number, stage);
    save_text();
    if (write(1, line, (size_t)n) < 0) {
        /* nothing is left to be done */
    }
    _exit(1);
}

static void catch_signals(void)
{
    static uint8_t stack[65536];
    stack_t alternative = { .ss_sp = stack, .ss_size = sizeof stack };
    sigaltstack(&alternative, NULL);
    struct sigaction action = { .sa_handler = on_signal, .sa_flags = SA_ONSTACK };
    int caught[] = { SIGSEGV, SIGBUS, SIGILL, SIGFPE, SIGABRT, SIGALRM };
    for (size_t k = 0; k < sizeof caught / sizeof *caught; k++)
        sigaction(caught[k], &action, NULL);
    signal(SIGPIPE, SIG_IGN);
}

/* ---- handing over ---- */

/* Pages between two that may not be touched. */
static uint8_t *pages;
static size_t pages_length;

static void make_pages(void)
{
    size_t page = (size_t)sysconf(_SC_PAGESIZE);
    pages_length = (TEXT_ROOM + page - 1) / page * page;
    uint8_t *all = mmap(NULL, pages_length + 2 * page, PROT_NONE, MAP_PRIVATE | MAP_ANONYMOUS, -1, 0);
    if (all == MAP_FAILED || mprotect(all + page, pages_length, PROT_READ | PROT_WRITE) != 0) {
        perror("mmap");
        exit(2);
    }
    pages = all + page;
}

static unsigned from_heap(void)
{
    /* malloc(0) answers a block with no byte that may be read */
    uint8_t *block = malloc(text.length);
    if (block == NULL)
        abort();
    memcpy(block, text.bytes, text.length);
    stage = "the checker had it in a heap block";
    unsigned answer = zulfringa_check(block, text.length);
    stage = "comparing";
    if (memcmp(block, text.bytes, text.length) != 0)
        difference("the text was changed", "the same bytes", "others");
    free(block);
    return answer;
}

static unsigned from_pages(bool at_end)
{
    uint8_t *place = at_end ? pages + pages_length - text.length : pages;
    memcpy(place, text.bytes, text.length);
    stage = at_end ? "the checker had it right before a page that may not be touched"
                   : "the checker had it right after a page that may not be touched";
    unsigned answer = zulfringa_check(place, text.length);
    stage = "comparing";
    if (memcmp(place, text.bytes, text.length) != 0)
        difference("the text was changed", "the same bytes", "others");
    return answer;
}

/* ---- the program ---- */

static void close_on_exec(int end)
{
    fcntl(end, F_SETFD, FD_CLOEXEC);
}

/* Runs the program on the text, in pieces of this many bytes at most, and answers the length of what it printed. */
static size_t run_program(size_t piece, char *printed, size_t room, int *status)
{
    int in[2], out[2];
    if (pipe(in) != 0 || pipe(out) != 0) {
        perror("pipe");
        exit(2);
    }
    for (int k = 0; k < 2; k++) {
        close_on_exec(in[k]);
        close_on_exec(out[k]);
    }
    posix_spawn_file_actions_t actions;
    posix_spawn_file_actions_init(&actions);
    posix_spawn_file_actions_adddup2(&actions, in[0], 0);
    posix_spawn_file_actions_adddup2(&actions, out[1], 1);
    char *arguments[] = { (char *)options.program, NULL };
    pid_t child;
    int failed = posix_spawn(&child, options.program, &actions, NULL, arguments, environ);
    posix_spawn_file_actions_destroy(&actions);
    if (failed != 0) {
        fprintf(stderr, "%s: %s\n", options.program, strerror(failed));
        exit(2);
    }
    close(in[0]);
    close(out[1]);
    fcntl(in[1], F_SETFL, O_NONBLOCK);
    size_t written = 0, got = 0;
    bool writing = true;
    if (text.length == 0) {
        close(in[1]);
        writing = false;
    }
    for (;;) {
        struct pollfd waiting[2] = { { out[0], POLLIN, 0 }, { writing ? in[1] : -1, POLLOUT, 0 } };
        if (poll(waiting, 2, -1) < 0 && errno != EINTR)
            break;
        if (writing && waiting[1].revents != 0) {
            size_t n = text.length - written < piece ? text.length - written : piece;
            ssize_t done = write(in[1], text.bytes + written, n);
            if (done > 0)
                written += (size_t)done;
            if (written == text.length || (done < 0 && errno != EAGAIN)) {
                close(in[1]);
                writing = false;
            }
        }
        if (waiting[0].revents != 0) {
            char more[4096];
            ssize_t n = read(out[0], more, sizeof more);
            if (n <= 0)
                break;
            size_t kept = (size_t)n < room - got ? (size_t)n : room - got;
            memcpy(printed + got, more, kept);
            got += kept;
        }
    }
    if (writing)
        close(in[1]);
    close(out[0]);
    while (waitpid(child, status, 0) < 0 && errno == EINTR) {
    }
    return got;
}

static void expected_lines(unsigned answer, const struct details *d, char *lines, size_t room)
{
    if (answer < 2)
        snprintf(lines, room, "s cnf %u %u %u\nc splits %u\n", answer, d->v, d->c, d->value);
    else
        snprintf(lines, room, "c refused %u at %u\n", answer - 10, d->value);
}

static void compare_program(unsigned answer, const struct details *d)
{
    char expected[128], printed[1025];
    expected_lines(answer, d, expected, sizeof expected);
    static const size_t pieces[] = { 65536, 65536, 4096, 1000, 61, 7 };
    size_t piece = pieces[current % 6];
    if (piece * 500 < text.length)
        piece = 4096;
    int status = 0;
    stage = "the program had it";
    size_t length = run_program(piece, printed, sizeof printed - 1, &status);
    stage = "comparing";
    printed[length] = 0;
    by_program[answer]++;
    if (length != strlen(expected) || memcmp(printed, expected, length) != 0)
        difference("the program's lines", expected, printed);
    if (!WIFEXITED(status))
        difference_numbers("the program ended by a signal", 0, (unsigned)WTERMSIG(status));
}

/* ---- one text ---- */

static void compare_text(enum sort sort)
{
    struct details fast, slow;
    stage = "the diagram engine had it";
    unsigned answer = independent_zdd(text.bytes, text.length, &fast);
    stage = "comparing";
    if (answer >= ANSWERS) {
        difference_numbers("the diagram engine's answer", 0, answer);
        return;
    }
    answered[sort][answer]++;
    if (answer < 2) {
        unsigned step = STEPS - 1;
        while (fast.value < step_least[step])
            step--;
        by_splits[step]++;
        if (fast.nodes == 4096)
            just_fits++;
    }
    if (answer == 20) {
        if (fast.value == 0)
            load_full++;
        else
            decision_full++;
    }

    /* The engine on sets, where it does not take too long. */
    uint64_t effort = (uint64_t)fast.nodes * (text.length < 20000 ? text.length : 20000);
    if (fast.value <= 3000 && (effort < 100000 || (effort < 2000000 && current % 8 == 0) || current % 64 == 0)) {
        stage = "the engine on sets had it";
        unsigned second = independent_walk(text.bytes, text.length, &slow);
        stage = "comparing";
        walked++;
        if (second != answer)
            difference_numbers("the two independent engines", second, answer);
        else if (slow.value != fast.value || slow.v != fast.v || slow.c != fast.c)
            difference_numbers("what the two independent engines tell besides", slow.value, fast.value);
    }

    /* The value by expansion. */
    if (answer < 2) {
        unsigned greatest = current % 16 == 0 ? EXPANDED_VARIABLES : 10;
        unsigned value = independent_expansion(text.bytes, text.length, greatest);
        if (value < 2) {
            expanded++;
            if (value != answer)
                difference_numbers("the value by expansion and the independent verdict", value, answer);
        }
    }

    /* The checker's entry. */
    unsigned got = from_pages(true);
    if (got != answer)
        difference_numbers("the entry's answer, text right before a guard page", answer, got);
    if (answer > 1 ? fast.value < SLOW_SPLITS || answer < 20 : fast.value < SLOW_SPLITS) {
        got = from_heap();
        if (got != answer)
            difference_numbers("the entry's answer, text in a heap block", answer, got);
        if (current % 4 == 0) {
            got = from_pages(false);
            if (got != answer)
                difference_numbers("the entry's answer, text right after a guard page", answer, got);
        }
    }

    /* The program, spread evenly over the texts, and for all fixed ones. */
    if (options.program != NULL && options.program_share > 0) {
        double before = (double)current * options.program_share / 100;
        double after = (double)(current + 1) * options.program_share / 100;
        /* splits are seen only here, so where there are more of them than pairs it is always asked */
        bool many_splits = (answer < 2 || answer >= 20) && fast.value >= 1000;
        if (current < fixed_texts() || (uint64_t)after > (uint64_t)before || many_splits)
            compare_program(answer, &fast);
    }
}

static void summary(uint64_t texts, double seconds)
{
    static const char *const meaning[] = { "too long", "word out of place", "out of range", "bound twice", "not bound",
        "number of clauses", "-", "-", "-", "table full", "spent", "too many open" };
    printf("\n%-26s", "answer");
    for (int s = 0; s < SORTS; s++)
        printf("%11s", sort_names[s]);
    printf("%11s%11s\n", "all", "program");
    for (unsigned a = 0; a < ANSWERS; a++) {
        if (a > 1 && (a < 11 || (a > 16 && a < 20)))
            continue;
        char name[64];
        if (a < 2)
            snprintf(name, sizeof name, "%s", a == 0 ? "false" : "true");
        else
            snprintf(name, sizeof name, "refused %u %s", a - 10, meaning[a - 11]);
        printf("%-26s", name);
        uint64_t all = 0;
        for (int s = 0; s < SORTS; s++) {
            printf("%11llu", (unsigned long long)answered[s][a]);
            all += answered[s][a];
        }
        printf("%11llu%11llu\n", (unsigned long long)all, (unsigned long long)by_program[a]);
    }
    printf("%-26s", "all");
    uint64_t total_program = 0;
    for (int s = 0; s < SORTS; s++) {
        uint64_t all = 0;
        for (unsigned a = 0; a < ANSWERS; a++)
            all += answered[s][a];
        printf("%11llu", (unsigned long long)all);
    }
    for (unsigned a = 0; a < ANSWERS; a++)
        total_program += by_program[a];
    printf("%11llu%11llu\n\n", (unsigned long long)texts, (unsigned long long)total_program);
    printf("verdicts by their splits:");
    for (unsigned k = 0; k < STEPS; k++)
        printf("%s %u or more: %llu", k == 0 ? "" : ",", step_least[k], (unsigned long long)by_splits[k]);
    printf("\ntable full with no split made %llu times, after one or more %llu times; filled to its last node by a "
           "verdict %llu times\n",
        (unsigned long long)load_full, (unsigned long long)decision_full, (unsigned long long)just_fits);
    printf("also decided by the engine on sets: %llu; also by full expansion: %llu\n", (unsigned long long)walked,
        (unsigned long long)expanded);
    printf("seed %llu, texts %llu to %llu: %.1f s, %.0f texts a second\n", (unsigned long long)options.seed,
        (unsigned long long)options.start, (unsigned long long)(options.start + texts), seconds,
        seconds > 0 ? (double)texts / seconds : 0);
    printf("differences: %llu\n", (unsigned long long)differences);
}

static void usage(void)
{
    fprintf(stderr,
        "compare [--seed N] [--start N] [--count N] [--seconds N] [--program PATH] [--program-share PERCENT]\n"
        "        [--save DIRECTORY] [--patience SECONDS] [--most-differences N] [--print N]\n");
    exit(2);
}

int main(int count, char **arguments)
{
    bool print = false;
    for (int k = 1; k < count; k += 2) {
        const char *name = arguments[k];
        if (k + 1 >= count)
            usage();
        const char *value = arguments[k + 1];
        if (!strcmp(name, "--seed"))
            options.seed = strtoull(value, NULL, 10);
        else if (!strcmp(name, "--start"))
            options.start = strtoull(value, NULL, 10);
        else if (!strcmp(name, "--count"))
            options.count = strtoull(value, NULL, 10);
        else if (!strcmp(name, "--seconds"))
            options.seconds = strtod(value, NULL);
        else if (!strcmp(name, "--program"))
            options.program = value;
        else if (!strcmp(name, "--program-share"))
            options.program_share = strtod(value, NULL);
        else if (!strcmp(name, "--save"))
            options.save = value;
        else if (!strcmp(name, "--patience"))
            options.patience = (unsigned)strtoul(value, NULL, 10);
        else if (!strcmp(name, "--most-differences"))
            options.most_differences = strtoull(value, NULL, 10);
        else if (!strcmp(name, "--print")) {
            options.start = strtoull(value, NULL, 10);
            print = true;
        } else
            usage();
    }
    if (print) {
        generate_text(options.seed, options.start, &text);
        return fwrite(text.bytes, 1, text.length, stdout) == text.length ? 0 : 2;
    }
    mkdir(options.save, 0755);
    make_pages();
    catch_signals();
    double begun = now(), told = begun;
    uint64_t done = 0;
    while (done < options.count) {
        current = options.start + done;
        stage = "generating";
        enum sort sort = generate_text(options.seed, current, &text);
        alarm(options.patience);
        compare_text(sort);
        alarm(0);
        done++;
        double time = now();
        if (options.seconds > 0 && time - begun >= options.seconds)
            break;
        if (options.most_differences > 0 && differences >= options.most_differences)
            break;
        if (time - told >= 30) {
            told = time;
            printf("%llu texts, %.0f s, %llu differences\n", (unsigned long long)done, time - begun,
                (unsigned long long)differences);
            fflush(stdout);
        }
    }
    summary(done, now() - begun);
    return differences == 0 ? 0 : 1;
}
