/* oracle calls|draw [LIMITS] < LINES        the replies, or the picture
 * oracle gen START COUNT [LIMITS]           the summary
 * oracle bench FILE SECONDS                 runs a second of a file's lines, in this process
 * LIMITS: --budget BYTES, --refuse N,N,.. */
#include "arena_oracle.h"
#include <stdio.h>
#include <stdlib.h>
#include <string.h>
#include <time.h>

enum { MOST_REFUSED = 64 };

struct limits {
    uint64_t budget, refuse[MOST_REFUSED];
    size_t count;
};

/* All bytes of a stream; ends the process if memory runs out. */
static uint8_t *read_all(FILE *from, size_t *len) {
    size_t room = 1 << 16, n = 0;
    uint8_t *all = malloc(room);
    for (size_t got; all && (got = fread(all + n, 1, room - n, from)) > 0;) {
        n += got;
        if (n == room) all = realloc(all, room *= 2);
    }
    if (!all) exit(ARENA_ORACLE_OUT_OF_MEMORY);
    *len = n;
    return all;
}

static double now(void) {
    struct timespec t;
    clock_gettime(CLOCK_MONOTONIC, &t);
    return (double)t.tv_sec + (double)t.tv_nsec * 1e-9;
}

static struct limits limits_of(int argc, char **argv, int from) {
    struct limits is = {1073741824, {0}, 0};
    for (int i = from; i + 1 < argc; i += 2) {
        if (!strcmp(argv[i], "--budget")) is.budget = strtoull(argv[i + 1], NULL, 10);
        if (!strcmp(argv[i], "--refuse"))
            for (char *at = argv[i + 1]; *at && is.count < MOST_REFUSED; at += *at == ',')
                is.refuse[is.count++] = strtoull(at, &at, 10);
    }
    return is;
}

static int bench(const char *path, double seconds) {
    FILE *file = fopen(path, "rb");
    if (!file) return 1;
    size_t len, room = 1 << 20;
    uint8_t *lines = read_all(file, &len), *out = malloc(room);
    uint64_t none[1] = {0}, n = 0;
    struct arena_oracle_report report;
    double from = now(), took = 0;
    for (; out && took < seconds; took = now() - from)
        for (int i = 0; i < 16; i++, n++)
            if (arena_oracle_calls(lines, len, 1073741824, none, 0, out, room, &report)) return 1;
    printf("%.0f runs a second, %.3f us a run, %zu bytes of lines, %llu of text\n", (double)n / took, took / (double)n * 1e6, len,
           (unsigned long long)report.length);
    return 0;
}

static uint32_t run(char **argv, const uint8_t *lines, size_t len, const struct limits *is, uint8_t *out, size_t room,
                    struct arena_oracle_report *report) {
    if (!strcmp(argv[1], "calls")) return arena_oracle_calls(lines, len, is->budget, is->refuse, is->count, out, room, report);
    if (!strcmp(argv[1], "draw")) return arena_oracle_draw(lines, len, is->budget, is->refuse, is->count, out, room, report);
    uint64_t start = strtoull(argv[2], NULL, 10), count = strtoull(argv[3], NULL, 10);
    return arena_oracle_gen(start, count, is->budget, is->refuse, is->count, out, room, report);
}

int main(int argc, char **argv) {
    const char *word = argc > 1 ? argv[1] : "";
    int is_gen = !strcmp(word, "gen") && argc > 3;
    if (!strcmp(word, "bench") && argc > 3) return bench(argv[2], atof(argv[3]));
    if (!is_gen && strcmp(word, "draw") && strcmp(word, "calls")) return 1;
    struct limits is = limits_of(argc, argv, is_gen ? 4 : 2);
    struct arena_oracle_report report;
    size_t len = 0, room = 1 << 20;
    uint8_t *lines = is_gen ? NULL : read_all(stdin, &len), *out;
    uint32_t status;
    for (;;) {
        out = malloc(room);
        if (!out) return ARENA_ORACLE_OUT_OF_MEMORY;
        status = run(argv, lines, len, &is, out, room, &report);
        if (status != ARENA_ORACLE_NO_ROOM) break;
        free(out);
        room = report.length;
    }
    fwrite(out, 1, report.length, stdout);
    if (report.line) fprintf(stderr, "line %llu is not understood\n", (unsigned long long)report.line);
    free(out);
    free(lines);
    return (int)status;
}
