/* Times the seven calls of shared objects made from archives of the ledger, over a list of accepted lines: mean nanoseconds by kind, without notices and with
 * them, the best of so many passes, the objects in turn. For oracle/versions.
 *
 *     versions PASSES LIST OBJECT..      a line for each object: its name, seven numbers without notices, seven with */
#include <dlfcn.h>
#include <stdint.h>
#include <stdio.h>
#include <stdlib.h>
#include <string.h>
#include <time.h>

#include "../include/dual_ledger.h"

enum { KINDS = 7, MOST = 64 };
static const char LETTERS[] = "DBESGFC";

typedef struct {
    int kind, unit, count;
    int64_t a, b;
    uint32_t *members;
} Line;

typedef struct {
    const char *name;
    uint8_t (*set_up)(uint64_t *, uint32_t);
    uint8_t (*defect)(uint64_t *, uint8_t, uint32_t, uint64_t *);
    uint8_t (*blossom)(uint64_t *, uint8_t, const uint64_t *, size_t, const uint64_t *, size_t, uint64_t *);
    uint8_t (*expand)(uint64_t *, uint8_t, uint64_t);
    uint8_t (*state)(uint64_t *, uint8_t, uint64_t, int8_t);
    uint8_t (*grow)(uint64_t *, uint8_t, int64_t);
    uint8_t (*told_defect)(uint64_t *, uint8_t, uint32_t, uint64_t *);
    uint8_t (*told_blossom)(uint64_t *, uint8_t, const uint64_t *, size_t, const uint64_t *, size_t, uint64_t *);
    uint8_t (*told_expand)(uint64_t *, uint8_t, uint64_t, uint64_t *);
    uint8_t (*told_state)(uint64_t *, uint8_t, uint64_t, int8_t, uint64_t *);
    uint8_t (*told_grow)(uint64_t *, uint8_t, int64_t, uint64_t *);
    uint8_t (*fuse)(uint64_t *, uint8_t, uint8_t, uint8_t);
    uint8_t (*clear)(uint64_t *, uint8_t);
    double best[2][KINDS];
} Version;

static Line *lines;
static size_t many;
static uint64_t bench[DUAL_LEDGER_WORDS], answer[DUAL_LEDGER_ANSWER_WORDS], *nodes;

/* the machine's own counter: a clock of the system takes longer than a call */
static inline uint64_t ticks(void) {
    uint64_t at;
#if defined(__aarch64__)
    __asm__ volatile("isb; mrs %0, cntvct_el0" : "=r"(at)::"memory");
#elif defined(__x86_64__)
    uint32_t low, high;
    __asm__ volatile("lfence; rdtsc" : "=a"(low), "=d"(high)::"memory");
    at = (uint64_t)high << 32 | low;
#else
#error "a counter for this machine"
#endif
    return at;
}

static double seconds(void) {
    struct timespec at;
    clock_gettime(CLOCK_MONOTONIC, &at);
    return (double)at.tv_sec + (double)at.tv_nsec * 1e-9;
}

/* nanoseconds of a tick, over a fifth of a second */
static double tick_length(void) {
    double begin = seconds(), end;
    uint64_t first = ticks();
    while ((end = seconds()) < begin + 0.2) {
    }
    return (end - begin) * 1e9 / (double)(ticks() - first);
}

/* ticks that an empty measurement takes */
static double idle(void) {
    double least = 1e9;
    for (int round = 0; round < 20; round++) {
        uint64_t sum = 0;
        for (int i = 0; i < 100000; i++) {
            uint64_t begin = ticks();
            sum += ticks() - begin;
        }
        if ((double)sum / 100000 < least) least = (double)sum / 100000;
    }
    return least;
}

static void *named(void *object, const char *name) {
    void *found = dlsym(object, name);
    if (found == NULL) {
        fprintf(stderr, "versions: no %s\n", name);
        exit(1);
    }
    return found;
}

static void open_version(Version *v, const char *path) {
    void *object = dlopen(path, RTLD_NOW | RTLD_LOCAL);
    if (object == NULL) {
        fprintf(stderr, "versions: %s\n", dlerror());
        exit(1);
    }
    v->name = path;
    *(void **)&v->set_up = named(object, "dual_ledger_set_up");
    *(void **)&v->defect = named(object, "dual_ledger_trusted_create_defect_node");
    *(void **)&v->blossom = named(object, "dual_ledger_trusted_create_blossom");
    *(void **)&v->expand = named(object, "dual_ledger_trusted_expand_blossom");
    *(void **)&v->state = named(object, "dual_ledger_trusted_set_grow_state");
    *(void **)&v->grow = named(object, "dual_ledger_trusted_grow");
    *(void **)&v->told_defect = named(object, "dual_ledger_told_create_defect_node");
    *(void **)&v->told_blossom = named(object, "dual_ledger_told_create_blossom");
    *(void **)&v->told_expand = named(object, "dual_ledger_told_expand_blossom");
    *(void **)&v->told_state = named(object, "dual_ledger_told_set_grow_state");
    *(void **)&v->told_grow = named(object, "dual_ledger_told_grow");
    *(void **)&v->fuse = named(object, "dual_ledger_trusted_fuse");
    *(void **)&v->clear = named(object, "dual_ledger_trusted_clear");
    for (int kind = 0; kind < KINDS; kind++) v->best[0][kind] = v->best[1][kind] = 1e18;
}

static void read_lines(const char *path) {
    FILE *list = fopen(path, "r");
    char text[1100];
    if (list == NULL) {
        perror(path);
        exit(1);
    }
    while (fgets(text, sizeof text, list) != NULL) {
        int64_t numbers[MOST + 2] = {0};
        int n = 0;
        char *at = text + 1, *end;
        const char *letter = strchr(LETTERS, text[0]);
        if (letter == NULL) continue;
        for (int64_t x = strtoll(at, &end, 10); end != at && n < MOST + 2; x = strtoll(at, &end, 10)) numbers[n++] = x, at = end;
        if (many % 65536 == 0) lines = realloc(lines, (many + 65536) * sizeof *lines);
        Line line = {(int)(letter - LETTERS), (int)numbers[0], n - 1, numbers[1], numbers[2], NULL};
        if (text[0] == 'B') {
            line.members = malloc((size_t)line.count * sizeof *line.members);
            for (int i = 0; i < line.count; i++) line.members[i] = (uint32_t)numbers[i + 1];
        }
        lines[many++] = line;
    }
    fclose(list);
    nodes = malloc((many + 1) * sizeof *nodes);
}

/* one line's call; the serials go up by one from 1 */
static uint8_t call(Version *v, int tells, const Line *line, size_t *made, uint64_t *taken) {
    uint64_t members[MOST], node = 0, *to = tells ? answer : &node, begin;
    uint8_t unit = (uint8_t)line->unit, said = 0;
    for (int i = 0; line->members != NULL && i < line->count; i++) members[i] = nodes[line->members[i]];
    uint64_t named_node = LETTERS[line->kind] == 'E' || LETTERS[line->kind] == 'S' ? nodes[line->a] : 0;
    begin = ticks();
    switch (LETTERS[line->kind]) {
    case 'D': said = (tells ? v->told_defect : v->defect)(bench, unit, (uint32_t)line->a, to); break;
    case 'B': said = (tells ? v->told_blossom : v->blossom)(bench, unit, members, (size_t)line->count, members, 0, to); break;
    case 'E': said = tells ? v->told_expand(bench, unit, named_node, to) : v->expand(bench, unit, named_node); break;
    case 'S': said = tells ? v->told_state(bench, unit, named_node, (int8_t)line->b, to) : v->state(bench, unit, named_node, (int8_t)line->b); break;
    case 'G': said = tells ? v->told_grow(bench, unit, line->a, to) : v->grow(bench, unit, line->a); break;
    case 'F': said = v->fuse(bench, unit, (uint8_t)line->a, (uint8_t)line->b); break;
    default: said = v->clear(bench, unit); break;
    }
    *taken = ticks() - begin;
    if (line->kind < 2) nodes[++*made] = *to;
    return said;
}

static void pass(Version *v, int tells, double idle_ticks, double length) {
    double sum[KINDS] = {0};
    size_t count[KINDS] = {0}, made = 0;
    v->set_up(bench, 1);
    for (size_t i = 0; i < many; i++) {
        uint64_t taken;
        uint8_t said = call(v, tells, &lines[i], &made, &taken);
        if (said != 0) {
            fprintf(stderr, "versions: %s: line %zu is refused by %d\n", v->name, i + 1, said);
            exit(1);
        }
        double spent = ((double)taken - idle_ticks) * length;
        /* longer than any call of the list: the thread was put aside meanwhile */
        if (spent < 50000) sum[lines[i].kind] += spent, count[lines[i].kind]++;
    }
    for (int kind = 0; kind < KINDS; kind++) {
        double mean = count[kind] > 0 ? sum[kind] / (double)count[kind] : 0;
        if (mean < v->best[tells][kind]) v->best[tells][kind] = mean;
    }
}

int main(int argc, char **argv) {
    if (argc < 4) {
        fprintf(stderr, "versions PASSES LIST OBJECT..\n");
        return 2;
    }
    int versions = argc - 3;
    Version *v = calloc((size_t)versions, sizeof *v);
    for (int i = 0; i < versions; i++) open_version(&v[i], argv[3 + i]);
    read_lines(argv[2]);
    double idle_ticks = idle(), length = tick_length();
    for (int round = 0; round < atoi(argv[1]); round++)
        for (int i = 0; i < versions; i++)
            for (int tells = 0; tells < 2; tells++) pass(&v[i], tells, idle_ticks, length);
    for (int i = 0; i < versions; i++) {
        printf("%s", v[i].name);
        for (int tells = 0; tells < 2; tells++)
            for (int kind = 0; kind < KINDS; kind++) printf(" %.2f", v[i].best[tells][kind]);
        printf("\n");
    }
    return 0;
}
