/* How deep each linked function goes into the stack: a stack of its own is painted, the function is called on it, and the paint that is gone is counted,
 * on benches and groups that take its longest ways. Writes lines NAME BYTES LEVELS to the file named, for `oracle/stack --painted`. Then the first vertex
 * of the deepest nest, which must need as much as that of a single node, and be answered on a thread of the smallest stack that the machine allows. */
#define _GNU_SOURCE
#include "dual_ledger.h"

#include <pthread.h>
#include <stdio.h>
#include <stdlib.h>
#include <string.h>
#include <ucontext.h>
#include <unistd.h>

#define DEEPEST 448
#define STACK (1 << 19)
#define PAINT 0xA5
#if defined __x86_64__
#define RETURN_ADDRESS 8
#else
#define RETURN_ADDRESS 0
#endif

typedef uint64_t (*any)(uint64_t, uint64_t, uint64_t, uint64_t, uint64_t, uint64_t, uint64_t, uint64_t, uint64_t);

static unsigned char stack[STACK] __attribute__((aligned(4096)));
static ucontext_t here, there;
static any function;
static uint64_t arguments[9];

static void call(void) {
    const uint64_t *a = arguments;
    function(a[0], a[1], a[2], a[3], a[4], a[5], a[6], a[7], a[8]);
}

/* Bytes gone from the far end of the painted stack. */
static size_t gone(any f, const uint64_t *a) {
    size_t left = 0;
    function = f;
    memcpy(arguments, a, sizeof arguments);
    memset(stack, PAINT, STACK);
    getcontext(&there);
    there.uc_stack.ss_sp = stack;
    there.uc_stack.ss_size = STACK;
    there.uc_link = &here;
    makecontext(&there, call, 0);
    swapcontext(&here, &there);
    while (left < STACK && stack[left] == PAINT) left++;
    return STACK - left;
}

static uint64_t nothing(uint64_t a, uint64_t b, uint64_t c, uint64_t d, uint64_t e, uint64_t f, uint64_t g, uint64_t h, uint64_t i) {
    return a + b + c + d + e + f + g + h + i;
}

/* ---- what was found: of each function and number of levels the deepest */

static struct row {
    const char *name;
    int levels;
    size_t bytes;
} rows[500];
static int count;

static size_t note(const char *name, int levels, any f, const uint64_t *a) {
    static const uint64_t none[9];
    size_t bytes = gone(f, a) - gone(nothing, none) + RETURN_ADDRESS;
    int i = 0;
    while (i < count && (strcmp(rows[i].name, name) != 0 || rows[i].levels != levels)) i++;
    if (i == count) rows[count++] = (struct row){name, levels, 0};
    if (bytes > rows[i].bytes) rows[i].bytes = bytes;
    return bytes;
}

/* ---- benches and groups */

static uint64_t bench[DUAL_LEDGER_WORDS], start[DUAL_LEDGER_WORDS], answer[DUAL_LEDGER_ANSWER_WORDS];
static uint64_t group[DUAL_LEDGER_GROUP_WORDS], other[DUAL_LEDGER_GROUP_WORDS], first_group[DUAL_LEDGER_GROUP_WORDS];
static uint64_t members[64], touching[128], out[8];
static uint32_t vertices[512];
static uint8_t drawn[1 << 17];
/* two growths by 1 */
static uint64_t recording[2 * DUAL_LEDGER_GROUP_WORDS] = {1, 1, [DUAL_LEDGER_GROUP_WORDS] = 1, [DUAL_LEDGER_GROUP_WORDS + 1] = 1};

static void must(const char *what, int holds) {
    if (holds) return;
    printf("painted: %s\n", what);
    exit(1);
}

static uint64_t handle(uint64_t serial, uint64_t slot, uint64_t unit) { return (serial * 64 + slot) * 8 + unit; }

static uint64_t nested(int at) { return handle((uint64_t)at + 1, (uint64_t)at / 7, (uint64_t)at % 7); }

/* A nest of so many nodes, by the layout at the head of crates/bench_words: from one of seven interfaces to another at each level. Four of
 * them stand above one another, which is the most. */
static void nest(uint64_t *words, int nodes) {
    static const uint64_t parent[8] = {3, 3, 5, 5, 7, 7, 0, 0}, left[8] = {0, 0, 1, 0, 3, 0, 5, 0}, right[8] = {0, 0, 2, 0, 4, 0, 6, 0};
    memset(words, 0, sizeof bench);
    words[0] = (uint64_t)nodes + 1;
    for (int unit = 0; unit < 8; unit++) {
        uint64_t *face = words + 16 * unit;
        face[1] = unit < 7 ? (uint64_t)(nodes - unit + 6) / 7 : 0;
        face[3] = (uint64_t)1 << 62;
        face[4] = 1024 + (unit == 6);
        face[5] = parent[unit];
        face[6] = left[unit];
        face[7] = right[unit];
        face[8] = face[1] < 64 ? ((uint64_t)1 << face[1]) - 1 : UINT64_MAX;
    }
    for (int at = 0; at < nodes; at++) {
        uint64_t *node = words + 129 + 12 * (64 * (at % 7) + at / 7);
        int inside = at + 1 < nodes;
        node[0] = (uint64_t)at + 1;
        node[1] = at ? 1 : 7 + 2;
        node[2] = !inside;
        node[3] = inside ? nested(at + 1) + 1 : 0;
        node[6] = node[7] = inside ? nested(at) : 0;
        node[8] = (uint64_t)1 << 60;
        node[9] = 1;
        node[10] = at ? (uint64_t)(64 * ((at - 1) % 7) + (at - 1) / 7) : 0;
        node[11] = at != 0;
    }
    must("a nest made by hand is not sound", dual_ledger_is_sound(words) == 1);
}

/* Three defects in a blossom, that and a fourth in another, touching by a defect; then two defects, and an interface fused of two. With a floor: a node that
 * shrinks. */
static void small(uint64_t *words, int floored) {
    uint64_t node;
    dual_ledger_set_up(words, 1);
    for (uint8_t unit = 0; floored && unit < 4; unit++) must("a floor", dual_ledger_trusted_mark_floored(words, unit) == 0);
    for (uint32_t v = 0; v < 4; v++) dual_ledger_trusted_create_defect_node(words, 0, v, &node);
    for (uint64_t i = 0; i < 3; i++) members[i] = handle(i + 1, i, 0);
    must("a blossom of three", dual_ledger_trusted_create_blossom(words, 0, members, 3, NULL, 0, &node) == 0);
    members[0] = handle(5, 4, 0), members[1] = handle(4, 3, 0);
    touching[0] = touching[1] = handle(1, 0, 0), touching[2] = touching[3] = handle(4, 3, 0);
    must("a blossom of two", dual_ledger_trusted_create_blossom(words, 0, members, 2, touching, 4, &node) == 0);
    for (uint32_t v = 4; v < 6; v++) dual_ledger_trusted_create_defect_node(words, 0, v, &node);
    must("a fuse", dual_ledger_trusted_fuse(words, 2, 0, 1) == 0 && dual_ledger_trusted_grow(words, 2, 3) == 0);
    if (floored) must("a node that shrinks", dual_ledger_trusted_set_grow_state(words, 2, handle(7, 6, 0), -1) == 0);
}

#define W(x) (uint64_t)(uintptr_t)(x)
/* Each call starts from the same bench and group. */
#define P(name, ...) (memcpy(bench, start, sizeof bench), memcpy(group, first_group, sizeof group), note(#name, levels, (any)(void (*)(void))name, (uint64_t[9]){__VA_ARGS__}))

/* The three forms of a call. */
#define CALL(name, ...) (P(dual_ledger_##name, __VA_ARGS__), P(dual_ledger_told_##name, __VA_ARGS__), P(dual_ledger_trusted_##name, __VA_ARGS__))
#define BOTH(name, ...) (P(dual_ledger_##name, __VA_ARGS__), P(dual_ledger_trusted_##name, __VA_ARGS__))

/* Every call and read on the bench `start`, of one node of an interface without a parent. */
static void calls(uint64_t unit, uint64_t node, int levels) {
    uint64_t b = W(bench), a = W(answer);
    P(dual_ledger_set_up, b, 1);
    P(dual_ledger_set_up_plain, b, 1);
    P(dual_ledger_is_sound, b);
    CALL(create_defect_node, b, unit, 9, a);
    CALL(create_blossom, b, unit, W(members), 2, W(touching), 4, a);
    CALL(create_blossom, b, unit, W(members), 2, 0, 0, a);
    CALL(expand_blossom, b, unit, node, a);
    CALL(set_grow_state, b, unit, node, 0, a);
    CALL(grow, b, unit, 2, a);
    BOTH(grow_recorded, b, unit, 2, W(recording), sizeof recording / 8, W(out), 2, W(vertices));
    BOTH(fuse, b, 7, unit, 3);
    BOTH(clear, b, unit);
    BOTH(mark_filling, b, 7);
    BOTH(mark_floored, b, 7);
    BOTH(sum_dual_variables, b, unit, a);
    BOTH(sum_grow_speed, b, unit, a);
    BOTH(nodes_count, b, unit, a);
    BOTH(is_filling, b, unit, a);
    BOTH(is_floored, b, unit, a);
    BOTH(get_node, b, unit, 0, a);
    BOTH(present_count, b, unit, a);
    BOTH(next_present, b, unit, 0, W(vertices), a);
    BOTH(check_ptr_belonging, b, unit, node, a);
    BOTH(get_dual_variable, b, node, a);
    BOTH(get_ancestor_blossom, b, nested(0), a, W(out));
    BOTH(get_secondary_ancestor_blossom, b, nested(0), a);
    BOTH(get_representative_vertex, b, node, a);
    BOTH(get_all_vertices, b, node, W(vertices), 512, a);
    BOTH(snapshot, b, unit, 0, W(drawn), sizeof drawn, a);
    BOTH(sanity_check, b, unit, a, W(out));
    BOTH(strict_check, b, unit, a, W(out));
}

/* The group's functions, on the group `first_group`, with an obstacle and another group. */
static void groups(const uint64_t *obstacle) {
    uint64_t g = W(group), o = W(obstacle);
    int levels = 1;
    P(dual_ledger_empty_group, g);
    P(dual_ledger_group_is_sound, g);
    BOTH(group_is_empty, g, W(out));
    BOTH(group_is_active, g, W(out));
    BOTH(group_get_none_zero_growth, g, W(out), W(out + 1));
    BOTH(group_peek, g, W(out));
    BOTH(group_pop, g, W(out));
    BOTH(group_pop_sparing_stops, g, W(out));
    BOTH(group_add, W(bench), g, o);
    BOTH(group_extend, W(bench), g, W(other));
}

/* The text engine's functions, on the bench `start`. */
static void lines(const char *text) {
    static uint8_t held_line[DUAL_LEDGER_HELD], written[64 * DUAL_LEDGER_ANSWER_BYTES];
    static uint16_t hints[DUAL_LEDGER_HINTS];
    static size_t held, wrote;
    uint64_t b = W(bench), t = W(text), n = strlen(text);
    int levels = 1;
    held = 0;
    BOTH(text_line, b, t, n - 1, W(hints), W(out), W(out + 1), W(out + 2));
    held = 0;
    P(dual_ledger_text_chunk, b, t, n, W(held_line), W(&held), W(hints), W(written), sizeof written, W(&wrote));
    held = 0;
    P(dual_ledger_trusted_text_chunk, b, t, n, W(held_line), W(&held), W(hints), W(written), sizeof written, W(&wrote));
    held = 0;
    P(dual_ledger_text_opening, b, t, n, W(held_line), W(&held), W(hints), W(written), sizeof written, W(&wrote));
    P(dual_ledger_text_end, 3, W(written), sizeof written, W(&wrote));
}

/* The functions on byte records: a text and a file of every letter, there and back. */
static void records(void) {
    static const char text[] = "D 0 4294967295\nB 255 1 22 333 4294967295\nE 0 3\nS 0 1 -1\nG 0 -9223372036854775808\nF 2 0 1\nC 0\nK 0\n";
    static uint8_t file[512], back[512];
    static int64_t answers[32];
    static uint64_t said[16];
    static size_t size, wrote;
    int levels = 1;
    must("the records do not move", dual_ledger_to_records((const uint8_t *)text, sizeof text - 1, file, sizeof file, &size) == 0);
    P(dual_ledger_to_records, W(text), sizeof text - 1, W(back), sizeof back, W(&wrote));
    P(dual_ledger_to_text, W(file), size, W(back), sizeof back, W(&wrote));
    P(dual_ledger_records_count, W(file), size, W(&wrote));
    for (int at = 0; at < 9; at++) P(dual_ledger_records_get, W(file), size, at, W(said), 16, W(&wrote));
    BOTH(run_records, W(bench), W(file), size, W(answers), 32, W(&wrote));
}

/* A bench of a few nodes: accepted calls of each kind. */
static void few(int floored) {
    uint64_t outer = handle(6, 5, 0);
    small(start, floored);
    members[0] = handle(7, 6, 0), members[1] = handle(8, 7, 0);
    touching[0] = touching[1] = members[0], touching[2] = touching[3] = members[1];
    calls(2, outer, 3);
    static const char *const each[8] = {"D 2 9\n", "B 2 7 8\n", "E 2 6\n", "S 2 6 0\n", "G 2 2\n", "F 7 2 3\n", "C 2\n", "K 2\n"};
    for (int i = 0; i < 8; i++) lines(each[i]);
    uint64_t conflict[5] = {2, outer, handle(1, 0, 0), handle(7, 6, 0), handle(7, 6, 0)}, stop[5] = {5, handle(7, 6, 0)};
    uint64_t pair[5] = {6, outer, handle(7, 6, 0), handle(8, 7, 0)}, growth[5] = {1, 5, 0};
    const uint64_t *obstacles[4] = {conflict, stop, pair, growth};
    dual_ledger_empty_group(first_group);
    dual_ledger_empty_group(other);
    for (int turn = 0; turn < 2; turn++) {
        for (int i = 0; i < 4; i++) groups(obstacles[i]);
        for (int i = 0; i < 3; i++) {
            must("an obstacle", dual_ledger_group_add(start, first_group, obstacles[i]) == 0);
            must("an obstacle of the other", dual_ledger_group_add(start, other, obstacles[i]) == 0);
        }
    }
}

/* A sum of as many digits as one growth allows, which is one less than any sound bench has. */
static void long_sum(void) {
    dual_ledger_set_up(start, 1);
    must("a long growth", dual_ledger_trusted_grow(start, 0, (int64_t)1 << 40) == 0);
    start[3] = ((uint64_t)1 << 62) - ((uint64_t)512 << 40);
    must("a long sum is not sound", dual_ledger_is_sound(start) == 1);
    lines("K 0\n");
}

static void checked(void);

/* The deepest nest with a touching handle that names no node: the check finds it, and looks for its index. */
static void spoiled(void) {
    nest(start, DEEPEST);
    start[129 + 12 * 64 * 3 + 6] = handle(1, 5, 7);
    must("a spoiled nest is not sound", dual_ledger_is_sound(start) == 1);
    calls(6, nested(DEEPEST - 1), DEEPEST);
    lines("K 6\n");
    must("a spoiled nest passes the check", dual_ledger_sanity_check(start, 6, out, out + 1) == 0 && out[0] == 4);
    checked();
}

/* A floored tree of four interfaces above one another with a node that shrinks: a growth looks for the least value down the whole tree. The same tree made in
 * one opening, and checked there. */
static void tall(void) {
    uint64_t node, b = W(bench), a = W(answer);
    int levels = 1;
    dual_ledger_set_up(start, 1);
    for (uint8_t unit = 0; unit < 8; unit++) must("a floor of a tall tree", dual_ledger_trusted_mark_floored(start, unit) == 0);
    for (uint32_t v = 0; v < 2; v++) dual_ledger_trusted_create_defect_node(start, 0, v, &node);
    must("a tall tree", dual_ledger_trusted_fuse(start, 2, 0, 1) == 0 && dual_ledger_trusted_fuse(start, 4, 2, 3) == 0 && dual_ledger_trusted_fuse(start, 6, 4, 5) == 0);
    must("a tall growth", dual_ledger_trusted_grow(start, 6, 3) == 0 && dual_ledger_trusted_set_grow_state(start, 6, handle(1, 0, 0), -1) == 0);
    CALL(grow, b, 6, 2, a);
    BOTH(grow_recorded, b, 6, 2, W(recording), sizeof recording / 8, W(out), 2, W(vertices));
    lines("G 6 2\n");
    lines("D 0 3\nD 1 3\nF 2 0 1\nF 4 2 3\nF 6 4 5\nK 6\n");
}

/* A run of one check, on the bench `start`. */
static void checked(void) {
    static const char text[] = "K 6\n";
    static uint8_t file[64];
    static int64_t answers[4];
    static size_t size, wrote;
    int levels = 1;
    must("a check as a record", dual_ledger_to_records((const uint8_t *)text, sizeof text - 1, file, sizeof file, &size) == 0);
    BOTH(run_records, W(bench), W(file), size, W(answers), 4, W(&wrote));
}

/* ---- the smallest stack of all */

struct read {
    uint8_t trusted, open, walk;
    uint32_t first, again;
    uint64_t outer, links;
};

static void *reads(void *to) {
    struct read *r = to;
    uint64_t top = nested(DEEPEST - 1);
    r->trusted = dual_ledger_trusted_get_representative_vertex(start, top, &r->first);
    r->open = dual_ledger_get_representative_vertex(start, top, &r->again);
    r->walk = dual_ledger_get_ancestor_blossom(start, nested(0), &r->outer, &r->links);
    return NULL;
}

static long smallest(void) {
    struct read r;
    pthread_t thread;
    pthread_attr_t how;
    long bytes = sysconf(_SC_THREAD_STACK_MIN);
    if (bytes <= 0) bytes = 16384;
    must("no thread of the smallest stack", pthread_attr_init(&how) == 0 && pthread_attr_setstacksize(&how, (size_t)bytes) == 0);
    must("no thread", pthread_create(&thread, &how, reads, &r) == 0 && pthread_join(thread, NULL) == 0);
    must("the first vertex of the deepest nest", r.trusted == 0 && r.first == 7 && r.open == 0 && r.again == 7);
    must("the deepest walk", r.walk == 0 && r.outer == nested(DEEPEST - 1) && r.links == DEEPEST - 1);
    return bytes;
}

int main(int words, char **word) {
    static const int depths[] = {1, 2, 16, 256, DEEPEST};
    size_t single = 0, deep = 0;
    FILE *file;
    if (words != 2) return 2;
    few(0);
    few(1);
    records();
    long_sum();
    tall();
    spoiled();
    for (size_t i = 0; i < sizeof depths / sizeof *depths; i++) {
        int levels = depths[i];
        nest(start, levels);
        uint64_t a = W(answer), b = W(bench), top = nested(levels - 1);
        deep = P(dual_ledger_trusted_get_representative_vertex, b, top, a);
        if (levels == 1) single = deep;
        calls(6, top, levels);
    }
    if (single != deep) printf("painted: the first vertex takes %zu bytes of a single node, %zu of the deepest nest\n", single, deep);
    must("cannot write", (file = fopen(word[1], "w")) != NULL);
    for (int i = 0; i < count; i++) fprintf(file, "%s %zu %d\n", rows[i].name, rows[i].bytes, rows[i].levels);
    fclose(file);
    must("the first vertex's stack goes with the nest", single == deep);
    printf("painted: %d rows; the first vertex takes %zu bytes at 1 level and at %d; read on a thread of %ld bytes\n", count, deep, DEEPEST, smallest());
    return 0;
}
