/* The linked library from C, by its header alone: the manual's worked cases, a blossom with its notices word by word, every read and check in both forms,
 * interfaces that fill emptied slots and floored ones, text records in lines and in chunks of every size, groups of obstacles, and refusals with all that was lent compared before and after; all of it in both engines. Ends with 0 and one line, or names the first difference. */
#include "dual_ledger.h"

#include <inttypes.h>
#include <stdio.h>
#include <stdlib.h>
#include <string.h>

static uint64_t bench[DUAL_LEDGER_WORDS];
static uint64_t kept[DUAL_LEDGER_WORDS];
static uint64_t answer[DUAL_LEDGER_ANSWER_WORDS];
static long compared;

/* The engine that all below is made in: the lazy one, then the plain one. */
static int plain;

static uint8_t set_up(uint64_t *words, uint32_t first) { return plain ? dual_ledger_set_up_plain(words, first) : dual_ledger_set_up(words, first); }

static void same(const char *what, int64_t got, int64_t expected) {
    compared++;
    if (got == expected) return;
    printf("linked: %s is %" PRId64 ", not %" PRId64 "\n", what, got, expected);
    exit(1);
}

static void same_words(const char *what, const uint64_t *got, const uint64_t *expected, size_t count) {
    compared++;
    for (size_t i = 0; i < count; i++) {
        if (got[i] == expected[i]) continue;
        printf("linked: %s: word %zu is %" PRIu64 ", not %" PRIu64 "\n", what, i, got[i], expected[i]);
        exit(1);
    }
}

static uint64_t handle(uint64_t serial, uint64_t slot, uint64_t unit) { return DUAL_LEDGER_HANDLE(unit, slot, serial); }

/* ---- a line of the text program: number, serial, speed, sum */

enum form { OPEN, TOLD, TRUSTED };

static void one_line(int is_trusted, const char *line, int number, uint64_t serial, int64_t speed, int64_t sum);

/* A call of one form; the node made or named is left in answer[0]. */
static uint8_t call(enum form form, const char *line) {
    char letter;
    long long f[6] = {0};
    uint64_t members[4], node, *a = answer;
    int n = sscanf(line, "%c %lld %lld %lld %lld %lld", &letter, f, f + 1, f + 2, f + 3, f + 4) - 1;
    uint8_t unit = (uint8_t)f[0], number = 0;
    memset(answer, 0, sizeof answer);
    switch (letter) {
    case 'D':
        if (form == OPEN) return dual_ledger_create_defect_node(bench, unit, (uint32_t)f[1], a);
        if (form == TOLD) return dual_ledger_told_create_defect_node(bench, unit, (uint32_t)f[1], a);
        return dual_ledger_trusted_create_defect_node(bench, unit, (uint32_t)f[1], a);
    case 'B':
        for (int i = 1; i < n; i++) members[i - 1] = handle((uint64_t)f[i], (uint64_t)f[i] - 1, unit);
        if (form == OPEN) return dual_ledger_create_blossom(bench, unit, members, (size_t)(n - 1), NULL, 0, a);
        if (form == TOLD) return dual_ledger_told_create_blossom(bench, unit, members, (size_t)(n - 1), NULL, 0, a);
        return dual_ledger_trusted_create_blossom(bench, unit, members, (size_t)(n - 1), NULL, 0, a);
    case 'E':
        node = handle((uint64_t)f[1], (uint64_t)f[1] - 1, unit);
        if (form == OPEN) return dual_ledger_expand_blossom(bench, unit, node, a);
        if (form == TOLD) return dual_ledger_told_expand_blossom(bench, unit, node, a);
        number = dual_ledger_trusted_expand_blossom(bench, unit, node);
        if (number == 0) answer[0] = node;
        return number;
    case 'S':
        node = handle((uint64_t)f[1], (uint64_t)f[1] - 1, unit);
        if (form == OPEN) return dual_ledger_set_grow_state(bench, unit, node, (int8_t)f[2], a);
        if (form == TOLD) return dual_ledger_told_set_grow_state(bench, unit, node, (int8_t)f[2], a);
        number = dual_ledger_trusted_set_grow_state(bench, unit, node, (int8_t)f[2]);
        if (number == 0) answer[0] = node;
        return number;
    case 'G':
        if (form == OPEN) return dual_ledger_grow(bench, unit, f[1], a);
        if (form == TOLD) return dual_ledger_told_grow(bench, unit, f[1], a);
        return dual_ledger_trusted_grow(bench, unit, f[1]);
    case 'F':
        if (form == OPEN) return dual_ledger_fuse(bench, unit, (uint8_t)f[1], (uint8_t)f[2]);
        return dual_ledger_trusted_fuse(bench, unit, (uint8_t)f[1], (uint8_t)f[2]);
    case 'C':
        if (form == OPEN) return dual_ledger_clear(bench, unit);
        return dual_ledger_trusted_clear(bench, unit);
    default:
        if (form == OPEN) number = dual_ledger_sanity_check(bench, unit, a, &node);
        else number = dual_ledger_trusted_sanity_check(bench, unit, a, &node);
        answer[0] *= 512; /* shown where a serial is */
        return number;
    }
}

struct step {
    const char *line;
    int number, serial, speed, sum;
};

static void play(const char *name, enum form form, const struct step *steps, size_t count) {
    char what[80];
    same("set-up", set_up(bench, 1), 0);
    for (size_t i = 0; i < count; i++) {
        int64_t speed = 0, sum = 0;
        uint8_t unit = (uint8_t)atoi(steps[i].line + 2);
        snprintf(what, sizeof what, "%s, '%s' (form %d)", name, steps[i].line, form);
        same(what, call(form, steps[i].line), steps[i].number);
        same(what, (int64_t)(answer[0] / 512), steps[i].serial);
        dual_ledger_sum_grow_speed(bench, unit, &speed);
        dual_ledger_sum_dual_variables(bench, unit, &sum);
        same(what, speed, steps[i].speed);
        same(what, sum, steps[i].sum);
        same(what, dual_ledger_is_sound(bench), 1);
    }
}

/* P1 and P2: two halves grown apart, fused, grown together; a half then takes no call. */
static void halves(enum form form) {
    static const struct step steps[] = {{"D 0 3", 0, 1, 1, 0}, {"D 1 7", 0, 2, 1, 0},   {"G 0 4", 0, 0, 1, 4},           {"G 1 6", 0, 0, 1, 6},
                                        {"F 2 0 1", 0, 0, 2, 10}, {"G 2 5", 0, 0, 2, 20}, {"D 0 5", DUAL_LEDGER_CHILD, 0, 0, 0}};
    int64_t value = 0;
    play("P1", form, steps, sizeof steps / sizeof *steps);
    same("P1's first value", dual_ledger_get_dual_variable(bench, handle(1, 0, 0), &value), 0);
    same("P1's first value", value, 9);
    same("P1's second value", dual_ledger_trusted_get_dual_variable(bench, handle(2, 0, 1), &value), 0);
    same("P1's second value", value, 11);
}

/* P10, the whole case. */
static void whole_case(enum form form) {
    static const struct step steps[] = {{"D 0 3", 0, 1, 1, 0},    {"D 0 8", 0, 2, 2, 0},      {"D 0 9", 0, 3, 3, 0},     {"G 0 5", 0, 0, 3, 15},
                                        {"B 0 1 2 3", 0, 4, 1, 15}, {"G 0 2", 0, 0, 1, 17},     {"S 0 4 -1", 0, 4, -1, 17}, {"G 0 1", 0, 0, -1, 16},
                                        {"E 0 4", 0, 4, 3, 16},    {"K 0", 0, 5, 3, 16}};
    play("P10", form, steps, sizeof steps / sizeof *steps);
}

/* ---- notices */

static uint64_t expected[DUAL_LEDGER_ANSWER_WORDS];

/* Words that say nothing stay as they were. */
static void expect(uint64_t node, uint64_t count, uint64_t members) {
    memset(expected, 0xa5, sizeof expected);
    expected[0] = node, expected[1] = count, expected[2] = members;
}

static void notice(size_t i, uint64_t kind, uint64_t what) { expected[3 + 2 * i] = kind, expected[4 + 2 * i] = what; }

static void told(const char *what) {
    same_words(what, answer, expected, DUAL_LEDGER_ANSWER_WORDS);
    memset(answer, 0xa5, sizeof answer);
}

static void notices(void) {
    uint64_t a = handle(9, 0, 5), b = handle(10, 1, 5), q = handle(11, 2, 5);
    uint64_t members[2], touching[4];
    members[0] = b, members[1] = a;
    touching[0] = b, touching[1] = b, touching[2] = a, touching[3] = a;
    memset(answer, 0xa5, sizeof answer);
    same("set-up from 9", set_up(bench, 9), 0);
    same("add", dual_ledger_create_defect_node(bench, 5, 70, answer), 0);
    expect(a, 1, 0), notice(0, DUAL_LEDGER_DEFECT_ADDED, a), told("a defect's answer");
    same("add", dual_ledger_told_create_defect_node(bench, 5, 4000000000u, answer), 0);
    expect(b, 1, 0), notice(0, DUAL_LEDGER_DEFECT_ADDED, b), told("a second defect's answer");
    same("grow", dual_ledger_grow(bench, 5, 1099511627775, answer), 0);
    expect(0, 1, 0), notice(0, DUAL_LEDGER_GROWN, 1099511627775), told("a growth's answer");
    same("blossom", dual_ledger_create_blossom(bench, 5, members, 2, touching, 4, answer), 0);
    expect(q, 4, 2), notice(0, DUAL_LEDGER_STATE_STAY, b), notice(1, DUAL_LEDGER_STATE_STAY, a);
    notice(2, DUAL_LEDGER_SHRINK_PREPARED, 0), notice(3, DUAL_LEDGER_BLOSSOM_ADDED, q);
    expected[135] = b, expected[136] = a, told("a blossom's answer");
    same("shrink", dual_ledger_set_grow_state(bench, 5, q, -128, answer), 0);
    expect(q, 1, 0), notice(0, DUAL_LEDGER_STATE_SHRINK, q), told("a shrinking node's answer");
    same("stay", dual_ledger_told_set_grow_state(bench, 5, q, 0, answer), 0);
    expect(q, 1, 0), notice(0, DUAL_LEDGER_STATE_STAY, q), told("a staying node's answer");
    same("grow again", dual_ledger_set_grow_state(bench, 5, q, 127, answer), 0);
    expect(q, 1, 0), notice(0, DUAL_LEDGER_STATE_GROW, q), told("a growing node's answer");
    same("expand", dual_ledger_told_expand_blossom(bench, 5, q, answer), 0);
    expect(q, 3, 0), notice(0, DUAL_LEDGER_BLOSSOM_REMOVED, q), notice(1, DUAL_LEDGER_STATE_GROW, b), notice(2, DUAL_LEDGER_STATE_GROW, a);
    told("an expansion's answer");
}

/* A circle of 64, the largest, tells 66 notices. */
static void largest_circle(void) {
    uint64_t members[64], q = handle(65, 0, 2);
    same("set-up", set_up(bench, 1), 0);
    for (uint32_t i = 0; i < 64; i++) same("add", dual_ledger_trusted_create_defect_node(bench, (uint8_t)(i / 32), i, members + i), 0);
    same("fuse", dual_ledger_fuse(bench, 2, 0, 1), 0);
    memset(answer, 0xa5, sizeof answer);
    same("the largest circle", dual_ledger_create_blossom(bench, 2, members, 64, NULL, 0, answer), 0);
    expect(q, 66, 64);
    for (size_t i = 0; i < 64; i++) notice(i, DUAL_LEDGER_STATE_STAY, members[i]), expected[135 + i] = members[i];
    notice(64, DUAL_LEDGER_SHRINK_PREPARED, 0), notice(65, DUAL_LEDGER_BLOSSOM_ADDED, q), told("the largest circle's answer");
}

/* ---- reads and checks, in both forms */

typedef uint8_t by_unit(const uint64_t *, uint8_t, int64_t *);
typedef uint8_t by_node(const uint64_t *, uint64_t, uint64_t *);

static void read_weight(const char *what, by_unit *open, by_unit *trusted, uint8_t unit, int number, int64_t expected_value) {
    int64_t value = 77;
    same(what, open(bench, unit, &value), number), same(what, value, expected_value);
    value = 77;
    same(what, trusted(bench, unit, &value), number), same(what, value, expected_value);
}

static void read_node(uint8_t unit, uint32_t index, int number, uint64_t expected_node) {
    uint64_t node = 77;
    same("the node at an index", dual_ledger_get_node(bench, unit, index, &node), number), same("the node at an index", (int64_t)node, (int64_t)expected_node);
    node = 77;
    same("the node at an index", dual_ledger_trusted_get_node(bench, unit, index, &node), number);
    same("the node at an index", (int64_t)node, (int64_t)expected_node);
}

static void read_next(uint8_t unit, uint32_t index, int number, uint32_t expected_next, uint64_t expected_node) {
    uint64_t node = 77;
    uint32_t next = 77;
    same("the next present node", dual_ledger_next_present(bench, unit, index, &next, &node), number);
    same("the next present node", next, expected_next), same("the next present node", (int64_t)node, (int64_t)expected_node);
    node = 77, next = 77;
    same("the next present node", dual_ledger_trusted_next_present(bench, unit, index, &next, &node), number);
    same("the next present node", next, expected_next), same("the next present node", (int64_t)node, (int64_t)expected_node);
}

static void read_present(uint8_t unit, int number, uint64_t expected_count) {
    uint64_t count = 77;
    same("present", dual_ledger_present_count(bench, unit, &count), number), same("present", (int64_t)count, (int64_t)expected_count);
    count = 77;
    same("present", dual_ledger_trusted_present_count(bench, unit, &count), number), same("present", (int64_t)count, (int64_t)expected_count);
}

static void read_tree(uint64_t node, int number, uint64_t outer, uint64_t links, int second_number, uint64_t second) {
    uint64_t got = 77, way = 77;
    same("the outermost", dual_ledger_get_ancestor_blossom(bench, node, &got, &way), number);
    same("the outermost", (int64_t)got, (int64_t)outer), same("its links", (int64_t)way, (int64_t)links);
    got = way = 77;
    same("the outermost", dual_ledger_trusted_get_ancestor_blossom(bench, node, &got, &way), number);
    same("the outermost", (int64_t)got, (int64_t)outer), same("its links", (int64_t)way, (int64_t)links);
    same("the one below", dual_ledger_get_secondary_ancestor_blossom(bench, node, &got), second_number), same("the one below", (int64_t)got, (int64_t)second);
    got = 77;
    same("the one below", dual_ledger_trusted_get_secondary_ancestor_blossom(bench, node, &got), second_number);
    same("the one below", (int64_t)got, (int64_t)second);
}

static void read_inside(uint8_t unit, uint64_t node, int number, int64_t yes) {
    uint64_t inside = 77;
    same("belonging", dual_ledger_check_ptr_belonging(bench, unit, node, &inside), number), same("belonging", (int64_t)inside, yes);
    inside = 77;
    same("belonging", dual_ledger_trusted_check_ptr_belonging(bench, unit, node, &inside), number), same("belonging", (int64_t)inside, yes);
}

static void read_vertices(uint64_t node, size_t room, int number, uint64_t expected_count, const uint32_t *expected_out) {
    uint32_t out[5] = {1, 1, 1, 1, 1}, first = 77;
    uint64_t count = 77;
    same("vertices", dual_ledger_get_all_vertices(bench, node, out, room, &count), number), same("vertices", (int64_t)count, (int64_t)expected_count);
    for (size_t i = 0; i < 5; i++) same("a vertex", out[i], expected_out[i]), out[i] = 1;
    same("vertices", dual_ledger_trusted_get_all_vertices(bench, node, out, room, &count), number), same("vertices", (int64_t)count, (int64_t)expected_count);
    for (size_t i = 0; i < 5; i++) same("a vertex", out[i], expected_out[i]);
    number = number == DUAL_LEDGER_STALE ? number : 0;
    same("first vertex", dual_ledger_get_representative_vertex(bench, node, &first), number);
    if (number == 0 && expected_count) same("first vertex", first, expected_out[0]);
    same("first vertex", dual_ledger_trusted_get_representative_vertex(bench, node, &first), number);
}

static void check(uint8_t unit, int number, int verdict, int index) {
    uint64_t v = 77, i = 77;
    same("the check", dual_ledger_sanity_check(bench, unit, &v, &i), number), same("verdict", (int64_t)v, verdict), same("index", (int64_t)i, index);
    v = i = 77;
    same("the check", dual_ledger_trusted_sanity_check(bench, unit, &v, &i), number), same("verdict", (int64_t)v, verdict), same("index", (int64_t)i, index);
}

static void check_strictly(uint8_t unit, int number, int verdict, int index) {
    uint64_t v = 77, i = 77;
    same("the strict check", dual_ledger_strict_check(bench, unit, &v, &i), number), same("verdict", (int64_t)v, verdict), same("index", (int64_t)i, index);
    v = i = 77;
    same("the strict check", dual_ledger_trusted_strict_check(bench, unit, &v, &i), number);
    same("verdict", (int64_t)v, verdict), same("index", (int64_t)i, index);
}

/* "Under" means under: a nephew in the next member is not, a node two levels down is; and, written into the words, a member's own parent is not. */
static void under(void) {
    uint64_t node[7], circle[2], touching[4];
    same("set-up", set_up(bench, 1), 0);
    dual_ledger_trusted_create_defect_node(bench, 0, 1, node), dual_ledger_trusted_create_defect_node(bench, 0, 2, node + 1);
    dual_ledger_trusted_create_blossom(bench, 0, node, 1, NULL, 0, node + 2), dual_ledger_trusted_create_blossom(bench, 0, node + 1, 1, NULL, 0, node + 3);
    circle[0] = node[2], circle[1] = node[3];
    touching[0] = node[0], touching[1] = node[2], touching[2] = node[0], touching[3] = node[3];
    same("blossom", dual_ledger_trusted_create_blossom(bench, 0, circle, 2, touching, 4, node + 4), 0);
    check(0, 0, 0, 0), check_strictly(0, 0, 6, 3);
    same("expand", dual_ledger_trusted_expand_blossom(bench, 0, node[4]), 0);
    dual_ledger_trusted_create_blossom(bench, 0, node + 2, 1, NULL, 0, node + 5);
    circle[0] = node[5], touching[1] = node[5], touching[2] = node[1];
    same("blossom", dual_ledger_trusted_create_blossom(bench, 0, circle, 2, touching, 4, node + 6), 0);
    check(0, 0, 0, 0), check_strictly(0, 0, 0, 0);
    bench[128 + 12 * 5 + 7] = node[6]; /* the first touching node of the member in slot 5 */
    same("sound", dual_ledger_is_sound(bench), 1);
    check(0, 0, 0, 0), check_strictly(0, 0, 6, 5);
}

/* the picture in both forms: its bytes and none past them, or a refusal that leaves the buffer as it was */
static void picture(uint8_t unit, uint8_t abbreviated, size_t room, int number, const char *expected) {
    uint8_t out[1024];
    size_t length = strlen(expected);
    for (int form = 0; form < 2; form++) {
        uint64_t said = 77;
        memset(out, 7, sizeof out);
        same("the picture", (form ? dual_ledger_trusted_snapshot : dual_ledger_snapshot)(bench, unit, abbreviated, out, room, &said), number);
        same("its length", (int64_t)said, (int64_t)length), same("its bytes", memcmp(out, expected, length), 0);
        for (size_t i = length; i < sizeof out; i++) same("a byte past it", out[i], 7);
    }
}

/* two defects in a blossom that shrinks: every key, both choices of names, each refusal at its edge, and UNSOUND before SMALL */
static void pictures(void) {
    static const char brief[] = "{\"interface\":{\"s\":-1,\"d\":-4},\"dual_nodes\":[{\"o\":null,\"t\":null,\"s\":20,\"g\":\"stay\",\"u\":0,\"p\":2},"
                                "{\"o\":null,\"t\":null,\"s\":30,\"g\":\"stay\",\"u\":0,\"p\":2},"
                                "{\"o\":[1,0],\"t\":[[1,1],[0,0]],\"s\":null,\"g\":\"shrink\",\"u\":-1,\"p\":null}]}";
    static const char gone[] = "{\"interface\":{\"sum_grow_speed\":1,\"sum_dual_variables\":0},\"dual_nodes\":[{\"blossom\":null,\"touching_children\":null,"
                               "\"defect_vertex\":20,\"grow_state\":\"grow\",\"unit_growth\":1,\"parent_blossom\":null},null]}";
    uint64_t node[4];
    same("set-up", set_up(bench, 1), 0);
    picture(0, 1, 1024, 0, "{\"interface\":{\"s\":0,\"d\":0},\"dual_nodes\":[]}"), picture(8, 1, 1024, DUAL_LEDGER_UNIT, "");
    dual_ledger_trusted_create_defect_node(bench, 0, 20, node), dual_ledger_trusted_create_defect_node(bench, 0, 30, node + 1);
    dual_ledger_trusted_grow(bench, 0, 3), node[2] = node[0], node[0] = node[1], node[1] = node[2];
    same("blossom", dual_ledger_trusted_create_blossom(bench, 0, node, 2, NULL, 0, node + 3), 0);
    dual_ledger_trusted_set_grow_state(bench, 0, node[3], -1), dual_ledger_trusted_grow(bench, 0, 10);
    picture(0, 1, 1024, 0, brief), picture(0, 255, sizeof brief - 1, 0, brief), picture(0, 1, sizeof brief - 2, DUAL_LEDGER_SMALL, "");
    picture(0, 1, 0, DUAL_LEDGER_SMALL, "");
    same("expand", dual_ledger_trusted_expand_blossom(bench, 0, node[3]), 0); /* with value 3 - 10 still in the sum: verdict 5 */
    picture(0, 1, 1024, DUAL_LEDGER_UNSOUND, ""), picture(0, 1, 0, DUAL_LEDGER_UNSOUND, "");
    dual_ledger_trusted_fuse(bench, 2, 0, 1), picture(0, 1, 1024, DUAL_LEDGER_CHILD, "");
    same("set-up", set_up(bench, 1), 0), dual_ledger_trusted_create_defect_node(bench, 0, 20, node);
    same("blossom", dual_ledger_trusted_create_blossom(bench, 0, node, 1, NULL, 0, node + 3), 0);
    same("expand", dual_ledger_trusted_expand_blossom(bench, 0, node[3]), 0), picture(0, 0, 1024, 0, gone);
}

static void reads(void) {
    uint64_t node[4], count = 77;
    static const uint32_t two[5] = {30, 20, 1, 1, 1}, none[5] = {1, 1, 1, 1, 1};
    same("set-up", set_up(bench, 1), 0);
    dual_ledger_trusted_create_defect_node(bench, 0, 20, node), dual_ledger_trusted_create_defect_node(bench, 0, 30, node + 1);
    dual_ledger_trusted_create_defect_node(bench, 1, 40, node + 2), dual_ledger_trusted_grow(bench, 0, 3);
    count = node[0], node[0] = node[1], node[1] = count; /* the later one first */
    same("blossom", dual_ledger_trusted_create_blossom(bench, 0, node, 2, NULL, 0, node + 3), 0);
    dual_ledger_trusted_set_grow_state(bench, 0, node[3], -1), dual_ledger_trusted_grow(bench, 0, 10);
    read_weight("sum", dual_ledger_sum_dual_variables, dual_ledger_trusted_sum_dual_variables, 0, 0, -4);
    read_weight("speed", dual_ledger_sum_grow_speed, dual_ledger_trusted_sum_grow_speed, 0, 0, -1);
    read_weight("sum", dual_ledger_sum_dual_variables, dual_ledger_trusted_sum_dual_variables, 8, DUAL_LEDGER_UNIT, 0);
    same("count", dual_ledger_nodes_count(bench, 0, &count), 0), same("count", (int64_t)count, 3), count = 77;
    same("count", dual_ledger_trusted_nodes_count(bench, 0, &count), 0), same("count", (int64_t)count, 3);
    read_node(0, 2, 0, node[3]), read_node(0, 3, DUAL_LEDGER_RANGE, 0);
    read_present(0, 0, 3), read_present(8, DUAL_LEDGER_UNIT, 0), read_next(0, 2, 0, 2, node[3]), read_next(0, 3, DUAL_LEDGER_RANGE, 0, 0);
    read_tree(node[0], 0, node[3], 1, 0, node[0]), read_tree(node[3], 0, node[3], 0, DUAL_LEDGER_TOP, 0);
    read_tree(DUAL_LEDGER_NO_NODE, DUAL_LEDGER_STALE, 0, 0, DUAL_LEDGER_STALE, 0);
    read_inside(0, node[1], 0, 1), read_inside(0, node[2], 0, 0), read_inside(9, node[1], DUAL_LEDGER_UNIT, 0);
    read_vertices(node[3], 5, 0, 2, two), read_vertices(node[3], 1, DUAL_LEDGER_SMALL, 0, none);
    read_vertices(node[3] + 1, 5, DUAL_LEDGER_STALE, 0, none);
    check(0, 0, 0, 0), check_strictly(0, 0, 0, 0), check(7, 0, 0, 0), check(200, DUAL_LEDGER_UNIT, 0, 0);
    same("expand", dual_ledger_trusted_expand_blossom(bench, 0, node[3]), 0), read_node(0, 2, 0, DUAL_LEDGER_NO_NODE);
    read_present(0, 0, 2), read_next(0, 0, 0, 0, node[1]), read_next(0, 1, 0, 1, node[0]), read_next(0, 2, 0, 0, DUAL_LEDGER_NO_NODE);
    check(0, 0, 5, 0), check_strictly(0, 0, 5, 0);
}

/* ---- marked interfaces: those that fill emptied slots, and floored ones */

static void read_filling(uint8_t unit, int number, int64_t yes) {
    uint64_t got = 77;
    same("filling", dual_ledger_is_filling(bench, unit, &got), number), same("filling", (int64_t)got, yes);
    got = 77;
    same("filling", dual_ledger_trusted_is_filling(bench, unit, &got), number), same("filling", (int64_t)got, yes);
}

/* Marks by one form; refused, every word is as it was. */
static void mark_filling(enum form form, uint8_t unit, int number) {
    memcpy(kept, bench, sizeof bench);
    same("mark", form == OPEN ? dual_ledger_mark_filling(bench, unit) : dual_ledger_trusted_mark_filling(bench, unit), number);
    if (number == 0) kept[16 * unit + 9] |= 1;
    same_words("mark", bench, kept, DUAL_LEDGER_WORDS), same("sound", dual_ledger_is_sound(bench), 1);
}

static uint64_t make(enum form form, uint8_t unit, uint64_t member, int number) {
    uint8_t got;
    if (form == OPEN) got = member ? dual_ledger_create_blossom(bench, unit, &member, 1, NULL, 0, answer) : dual_ledger_create_defect_node(bench, unit, 1, answer);
    else if (form == TOLD) got = member ? dual_ledger_told_create_blossom(bench, unit, &member, 1, NULL, 0, answer) : dual_ledger_told_create_defect_node(bench, unit, 1, answer);
    else got = member ? dual_ledger_trusted_create_blossom(bench, unit, &member, 1, NULL, 0, answer) : dual_ledger_trusted_create_defect_node(bench, unit, 1, answer);
    same("a node made", got, number);
    return answer[0];
}

static void expand(enum form form, uint8_t unit, uint64_t node) {
    if (form == OPEN) same("expand", dual_ledger_expand_blossom(bench, unit, node, answer), 0);
    else if (form == TOLD) same("expand", dual_ledger_told_expand_blossom(bench, unit, node, answer), 0);
    else same("expand", dual_ledger_trusted_expand_blossom(bench, unit, node), 0);
}

/* A slot that is filled again and again, FULL at 64 present, what the clear ends; marks that come late; a tree of both kinds. */
static void filling(enum form form) {
    uint64_t a, b, node;
    int64_t value = 77;
    same("set-up", set_up(bench, 1), 0);
    read_filling(0, 0, 0), mark_filling(form, 0, 0), mark_filling(form, 0, 0), read_filling(0, 0, 1), read_filling(1, 0, 0);
    mark_filling(form, 8, DUAL_LEDGER_UNIT), mark_filling(form, 255, DUAL_LEDGER_UNIT), read_filling(8, DUAL_LEDGER_UNIT, 0);
    a = make(form, 0, 0, 0), mark_filling(form, 0, DUAL_LEDGER_MARK);
    for (uint64_t i = 0; i < 300; i++) {
        node = make(form, 0, a, 0), same("its handle", (int64_t)node, (int64_t)handle(2 + i, 1, 0)), expand(form, 0, node);
        same("an old handle", dual_ledger_get_dual_variable(bench, node, &value), DUAL_LEDGER_STALE);
    }
    b = make(form, 0, 0, 0), same("the lowest", (int64_t)DUAL_LEDGER_HANDLE_SLOT(b), 1);
    for (uint64_t i = 2; i < 64; i++) same("the next", (int64_t)DUAL_LEDGER_HANDLE_SLOT(make(form, 0, 0, 0)), (int64_t)i);
    make(form, 0, 0, DUAL_LEDGER_FULL), make(form, 0, a, DUAL_LEDGER_FULL), read_present(0, 0, 64);
    same("clear", form == OPEN ? dual_ledger_clear(bench, 0) : dual_ledger_trusted_clear(bench, 0), 0), read_filling(0, 0, 0);
    /* the left half fills, the right does not, the parent does, being marked before its fuse; each by itself */
    mark_filling(form, 0, 0), mark_filling(form, 2, 0), a = make(form, 0, 0, 0), b = make(form, 1, 0, 0);
    node = make(form, 1, b, 0), expand(form, 1, node), same("grow", dual_ledger_trusted_grow(bench, 3, 5), 0), mark_filling(form, 3, 0);
    same("unmarked", (int64_t)DUAL_LEDGER_HANDLE_SLOT(make(form, 1, 0, 0)), 2), mark_filling(form, 1, DUAL_LEDGER_MARK);
    same("fuse", form == OPEN ? dual_ledger_fuse(bench, 2, 0, 1) : dual_ledger_trusted_fuse(bench, 2, 0, 1), 0);
    mark_filling(form, 0, DUAL_LEDGER_CHILD), mark_filling(form, 2, DUAL_LEDGER_MARK), read_filling(0, DUAL_LEDGER_CHILD, 0), read_filling(2, 0, 1);
    node = make(form, 2, a, 0), make(form, 2, 0, 0), expand(form, 2, node);
    same("the parent's lowest", (int64_t)DUAL_LEDGER_HANDLE_SLOT(make(form, 2, b, 0)), 0), read_node(2, 4, 0, answer[0]);
    same("clear", form == OPEN ? dual_ledger_clear(bench, 2) : dual_ledger_trusted_clear(bench, 2), 0);
    read_filling(0, 0, 0), read_filling(2, 0, 0), read_filling(3, 0, 1);
    /* bits that no mark has, and the engine in one interface alone */
    for (int bit = 2; bit < 64; bit++) {
        bench[16 * 5 + 9] = (uint64_t)1 << bit ^ (plain ? 4 : 0), same("a stray bit", dual_ledger_is_sound(bench), 0), memcpy(kept, bench, sizeof bench);
        same("a stray bit", dual_ledger_mark_filling(bench, 5), DUAL_LEDGER_BROKEN), same_words("a stray bit", bench, kept, DUAL_LEDGER_WORDS);
        node = 77, same("a stray bit", dual_ledger_is_filling(bench, 5, &node), DUAL_LEDGER_BROKEN), same("a stray bit", (int64_t)node, 0);
    }
}

static void read_floored(uint8_t unit, int number, int64_t yes) {
    uint64_t got = 77;
    same("floored", dual_ledger_is_floored(bench, unit, &got), number), same("floored", (int64_t)got, yes);
    got = 77;
    same("floored", dual_ledger_trusted_is_floored(bench, unit, &got), number), same("floored", (int64_t)got, yes);
}

/* Marks by one form; refused, every word is as it was. */
static void mark_floored(enum form form, uint8_t unit, int number) {
    memcpy(kept, bench, sizeof bench);
    same("mark", form == OPEN ? dual_ledger_mark_floored(bench, unit) : dual_ledger_trusted_mark_floored(bench, unit), number);
    if (number == 0) kept[16 * unit + 9] |= 2;
    same_words("mark", bench, kept, DUAL_LEDGER_WORDS), same("sound", dual_ledger_is_sound(bench), 1);
}

/* Grows by one form; refused, every word is as it was. */
static void grow(enum form form, uint8_t unit, int64_t length, int number) {
    uint8_t got;
    memcpy(kept, bench, sizeof bench);
    if (form == OPEN) got = dual_ledger_grow(bench, unit, length, answer);
    else if (form == TOLD) got = dual_ledger_told_grow(bench, unit, length, answer);
    else got = dual_ledger_trusted_grow(bench, unit, length);
    same("a growth", got, number), same("sound", dual_ledger_is_sound(bench), 1);
    if (number) same_words("a growth refused", bench, kept, DUAL_LEDGER_WORDS);
}

static void fuse(enum form form, uint8_t parent, uint8_t left, uint8_t right, int number) {
    memcpy(kept, bench, sizeof bench);
    same("a fuse", form == OPEN ? dual_ledger_fuse(bench, parent, left, right) : dual_ledger_trusted_fuse(bench, parent, left, right), number);
    if (number) same_words("a fuse refused", bench, kept, DUAL_LEDGER_WORDS);
}

/* Down to zero and no further; LENGTH before BELOW; mixed halves; a parent as its halves are; late marks; by hand, a floor in one half only and a value of -1. */
static void floors(enum form form) {
    uint64_t a, b;
    int64_t value = 77;
    same("set-up", set_up(bench, 1), 0);
    read_floored(0, 0, 0), mark_floored(form, 0, 0), mark_floored(form, 0, 0), mark_filling(form, 0, 0), read_floored(0, 0, 1), read_floored(1, 0, 0);
    mark_floored(form, 8, DUAL_LEDGER_UNIT), read_floored(255, DUAL_LEDGER_UNIT, 0);
    a = make(form, 0, 0, 0), mark_floored(form, 0, DUAL_LEDGER_MARK), grow(form, 0, 5, 0);
    same("shrink", dual_ledger_trusted_set_grow_state(bench, 0, a, -1), 0);
    grow(form, 0, 6, DUAL_LEDGER_BELOW), grow(form, 0, ((int64_t)1 << 40) - 5, DUAL_LEDGER_BELOW), grow(form, 0, ((int64_t)1 << 40) - 4, DUAL_LEDGER_LENGTH);
    grow(form, 0, -1, DUAL_LEDGER_LENGTH), grow(form, 0, INT64_MAX, DUAL_LEDGER_LENGTH), grow(form, 0, 5, 0), grow(form, 0, 1, DUAL_LEDGER_BELOW), grow(form, 0, 0, 0);
    same("at the floor", dual_ledger_get_dual_variable(bench, a, &value), 0), same("at the floor", value, 0);
    b = make(form, 1, 0, 0), grow(form, 1, 4, 0), same("shrink", dual_ledger_trusted_set_grow_state(bench, 1, b, -1), 0), grow(form, 1, 9, 0);
    same("below zero", dual_ledger_get_dual_variable(bench, b, &value), 0), same("below zero", value, -5);
    fuse(form, 2, 0, 1, DUAL_LEDGER_MARK), fuse(form, 2, 1, 0, DUAL_LEDGER_MARK), fuse(form, 1, 0, 1, DUAL_LEDGER_PAIR);
    mark_floored(form, 3, 0), b = make(form, 3, 0, 0), grow(form, 3, 2, 0), same("shrink", dual_ledger_trusted_set_grow_state(bench, 3, b, -1), 0);
    same("grow again", dual_ledger_trusted_set_grow_state(bench, 0, a, 1), 0), fuse(form, 4, 3, 0, 0), read_floored(4, 0, 1), read_floored(3, DUAL_LEDGER_CHILD, 0);
    mark_floored(form, 3, DUAL_LEDGER_CHILD), mark_floored(form, 4, DUAL_LEDGER_MARK);
    grow(form, 4, 3, DUAL_LEDGER_BELOW), grow(form, 4, 2, 0), grow(form, 4, 1, DUAL_LEDGER_BELOW);
    const uint64_t engine = plain ? 4 : 0;
    bench[16 * 3 + 9] = engine, same("a floor in one half only", dual_ledger_is_sound(bench), 0);
    bench[16 * 3 + 9] = engine + 2, bench[16 * 4 + 9] = engine, same("a floor in the halves only", dual_ledger_is_sound(bench), 0);
    bench[16 * 4 + 9] = engine + 2, same("all three", dual_ledger_is_sound(bench), 1);
    bench[128 + 12 * 64 * 3 + 9]--, same("a value of -1 above a floor", dual_ledger_is_sound(bench), 0);
    bench[16 * 0 + 9] = engine + 1, bench[16 * 3 + 9] = bench[16 * 4 + 9] = engine, same("the same without floors", dual_ledger_is_sound(bench), 1);
    /* a floored parent over halves that are not */
    same("set-up", set_up(bench, 1), 0), mark_floored(form, 2, 0), mark_filling(form, 2, 0), fuse(form, 2, 0, 1, 0);
    read_floored(2, 0, 0), read_filling(2, 0, 1);
    mark_floored(form, 5, 0), mark_floored(form, 6, 0), fuse(form, 7, 5, 6, 0), read_floored(7, 0, 1);
    same("clear", form == OPEN ? dual_ledger_clear(bench, 7) : dual_ledger_trusted_clear(bench, 7), 0), read_floored(5, 0, 0), read_floored(7, 0, 0);
    /* a line and a chunk pass it on */
    mark_floored(form, 5, 0), one_line(form != OPEN, "D 5 3", 0, 1, 1, 0), one_line(form != OPEN, "S 5 1 -1", 0, 1, -1, 0);
    one_line(form != OPEN, "G 5 1", DUAL_LEDGER_BELOW, 0, -1, 0), one_line(form != OPEN, "G 5 0", 0, 0, -1, 0), one_line(form != OPEN, "F 7 5 6", DUAL_LEDGER_MARK, 0, 0, 0);
}

/* ---- text records: lines, chunks cut anywhere, the end */

static const char record[] = "D 0 3\nG 0 5\nB 0 1\nS 0 2 -1\nG 0 1\nE 0 1\nK 0\n\nC 0\nS 0 2 1";
static const char replies[] = "0 1 1 0\n0 0 1 5\n0 2 1 5\n0 2 -1 5\n0 0 -1 4\n10 0 -1 4\n0 0 -1 4\n1 0 0 0\n0 0 0 0\n1 0 0 0\n";
static uint16_t hints[DUAL_LEDGER_HINTS];

static void one_line(int is_trusted, const char *line, int number, uint64_t serial, int64_t speed, int64_t sum) {
    const uint8_t *bytes = (const uint8_t *)line;
    uint64_t k = 77;
    int64_t v = 77, w = 77;
    size_t n = strlen(line);
    uint8_t got = is_trusted ? dual_ledger_trusted_text_line(bench, bytes, n, hints, &k, &v, &w) : dual_ledger_text_line(bench, bytes, n, hints, &k, &v, &w);
    same(line, got, number), same(line, (int64_t)k, (int64_t)serial), same(line, v, speed), same(line, w, sum);
}

static void text_lines(int is_trusted) {
    same("set-up", set_up(bench, 1), 0);
    one_line(is_trusted, "D 0 3", 0, 1, 1, 0);
    one_line(is_trusted, "G 0 5", 0, 0, 1, 5);
    one_line(is_trusted, "S 0 1 -1", 0, 1, -1, 5);
    one_line(is_trusted, "G 0 7", 0, 0, -1, -2);
    one_line(is_trusted, "E 0 9", DUAL_LEDGER_STALE, 0, -1, -2);
    one_line(is_trusted, "E 0 9 ", DUAL_LEDGER_LINE, 0, 0, 0);
    one_line(is_trusted, "", DUAL_LEDGER_LINE, 0, 0, 0);
}

/* Bytes in pieces of so many, their answers one after the other in `all`; how many bytes these are. The first line opens, or the bench is there already. */
enum feeding { ON_ANY, ON_SOUND, OPENED };

static size_t in_pieces(enum feeding form, const uint8_t *bytes, size_t length, size_t piece, uint8_t *all, size_t left) {
    static uint8_t line[DUAL_LEDGER_HELD], out[DUAL_LEDGER_ANSWER_BYTES * 64];
    size_t held = 0, wrote = 0, total = 0;
    for (size_t at = 0; at < length; at += piece) {
        size_t n = length - at < piece ? length - at : piece;
        uint8_t number;
        if (form == ON_ANY) number = dual_ledger_text_chunk(bench, bytes + at, n, line, &held, hints, out, sizeof out, &wrote);
        else if (form == ON_SOUND || total) number = dual_ledger_trusted_text_chunk(bench, bytes + at, n, line, &held, hints, out, sizeof out, &wrote);
        else number = dual_ledger_text_opening(bench, bytes + at, n, line, &held, hints, out, sizeof out, &wrote);
        same("a piece", number, 0);
        memcpy(all + total, out, wrote), total += wrote;
    }
    same("what is held", (int64_t)held, (int64_t)left);
    same("the end", dual_ledger_text_end(held, out, DUAL_LEDGER_ANSWER_BYTES, &wrote), 0);
    memcpy(all + total, out, wrote);
    return total + wrote;
}

/* The record in pieces of so many bytes. */
static void text_chunks(int is_trusted, size_t piece) {
    static uint8_t all[1024];
    same("set-up", set_up(bench, 1), 0);
    size_t total = in_pieces(is_trusted ? ON_SOUND : ON_ANY, (const uint8_t *)record, strlen(record), piece, all, 7);
    same("answers", (int64_t)total, (int64_t)strlen(replies)), same("answers", memcmp(all, replies, total), 0);
}

/* The record behind a first line, in pieces of so many bytes, from words that hold nothing: its answer, and the record's. */
static void text_openings(const char *first, const char *answer, size_t piece) {
    static uint8_t all[1024], bytes[1024];
    size_t before = strlen(first), length = before + strlen(record), front = strlen(answer);
    memcpy(bytes, first, before), memcpy(bytes + before, record, length - before), memset(bench, 255, sizeof bench);
    size_t total = in_pieces(OPENED, bytes, length, piece, all, 7);
    same("the first answer", memcmp(all, answer, front), 0);
    same("answers", (int64_t)(total - front), (int64_t)strlen(replies)), same("answers", memcmp(all + front, replies, strlen(replies)), 0);
}

/* Too little room, too much held: refused, and all is as it was. */
static void text_refusals(int is_trusted) {
    uint8_t chunk[2] = {0}, line[DUAL_LEDGER_HELD] = {0}, out[DUAL_LEDGER_ANSWER_BYTES * 2] = {0};
    size_t held = 3, wrote = 77;
    same("set-up", set_up(bench, 1), 0), memcpy(kept, bench, sizeof bench);
    for (int k = 0; k < 2; k++) {
        size_t room = k ? sizeof out : sizeof out - 1;
        held = k ? DUAL_LEDGER_HELD + 1 : 3;
        uint8_t number = is_trusted ? dual_ledger_trusted_text_chunk(bench, chunk, 2, line, &held, hints, out, room, &wrote)
                                    : dual_ledger_text_chunk(bench, chunk, 2, line, &held, hints, out, room, &wrote);
        same("a chunk refused", number, k ? DUAL_LEDGER_BROKEN : DUAL_LEDGER_SMALL);
        same("what is held", (int64_t)held, k ? DUAL_LEDGER_HELD + 1 : 3), same("written", (int64_t)wrote, 0);
        same_words("a chunk refused", bench, kept, DUAL_LEDGER_WORDS);
    }
    same("no room at the end", dual_ledger_text_end(1, out, DUAL_LEDGER_ANSWER_BYTES - 1, &wrote), DUAL_LEDGER_SMALL);
    bench[3]++;
    held = 0;
    same("broken: chunk", dual_ledger_text_chunk(bench, chunk, 1, line, &held, hints, out, sizeof out, &wrote), DUAL_LEDGER_BROKEN);
    one_line(0, "D 0 3", DUAL_LEDGER_BROKEN, 0, 0, 0);
}

static void text(void) {
    for (int is_trusted = 0; is_trusted < 2; is_trusted++) {
        text_lines(is_trusted), text_refusals(is_trusted);
        for (size_t piece = 1; piece <= 64; piece++) text_chunks(is_trusted, piece);
    }
    for (size_t piece = 1; piece <= 64; piece++) {
        text_openings("", "", piece), text_openings("M 1\n", "0 0 0 0\n", piece), text_openings("M 0\n", "0 0 0 0\n", piece);
        text_openings("M 2\nM 1\n", "1 0 0 0\n1 0 0 0\n", piece), text_openings("\nM 1\n", "1 0 0 0\n1 0 0 0\n", piece);
    }
}

/* ---- the header's names */

static void names(void) {
    uint64_t node = DUAL_LEDGER_HANDLE(5, 63, 4294967295u);
    same("a handle's parts", DUAL_LEDGER_HANDLE_INTERFACE(node), 5), same("a handle's parts", DUAL_LEDGER_HANDLE_SLOT(node), 63);
    same("a handle's parts", DUAL_LEDGER_HANDLE_SERIAL(node), 4294967295u);
    same("the name of 8", strcmp(dual_ledger_refusal_name(DUAL_LEDGER_STALE), "STALE"), 0);
    same("the name of 21", strcmp(dual_ledger_refusal_name(DUAL_LEDGER_NOTHING), "NOTHING"), 0);
    same("the name of 24", strcmp(dual_ledger_refusal_name(DUAL_LEDGER_UNSOUND), "UNSOUND"), 0);
    same("the name of 25", strcmp(dual_ledger_refusal_name(DUAL_LEDGER_BELOW), "BELOW"), 0);
    same("the name of 26", strcmp(dual_ledger_refusal_name(DUAL_LEDGER_MARK), "MARK"), 0);
    same("the name of 22", strcmp(dual_ledger_refusal_name(DUAL_LEDGER_SELF), "SELF"), 0);
    same("the name of 23", strcmp(dual_ledger_refusal_name(DUAL_LEDGER_FILE), "FILE"), 0);
    same("the name of 27", strcmp(dual_ledger_refusal_name(DUAL_LEDGER_STUCK), "STUCK"), 0);
    same("the name of 28", strcmp(dual_ledger_refusal_name(DUAL_LEDGER_SHORT), "SHORT"), 0);
    same("the name of 29", dual_ledger_refusal_name(29) == NULL, 1), same("the name of 0", strcmp(dual_ledger_refusal_name(0), "ACCEPTED"), 0);
}

/* ---- refusals: the number, no value, and every word as it was */

static void refused(const char *what, uint8_t got, int number) {
    same(what, got, number);
    same_words(what, bench, kept, DUAL_LEDGER_WORDS);
    expect(0, 0, 0), told(what);
}

static void refusals(void) {
    uint64_t node[3], far, q;
    same("set-up from 0", set_up(bench, 0), DUAL_LEDGER_WORN), same("set-up from 0", (int64_t)bench[0], 1);
    for (uint32_t i = 0; i < 3; i++) dual_ledger_trusted_create_defect_node(bench, 0, i, node + i);
    dual_ledger_trusted_create_defect_node(bench, 3, 9, &q), dual_ledger_trusted_create_defect_node(bench, 1, 9, &far);
    dual_ledger_trusted_create_blossom(bench, 0, node, 2, NULL, 0, &q);
    memcpy(kept, bench, sizeof bench), memset(answer, 0xa5, sizeof answer);
    refused("interface 8", dual_ledger_create_defect_node(bench, 8, 1, answer), DUAL_LEDGER_UNIT);
    refused("told: interface 8", dual_ledger_told_create_defect_node(bench, 8, 1, answer), DUAL_LEDGER_UNIT);
    refused("growth below 0", dual_ledger_grow(bench, 0, -1, answer), DUAL_LEDGER_LENGTH);
    refused("the least growth", dual_ledger_grow(bench, 0, INT64_MIN, answer), DUAL_LEDGER_LENGTH);
    refused("no member", dual_ledger_create_blossom(bench, 0, NULL, 0, NULL, 0, answer), DUAL_LEDGER_CIRCLE);
    refused("two pairs for one member", dual_ledger_create_blossom(bench, 0, node + 2, 1, node, 4, answer), DUAL_LEDGER_TOUCH);
    refused("half a pair", dual_ledger_create_blossom(bench, 0, node + 2, 1, node + 2, 1, answer), DUAL_LEDGER_STALE);
    refused("a word that is no handle", dual_ledger_expand_blossom(bench, 0, UINT64_MAX, answer), DUAL_LEDGER_STALE);
    refused("another tree's node", dual_ledger_set_grow_state(bench, 0, far, 1, answer), DUAL_LEDGER_FOREIGN);
    refused("a defect expanded", dual_ledger_expand_blossom(bench, 0, node[2], answer), DUAL_LEDGER_KIND);
    refused("a member's state", dual_ledger_set_grow_state(bench, 0, node[0], 1, answer), DUAL_LEDGER_INSIDE);
    node[0] = node[1] = node[2];
    refused("a member twice", dual_ledger_create_blossom(bench, 0, node, 2, NULL, 0, answer), DUAL_LEDGER_TWICE);
    memset(answer, 0, 3 * sizeof *answer), refused("a half twice", dual_ledger_fuse(bench, 2, 1, 1), DUAL_LEDGER_PAIR);
    memset(answer, 0, 3 * sizeof *answer), refused("a used parent", dual_ledger_fuse(bench, 3, 0, 1), DUAL_LEDGER_USED);
    memset(answer, 0, 3 * sizeof *answer), refused("clear of interface 255", dual_ledger_clear(bench, 255), DUAL_LEDGER_UNIT);
}

/* Words that hold no sound bench: each public call and read says so and changes none. */
static void broken(void) {
    uint64_t node = handle(1, 0, 0), v, w;
    int64_t z;
    uint32_t vertex;
    bench[3]++;
    memcpy(kept, bench, sizeof bench);
    same("is sound", dual_ledger_is_sound(bench), 0);
    refused("broken: add", dual_ledger_create_defect_node(bench, 0, 1, answer), DUAL_LEDGER_BROKEN);
    refused("broken: blossom", dual_ledger_create_blossom(bench, 0, &node, 1, NULL, 0, answer), DUAL_LEDGER_BROKEN);
    refused("broken: expand", dual_ledger_expand_blossom(bench, 0, node, answer), DUAL_LEDGER_BROKEN);
    refused("broken: set state", dual_ledger_set_grow_state(bench, 0, node, 1, answer), DUAL_LEDGER_BROKEN);
    refused("broken: grow", dual_ledger_grow(bench, 0, 1, answer), DUAL_LEDGER_BROKEN);
    memset(answer, 0, 3 * sizeof *answer), refused("broken: fuse", dual_ledger_fuse(bench, 2, 0, 1), DUAL_LEDGER_BROKEN);
    memset(answer, 0, 3 * sizeof *answer), refused("broken: clear", dual_ledger_clear(bench, 0), DUAL_LEDGER_BROKEN);
    same("broken: sum", dual_ledger_sum_dual_variables(bench, 0, &z), DUAL_LEDGER_BROKEN), same("broken: sum", z, 0);
    same("broken: value", dual_ledger_get_dual_variable(bench, node, &z), DUAL_LEDGER_BROKEN), same("broken: value", z, 0);
    same("broken: node", dual_ledger_get_node(bench, 0, 0, &v), DUAL_LEDGER_BROKEN), same("broken: node", (int64_t)v, 0);
    same("broken: present", dual_ledger_present_count(bench, 0, &v), DUAL_LEDGER_BROKEN), same("broken: present", (int64_t)v, 0);
    same("broken: next", dual_ledger_next_present(bench, 0, 0, &vertex, &v), DUAL_LEDGER_BROKEN), same("broken: next", (int64_t)(v + vertex), 0);
    same("broken: outermost", dual_ledger_get_ancestor_blossom(bench, node, &v, &w), DUAL_LEDGER_BROKEN), same("broken: outermost", (int64_t)(v + w), 0);
    same("broken: vertex", dual_ledger_get_representative_vertex(bench, node, &vertex), DUAL_LEDGER_BROKEN), same("broken: vertex", vertex, 0);
    same("broken: check", dual_ledger_strict_check(bench, 0, &v, &w), DUAL_LEDGER_BROKEN), same("broken: check", (int64_t)(v + w), 0);
    same("broken: picture", dual_ledger_snapshot(bench, 0, 1, NULL, 0, &v), DUAL_LEDGER_BROKEN), same("broken: picture", (int64_t)v, 0);
}

/* ---- byte records */

/* a move: its number, its bytes and none past them */
static void moved(const char *what, int back, const void *from, size_t length, size_t room, int number, const void *expected, size_t size) {
    uint8_t out[256];
    size_t wrote = 77;
    memset(out, 7, sizeof out);
    same(what, (back ? dual_ledger_to_text : dual_ledger_to_records)(from, length, out, room, &wrote), number);
    same(what, (int64_t)wrote, (int64_t)size), same(what, memcmp(out, expected, size), 0);
    for (size_t i = size; i < sizeof out; i++) same("a byte past a move", out[i], 7);
}

static void counts(const char *what, const uint8_t *file, size_t length, int number, size_t count) {
    size_t said = 77;
    same(what, dual_ledger_records_count(file, length, &said), number), same(what, (int64_t)said, (int64_t)count);
}

/* a record by its number: its number of the table, its words and none past them */
static void numbered(const char *what, const uint8_t *file, size_t length, size_t at, size_t room, int number, const uint64_t *expected, size_t size) {
    uint64_t out[16];
    size_t wrote = 77;
    memset(out, 7, sizeof out);
    same(what, dual_ledger_records_get(file, length, at, out, room, &wrote), number), same(what, (int64_t)wrote, (int64_t)size);
    if (size) same(what, memcmp(out, expected, 8 * size), 0);
    for (size_t i = size; i < 16; i++) same("a word past a record", out[i] == 0x0707070707070707u, 1);
}

/* each letter's words; RANGE at the count; FILE where trailer, starts or the record do not fit, before SMALL; what is not looked at may be anything */
static void by_number(const uint8_t *whole) {
    static const uint64_t said[4][6] = {{'D', 0, 3}, {'B', 0, 1, 1, 1, 1}, {'S', 0, 1, UINT64_MAX}, {'G', 0, UINT64_MAX - 1}};
    static const size_t size[4] = {3, 6, 4, 3};
    static const uint8_t empty[16] = {0, 0, 0, 0, 0, 0, 0, 0, 0, 0, 0, 0, 'D', 'L', 'G', '2'};
    static const char rest[] = "E 7 4294967295\nF 2 0 1\nC 255\nK 7\n";
    static const uint64_t other[4][4] = {{'E', 7, 4294967295u}, {'F', 2, 0, 1}, {'C', 255}, {'K', 7}};
    static const size_t size_of_other[4] = {3, 4, 2, 2};
    uint8_t file[71];
    size_t n;
    for (size_t at = 0; at < 4; at++) {
        numbered("a record", whole, 71, at, 16, 0, said[at], size[at]), numbered("a record", whole, 71, at, size[at], 0, said[at], size[at]);
        numbered("a slice too short", whole, 71, at, size[at] - 1, DUAL_LEDGER_SMALL, NULL, 0);
    }
    same("the other letters", dual_ledger_to_records((const uint8_t *)rest, sizeof rest - 1, file, 71, &n), 0);
    for (size_t at = 0; at < 4; at++) numbered("another letter", file, n, at, 16, 0, other[at], size_of_other[at]);
    numbered("past the last", whole, 71, 4, 0, DUAL_LEDGER_RANGE, NULL, 0), numbered("far past", whole, 71, SIZE_MAX, 16, DUAL_LEDGER_RANGE, NULL, 0);
    numbered("of no records", empty, 16, 0, 0, DUAL_LEDGER_RANGE, NULL, 0), numbered("no bytes", NULL, 0, 0, 0, DUAL_LEDGER_FILE, NULL, 0);
    numbered("cut", whole, 70, 0, 16, DUAL_LEDGER_FILE, NULL, 0), numbered("cut", whole + 1, 70, 9, 0, DUAL_LEDGER_FILE, NULL, 0);
    for (size_t byte = 55; byte < 71; byte++) /* the trailer */
        memcpy(file, whole, 71), file[byte] ^= 1, numbered("a number of the trailer", file, 71, 0, 0, DUAL_LEDGER_FILE, NULL, 0);
    for (size_t at = 0; at < 4; at++) { /* a start: of the record and of the one before it, not of the others */
        memcpy(file, whole, 71), file[39 + 4 * at] ^= 1;
        for (size_t k = 0; k < 4; k++) {
            int looked = k == at || k + 1 == at;
            numbered("a start", file, 71, k, looked ? 0 : 16, looked ? DUAL_LEDGER_FILE : 0, said[k], looked ? 0 : size[k]);
        }
    }
    memcpy(file, whole, 71), file[28] = 2; /* a state that is none */
    numbered("a record that does not fit", file, 71, 2, 0, DUAL_LEDGER_FILE, NULL, 0), numbered("another than that", file, 71, 3, 16, 0, said[3], 3);
    memcpy(file, whole, 71), file[46] = 255; /* far past the end */
    numbered("a start past the list", file, 71, 1, 16, DUAL_LEDGER_FILE, NULL, 0);
}

/* the manual's example there and back; each refusal at its edge, FILE before SELF before SMALL */
static void records(void) {
    static const char text[] = "D 0 3\nB 0 1\nS 0 1 -1\nG 0 -2\n";
    static const uint8_t whole[71] = {'D', 0, 3, 0, 0, 0, 'B', 0, 1, 0, 1, 0, 0, 0, 1, 0, 0, 0, 1, 0, 0, 0, 'S', 0, 1, 0, 0, 0, 255,
                                      'G', 0, 254, 255, 255, 255, 255, 255, 255, 255, 0, 0, 0, 0, 6, 0, 0, 0, 22, 0, 0, 0, 29, 0, 0, 0,
                                      39, 0, 0, 0, 4, 0, 0, 0, 55, 0, 0, 0, 'D', 'L', 'G', '2'};
    static const uint8_t empty[16] = {0, 0, 0, 0, 0, 0, 0, 0, 0, 0, 0, 0, 'D', 'L', 'G', '2'};
    uint8_t file[71];
    size_t n = sizeof text - 1;
    moved("to records", 0, text, n, 256, 0, whole, 71), moved("to records", 0, text, n, 71, 0, whole, 71), moved("to records", 0, text, n, 70, DUAL_LEDGER_SMALL, "", 0);
    moved("to text", 1, whole, 71, 256, 0, text, n), moved("to text", 1, whole, 71, n, 0, text, n), moved("to text", 1, whole, 71, n - 1, DUAL_LEDGER_SMALL, "", 0);
    moved("no text", 0, NULL, 0, 16, 0, empty, 16), moved("no records", 1, empty, 16, 0, 0, "", 0);
    moved("a line without newline", 0, text, n - 1, 256, DUAL_LEDGER_FILE, "", 0), moved("a bad line", 0, "D 0\n", 4, 0, DUAL_LEDGER_FILE, "", 0);
    counts("a file", whole, 71, 0, 4), counts("no records", empty, 16, 0, 0), counts("no bytes", NULL, 0, DUAL_LEDGER_FILE, 0);
    counts("cut", whole, 70, DUAL_LEDGER_FILE, 0), counts("cut", whole + 1, 70, DUAL_LEDGER_FILE, 0);
    memcpy(file, whole, 71), file[14] = 2;
    counts("another's pair", file, 71, 0, 4), moved("another's pair", 1, file, 71, 0, DUAL_LEDGER_SELF, "", 0);
    file[28] = 2, counts("a state", file, 71, DUAL_LEDGER_FILE, 0), moved("FILE before SELF", 1, file, 71, 0, DUAL_LEDGER_FILE, "", 0);
    by_number(whole);
    for (size_t at = 39; at < 71; at++) /* the list and the trailer: no byte can be another */
        memcpy(file, whole, 71), file[at] ^= 1, counts("a number of the list or the trailer", file, 71, DUAL_LEDGER_FILE, 0);
}

/* ---- groups of obstacles */

static uint64_t group[DUAL_LEDGER_GROUP_WORDS], other[DUAL_LEDGER_GROUP_WORDS], before[DUAL_LEDGER_GROUP_WORDS];

static uint8_t add(uint64_t *to, uint64_t kind, uint64_t a, uint64_t b, uint64_t c, uint64_t d) {
    uint64_t obstacle[DUAL_LEDGER_OBSTACLE_WORDS];
    obstacle[0] = kind, obstacle[1] = a, obstacle[2] = b, obstacle[3] = c, obstacle[4] = d;
    return dual_ledger_group_add(bench, to, obstacle);
}

static void growth(const char *what, const uint64_t *of, int64_t length, uint64_t flag) {
    uint64_t first[5];
    first[0] = 1, first[1] = (uint64_t)length, first[2] = flag, first[3] = first[4] = 0;
    same_words(what, of, first, 5);
}

static void next(const char *what, uint64_t kind, uint64_t a, uint64_t b, uint64_t c, uint64_t d) {
    uint64_t obstacle[DUAL_LEDGER_OBSTACLE_WORDS], said[DUAL_LEDGER_OBSTACLE_WORDS];
    said[0] = kind, said[1] = a, said[2] = b, said[3] = c, said[4] = d;
    memcpy(before, group, sizeof group), memset(obstacle, 0xa5, sizeof obstacle);
    same(what, dual_ledger_group_peek(group, obstacle), 0), same_words(what, obstacle, said, DUAL_LEDGER_OBSTACLE_WORDS);
    same_words("a group that was peeked into", group, before, DUAL_LEDGER_GROUP_WORDS), memset(obstacle, 0xa5, sizeof obstacle);
    same(what, dual_ledger_group_pop(group, obstacle), 0), same_words(what, obstacle, said, DUAL_LEDGER_OBSTACLE_WORDS);
    same(what, dual_ledger_group_is_sound(group), 1);
}

/* P7 and P8: growths extended by growths. */
static void growths(void) {
    uint64_t yes = 77, asked = 77;
    int64_t length = 77;
    memset(group, 0, sizeof group), memset(other, 0, sizeof other);
    dual_ledger_empty_group(group), growth("the empty group", group, INT64_MAX, 0), dual_ledger_empty_group(other);
    same("the empty group", dual_ledger_group_is_empty(group, &yes), 0), same("is empty", (int64_t)yes, 1);
    same("the empty group", dual_ledger_group_is_active(group, &yes), 0), same("is active", (int64_t)yes, 0);
    same("its growth", dual_ledger_group_get_none_zero_growth(group, &asked, &length), DUAL_LEDGER_NOTHING);
    same("its growth", (int64_t)asked, 0), same("its growth", length, 0);
    same("add (5, yes)", add(group, DUAL_LEDGER_NON_ZERO_GROW, 5, 1, 0, 0), 0), growth("(5, yes)", group, 5, 1);
    same("add (5, no)", add(other, DUAL_LEDGER_NON_ZERO_GROW, 5, 0, 0, 0), 0), growth("(5, no)", other, 5, 0);
    same("P7", dual_ledger_group_extend(bench, group, other), 0), growth("P7", group, 5, 0);
    dual_ledger_empty_group(other), same("add (largest, yes)", add(other, DUAL_LEDGER_NON_ZERO_GROW, INT64_MAX, 1, 0, 0), 0);
    same("P8", dual_ledger_group_extend(bench, group, other), 0), growth("P8", group, 5, 0);
    same("a growth", dual_ledger_group_is_active(group, &yes), 0), same("is active", (int64_t)yes, 1);
    same("its growth", dual_ledger_group_get_none_zero_growth(group, &asked, &length), 0), same("its growth", (int64_t)asked, 1), same("its growth", length, 5);
    same("add (-7, no)", add(group, DUAL_LEDGER_NON_ZERO_GROW, (uint64_t)-7, 0, 0, 0), 0), growth("a growth below 0", group, -7, 0);
    same("its growth", dual_ledger_group_get_none_zero_growth(group, &asked, &length), 0), same("its growth", length, -7);
}

/* P9: two conflicts listed, two stops pending; each pop takes a stop along. */
static void conflicts(uint64_t n, uint64_t m) {
    uint64_t asked = 77;
    int64_t length = 77;
    dual_ledger_empty_group(other);
    same("c1", add(other, DUAL_LEDGER_CONFLICTING, n, n, m, m), 0), same("c2", add(other, DUAL_LEDGER_TOUCHING_VIRTUAL, n, n, 4000000000u, 1), 0);
    same("a stop", add(other, DUAL_LEDGER_VERTEX_SHRINK_STOP, m, 0, 0, 0), 0), same("a stop", add(other, DUAL_LEDGER_VERTEX_SHRINK_STOP_PAIR, n, m, m, 0), 0);
    same("listed", (int64_t)other[3], 2), same("pending", (int64_t)other[4], 2), same("the first stop's vertex", (int64_t)other[645], 4);
    same("a growth by conflicts", dual_ledger_group_extend(bench, group, other), 0), same("conflicts", (int64_t)group[0], 2);
    same("its growth", dual_ledger_group_get_none_zero_growth(group, &asked, &length), 0), same("its growth", (int64_t)asked, 0), same("its growth", length, 0);
    next("P9's first", DUAL_LEDGER_TOUCHING_VIRTUAL, n, n, 4000000000u, 1), next("P9's second", DUAL_LEDGER_CONFLICTING, n, n, m, m);
    next("P9's third", DUAL_LEDGER_NO_OBSTACLE, 0, 0, 0, 0), same("pending", (int64_t)group[4], 0);
}

static void unchanged(const char *what, uint8_t got, int number) {
    same(what, got, number), same_words(what, group, before, DUAL_LEDGER_GROUP_WORDS);
}

static void refused_groups(uint64_t n) {
    uint64_t obstacle[DUAL_LEDGER_OBSTACLE_WORDS], yes = 77;
    dual_ledger_empty_group(group), memcpy(before, group, sizeof group);
    unchanged("pop of a growth", dual_ledger_group_pop(group, obstacle), DUAL_LEDGER_KIND);
    unchanged("a node that is gone", add(group, DUAL_LEDGER_BLOSSOM_NEED_EXPAND, n + 512, 0, 0, 0), DUAL_LEDGER_STALE);
    unchanged("words that are no obstacle", add(group, 7, 0, 0, 0, 0), DUAL_LEDGER_BROKEN);
    memcpy(other, group, sizeof group), other[0] = 3;
    unchanged("words that are no group", dual_ledger_group_extend(bench, group, other), DUAL_LEDGER_BROKEN);
    same("is a sound group", dual_ledger_group_is_sound(group), 1), same("is a sound group", dual_ledger_group_is_sound(other), 0);
    same("empty, of no group", dual_ledger_group_is_empty(other, &yes), DUAL_LEDGER_BROKEN), same("empty, of no group", (int64_t)yes, 0);
    for (int i = 0; i < 128; i++) same("an obstacle", add(group, DUAL_LEDGER_BLOSSOM_NEED_EXPAND, n, 0, 0, 0), 0);
    memcpy(before, group, sizeof group);
    unchanged("the 129th", add(group, DUAL_LEDGER_BLOSSOM_NEED_EXPAND, n, 0, 0, 0), DUAL_LEDGER_ROOM);
}

/* Both pops side by side on the conflicts of P9, over words that held anything: the same obstacle each time; the sparing one takes a stop only when the list
 * is empty, and changes nothing but the list's count until then. */
static void sparing(uint64_t n, uint64_t m) {
    uint64_t said[4][DUAL_LEDGER_OBSTACLE_WORDS] = {{3, n, n, 4000000000u, 1}, {2, n, n, m, m}, {5, m, 0, 0, 0}, {6, n, m, m, 0}};
    uint64_t obstacle[DUAL_LEDGER_OBSTACLE_WORDS], none[DUAL_LEDGER_OBSTACLE_WORDS] = {0, 0, 0, 0, 0};
    memset(group, 0xa5, sizeof group), dual_ledger_empty_group(group);
    for (int i = 0; i < 4; i++) {
        const uint64_t *o = said[i < 2 ? 1 - i : i];
        same("an entry", add(group, o[0], o[1], o[2], o[3], o[4]), 0);
    }
    memcpy(other, group, sizeof group);
    for (int i = 0; i < 6; i++) {
        memcpy(before, group, sizeof group), memset(obstacle, 0xa5, sizeof obstacle);
        same("the sparing pop", dual_ledger_group_pop_sparing_stops(group, obstacle), 0);
        same_words("what it takes", obstacle, i < 4 ? said[i] : none, DUAL_LEDGER_OBSTACLE_WORDS);
        same("listed", (int64_t)group[3], i < 2 ? 1 - i : 0), same("pending", (int64_t)group[4], i < 2 ? 2 : i < 4 ? 3 - i : 0);
        same("its vertex", (int64_t)group[645], i < 2 ? 4 : 9);
        before[3] = group[3], before[4] = group[4];
        if (i == 2) memmove(before + 645, before + 651, 6 * sizeof *before);
        same_words("every other word", group, before, DUAL_LEDGER_GROUP_WORDS), same("a sound group", dual_ledger_group_is_sound(group), 1);
        same("the other pop", dual_ledger_group_pop(other, obstacle), 0);
        same_words("what it takes", obstacle, i < 2 ? said[i] : none, DUAL_LEDGER_OBSTACLE_WORDS);
        same("pending by the other", (int64_t)other[4], i < 2 ? 1 - i : 0);
    }
    dual_ledger_empty_group(group), memcpy(before, group, sizeof group), memset(obstacle, 0xa5, sizeof obstacle);
    same("the sparing pop of a growth", dual_ledger_group_pop_sparing_stops(group, obstacle), DUAL_LEDGER_KIND);
    same_words("of a growth", obstacle, none, DUAL_LEDGER_OBSTACLE_WORDS), same_words("a growth", group, before, DUAL_LEDGER_GROUP_WORDS);
    group[0] = before[0] = 3, memset(obstacle, 0xa5, sizeof obstacle);
    same("the sparing pop of no group", dual_ledger_group_pop_sparing_stops(group, obstacle), DUAL_LEDGER_BROKEN);
    same_words("of no group", obstacle, none, DUAL_LEDGER_OBSTACLE_WORDS), same_words("no group", group, before, DUAL_LEDGER_GROUP_WORDS);
}

/* The forms that test nothing, beside the others, from words that held anything: the same numbers, obstacles and words. */
static void trusted_groups(uint64_t n, uint64_t m) {
    uint64_t obstacles[6][DUAL_LEDGER_OBSTACLE_WORDS] = {{1, 5, 1, 0, 0}, {2, n, n, m, m}, {3, m, n, 7, 0}, {4, n, 0, 0, 0}, {5, n, 0, 0, 0}, {6, m, n, n, 0}};
    static uint64_t third[DUAL_LEDGER_GROUP_WORDS];
    uint64_t one[DUAL_LEDGER_OBSTACLE_WORDS], two[DUAL_LEDGER_OBSTACLE_WORDS], yes = 77, asked = 77, and = 77;
    int64_t length = 77, as_long = 77;
    memset(group, 0xa5, sizeof group), memset(third, 0x5a, sizeof third), dual_ledger_empty_group(group), dual_ledger_empty_group(third);
    memcpy(other, group, sizeof group), same("anything past the counts", dual_ledger_group_is_sound(group), 1);
    for (int i = 0; i < 6; i++) {
        same("add, both forms", dual_ledger_group_add(bench, group, obstacles[i]), dual_ledger_trusted_group_add(bench, other, obstacles[i]));
        same("is empty", dual_ledger_group_is_empty(group, &yes), dual_ledger_trusted_group_is_empty(other, &and)), same("is empty", (int64_t)yes, (int64_t)and);
        same("is active", dual_ledger_group_is_active(group, &yes), dual_ledger_trusted_group_is_active(other, &and)), same("is active", (int64_t)yes, (int64_t)and);
        same("growth", dual_ledger_group_get_none_zero_growth(group, &asked, &length), dual_ledger_trusted_group_get_none_zero_growth(other, &and, &as_long));
        same("growth", (int64_t)asked, (int64_t)and), same("growth", length, as_long);
        same("extend, both forms", dual_ledger_group_extend(bench, third, group), 0);
        same("extend, both forms", dual_ledger_group_extend(bench, group, third), dual_ledger_trusted_group_extend(bench, other, third));
        same_words("a group in both forms", group, other, DUAL_LEDGER_GROUP_WORDS);
    }
    memcpy(third, group, sizeof group), memcpy(before, group, sizeof group);
    for (int i = 0; i < 260; i++) {
        same("sparing, both forms", dual_ledger_group_pop_sparing_stops(third, one), dual_ledger_trusted_group_pop_sparing_stops(before, two));
        same_words("sparing", one, two, DUAL_LEDGER_OBSTACLE_WORDS), same_words("a group in both forms", third, before, DUAL_LEDGER_GROUP_WORDS);
    }
    for (int i = 0; i < 130; i++) {
        same("peek, both forms", dual_ledger_group_peek(group, one), dual_ledger_trusted_group_peek(other, two)), same_words("peek", one, two, DUAL_LEDGER_OBSTACLE_WORDS);
        same("pop, both forms", dual_ledger_group_pop(group, one), dual_ledger_trusted_group_pop(other, two)), same_words("pop", one, two, DUAL_LEDGER_OBSTACLE_WORDS);
        same_words("a group in both forms", group, other, DUAL_LEDGER_GROUP_WORDS);
    }
}

static void groups(void) {
    uint64_t n = 0, m = 0;
    same("set-up", set_up(bench, 1), 0);
    dual_ledger_trusted_create_defect_node(bench, 0, 9, &n), dual_ledger_trusted_create_defect_node(bench, 0, 4, &m);
    memcpy(kept, bench, sizeof bench);
    growths(), conflicts(n, m), sparing(n, m), trusted_groups(n, m), refused_groups(n);
    same_words("the bench that groups are of", bench, kept, DUAL_LEDGER_WORDS);
    bench[3]++, memcpy(before, group, sizeof group);
    unchanged("a group of a broken bench", dual_ledger_group_extend(bench, group, before), DUAL_LEDGER_BROKEN);
}

/* ---- growing against a recording */

enum { RECORDED = 6 };
static uint64_t recording[RECORDED * DUAL_LEDGER_GROUP_WORDS], lengths[RECORDED + 1], kept_lengths[RECORDED + 1];

/* A position of the recording: its first words, and none of the others 0. */
static void position(size_t at, uint64_t kind, int64_t length, uint64_t flag) {
    uint64_t *words = recording + at * DUAL_LEDGER_GROUP_WORDS;
    memset(words, 0x5a, DUAL_LEDGER_GROUP_WORDS * sizeof *words);
    words[0] = kind, words[1] = (uint64_t)length, words[2] = flag;
    if (kind == 2) words[3] = words[4] = 0;
}

/* One call over so many words of the recording, with so much room: accepted, the steps stand in the slice and the bench is that of one growth; refused, all stays. */
static void grown(int is_trusted, const char *what, uint8_t unit, int64_t length, size_t words, size_t room, int number, size_t count, const uint64_t *steps) {
    size_t taken = 77;
    memcpy(kept, bench, sizeof bench), memset(lengths, 0xa5, sizeof lengths), memset(kept_lengths, 0xa5, sizeof kept_lengths);
    same(what, (is_trusted ? dual_ledger_trusted_grow_recorded : dual_ledger_grow_recorded)(bench, unit, length, words ? recording : NULL, words, lengths, room, &taken), number);
    same(what, (int64_t)taken, (int64_t)count);
    for (size_t i = 0; i < count; i++) kept_lengths[i] = steps[i];
    same_words(what, lengths, kept_lengths, RECORDED + 1);
    if (number == 0) same(what, dual_ledger_trusted_grow(kept, unit, length), 0);
    same_words(what, bench, kept, DUAL_LEDGER_WORDS);
}

static void recorded(int is_trusted) {
    static const uint64_t steps[] = {4, 3, 2}, whole[] = {4, 3, 5}, three[] = {3}, five[] = {5};
    const size_t each = DUAL_LEDGER_GROUP_WORDS;
    uint64_t node;
    same("set-up", set_up(bench, 1), 0);
    same("a floor", dual_ledger_trusted_mark_floored(bench, 3), 0);
    for (uint8_t unit = 0; unit < 4; unit++) same("a node", dual_ledger_trusted_create_defect_node(bench, unit, unit, &node), 0);
    same("a fuse", dual_ledger_trusted_fuse(bench, 2, 0, 1), DUAL_LEDGER_USED), same("a fuse", dual_ledger_trusted_fuse(bench, 4, 0, 1), 0);
    position(0, 1, 4, 0), position(1, 1, 3, 1), position(2, 1, 5, 0), position(3, 2, 0, 0), position(4, 1, INT64_MAX, 1), position(5, 3, 1, 0);
    grown(is_trusted, "a recording", 4, 9, 6 * each, 6, 0, 3, steps);
    grown(is_trusted, "a recording's first groups", 4, 12, 3 * each, 3, 0, 3, whole);
    grown(is_trusted, "conflicts", 4, 13, 6 * each, 6, DUAL_LEDGER_STUCK, 0, NULL);
    grown(is_trusted, "no group left", 4, 13, 3 * each, 3, DUAL_LEDGER_SHORT, 0, NULL);
    grown(is_trusted, "a group cut short", 4, 13, 3 * each + 1, 4, DUAL_LEDGER_BROKEN, 0, NULL);
    grown(is_trusted, "a group cut short that is not reached", 4, 12, 3 * each + 1, 4, 0, 3, whole);
    grown(is_trusted, "no room for the group cut short", 4, 12, 3 * each + 1, 3, DUAL_LEDGER_SMALL, 0, NULL);
    grown(is_trusted, "no room", 4, 9, 6 * each, 5, DUAL_LEDGER_SMALL, 0, NULL);
    grown(is_trusted, "no room, and conflicts", 4, 13, 6 * each, 5, DUAL_LEDGER_STUCK, 0, NULL);
    grown(is_trusted, "length 0", 4, 0, 6 * each, 6, 0, 0, NULL);
    grown(is_trusted, "length 0, and no room", 4, 0, 6 * each, 5, DUAL_LEDGER_SMALL, 0, NULL);
    grown(is_trusted, "length 0, and no recording", 4, 0, 0, 0, 0, 0, NULL);
    grown(is_trusted, "no recording", 4, 1, 0, 0, DUAL_LEDGER_SHORT, 0, NULL);
    position(0, 3, 4, 0);
    grown(is_trusted, "interface 8", 8, -1, 6 * each, 0, DUAL_LEDGER_UNIT, 0, NULL);
    grown(is_trusted, "a half", 0, -1, 6 * each, 0, DUAL_LEDGER_CHILD, 0, NULL);
    grown(is_trusted, "a length below 0", 4, -1, 6 * each, 0, DUAL_LEDGER_LENGTH, 0, NULL);
    grown(is_trusted, "the least length", 4, INT64_MIN, 6 * each, 0, DUAL_LEDGER_LENGTH, 0, NULL);
    grown(is_trusted, "a group of no kind", 4, 1, 6 * each, 6, DUAL_LEDGER_BROKEN, 0, NULL);
    position(0, 1, 4, 2), grown(is_trusted, "a flag of 2", 4, 1, 6 * each, 6, DUAL_LEDGER_BROKEN, 0, NULL);
    position(0, 2, 0, 0), recording[3] = 129, grown(is_trusted, "conflicts that are not sound", 4, 1, 6 * each, 6, DUAL_LEDGER_BROKEN, 0, NULL);
    position(0, 1, 0, 0), grown(is_trusted, "a growth of 0", 4, 1, 6 * each, 6, DUAL_LEDGER_STUCK, 0, NULL);
    position(0, 1, -7, 0), grown(is_trusted, "a growth below 0", 4, 1, 6 * each, 6, DUAL_LEDGER_STUCK, 0, NULL);
    position(0, 1, INT64_MAX, 0), grown(is_trusted, "an empty group", 4, 1, 6 * each, 6, DUAL_LEDGER_NOTHING, 0, NULL);
    position(0, 1, INT64_MAX - 1, 0), grown(is_trusted, "a long growth", 4, 3, 6 * each, 6, 0, 1, three);
    grown(is_trusted, "a step past the progress", 4, (int64_t)1 << 40, 6 * each, 6, DUAL_LEDGER_LENGTH, 0, NULL);
    grown(is_trusted, "the longest length", 4, INT64_MAX, 6 * each, 6, DUAL_LEDGER_LENGTH, 0, NULL);
    position(0, 1, 5, 0), position(1, 2, 0, 0);
    grown(is_trusted, "conflicts before the progress", 4, (int64_t)1 << 40, 6 * each, 6, DUAL_LEDGER_STUCK, 0, NULL);
    grown(is_trusted, "a floored interface", 3, 5, 6 * each, 6, 0, 1, five);
    same("a node that shrinks", dual_ledger_trusted_set_grow_state(bench, 3, node, -1), 0);
    grown(is_trusted, "conflicts before the floor", 3, 6, 6 * each, 6, DUAL_LEDGER_STUCK, 0, NULL);
    grown(is_trusted, "no group left before the floor", 3, 6, each, 1, DUAL_LEDGER_SHORT, 0, NULL);
    position(0, 1, 3, 0), position(1, 1, 3, 0);
    grown(is_trusted, "a step below the floor", 3, 6, 2 * each, 2, DUAL_LEDGER_BELOW, 0, NULL);
    grown(is_trusted, "a step to the floor", 3, 3, each, 1, 0, 1, three);
    if (is_trusted) return;
    bench[0] = 0, grown(0, "a broken bench", 8, -1, 6 * each, 0, DUAL_LEDGER_BROKEN, 0, NULL);
}

static void in_one_engine(void) {
    for (int form = OPEN; form <= TRUSTED; form++) halves((enum form)form), whole_case((enum form)form);
    notices();
    largest_circle();
    reads();
    under();
    pictures();
    records();
    for (int form = OPEN; form <= TRUSTED; form++) filling((enum form)form), floors((enum form)form);
    text();
    names();
    refusals();
    broken();
    groups();
    recorded(0), recorded(1);
}

/* In the plain engine the stored number of a node is its value and 2^60: after each growth it is L more, as it was, or L less, in a fused half as in its top. */
static void stored(void) {
    uint64_t a = 0, b = 0, c = 0, *node = answer;
    same("set-up, plain", dual_ledger_set_up_plain(bench, 1), 0), same("the mark", (int64_t)bench[9], 4), same("the last mark", (int64_t)bench[121], 4);
    dual_ledger_create_defect_node(bench, 0, 3, node), a = node[0];
    dual_ledger_create_defect_node(bench, 1, 4, node), b = node[0];
    dual_ledger_create_defect_node(bench, 1, 5, node), c = node[0];
    dual_ledger_grow(bench, 0, 5, node), dual_ledger_grow(bench, 1, 9, node);
    dual_ledger_fuse(bench, 2, 0, 1);
    dual_ledger_set_grow_state(bench, 2, b, -1, node), dual_ledger_set_grow_state(bench, 2, c, 0, node);
    same("grow, plain", dual_ledger_grow(bench, 2, 4, node), 0);
    same("a growing node", (int64_t)(bench[128 + 12 * 0 + 9] - (1ull << 60)), 9);
    same("a shrinking node", (int64_t)(bench[128 + 12 * 64 + 9] - (1ull << 60)), 5);
    same("a node that stays", (int64_t)(bench[128 + 12 * 65 + 9] - (1ull << 60)), 9);
    dual_ledger_clear(bench, 2), same("after a clear", (int64_t)bench[16 * 2 + 9], 4);
    same("sound", dual_ledger_is_sound(bench), 1), bench[16 * 3 + 9] = 0, same("one interface lazy", dual_ledger_is_sound(bench), 0);
    (void)a;
}

int main(void) {
    for (plain = 0; plain < 2; plain++) in_one_engine();
    stored();
    printf("linked: all %ld comparisons agree\n", compared);
    return 0;
}
