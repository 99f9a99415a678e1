/* The archive's functions with one of them spoiled, by the number in SPOILED: what the comparison must notice. `real_NAME` is the archive's own. */
#include <stdlib.h>
#include <string.h>

#include "../../../include/dual_ledger.h"

static int spoiled(int which) {
    const char *said = getenv("SPOILED");
    return said && atoi(said) == which;
}

#define REAL(name) __typeof__(name) real_##name;
#include "names.h"
#undef REAL

/* 1: the halves of a fuse exchanged, public form */
uint8_t dual_ledger_fuse(uint64_t *bench, uint8_t parent, uint8_t left, uint8_t right) {
    return spoiled(1) ? real_dual_ledger_fuse(bench, parent, right, left) : real_dual_ledger_fuse(bench, parent, left, right);
}

/* 2: the last two notices of a told expansion exchanged; 3: its count of notices one short */
uint8_t dual_ledger_told_expand_blossom(uint64_t *bench, uint8_t unit, uint64_t node, uint64_t *answer) {
    uint8_t number = real_dual_ledger_told_expand_blossom(bench, unit, node, answer);
    uint64_t count = answer[1];
    if (number == 0 && spoiled(2) && count > 2) {
        uint64_t last = answer[2 + 2 * count];
        answer[2 + 2 * count] = answer[2 * count];
        answer[2 * count] = last;
    }
    if (number == 0 && spoiled(3)) answer[1] = count - 1;
    return number;
}

/* 4: shrinking set as staying, trusted form */
uint8_t dual_ledger_trusted_set_grow_state(uint64_t *bench, uint8_t unit, uint64_t node, int8_t state) {
    return real_dual_ledger_trusted_set_grow_state(bench, unit, node, spoiled(4) && state < 0 ? 0 : state);
}

/* whether every shrinking node of a floored interface stands higher than a value: of its own nodes alone */
static int stands(const uint64_t *bench, uint8_t unit, int64_t least) {
    for (uint64_t s = 0; unit < 8 && s < bench[16 * unit + 1]; s++) {
        uint64_t node = DUAL_LEDGER_HANDLE(unit, s, bench[129 + 12 * (64 * unit + s)]);
        int64_t value = 0;
        if (bench[131 + 12 * (64 * unit + s)] == 2 && (dual_ledger_trusted_get_dual_variable(bench, node, &value) != 0 || value < least)) return 0;
    }
    return 1;
}

/* 5: growth to 2^40 exactly is refused; 6: one past it is not looked at, but grown by one less; 33: a floored
 * interface is grown to one below its floor; 34: not to the floor itself */
uint8_t dual_ledger_trusted_grow(uint64_t *bench, uint8_t unit, int64_t length) {
    uint64_t limit = (uint64_t)1 << 40;
    int fits = unit < 8 && length > 0;
    if (spoiled(5) && fits && bench[16 * unit + 2] + (uint64_t)length == limit) return DUAL_LEDGER_LENGTH;
    if (spoiled(6) && fits && bench[16 * unit + 2] + (uint64_t)length == limit + 1) return real_dual_ledger_trusted_grow(bench, unit, length - 1);
    if (spoiled(33) && fits && bench[16 * unit + 9] >= 2 && stands(bench, unit, length - 1)) {
        uint64_t marks = bench[16 * unit + 9];
        bench[16 * unit + 9] = 0;
        uint8_t number = real_dual_ledger_trusted_grow(bench, unit, length);
        bench[16 * unit + 9] = marks;
        return number;
    }
    if (spoiled(34) && fits && bench[16 * unit + 9] >= 2 && !stands(bench, unit, length + 1)) return DUAL_LEDGER_BELOW;
    return real_dual_ledger_trusted_grow(bench, unit, length);
}

/* 35: a parent keeps its own floor, trusted form */
uint8_t dual_ledger_trusted_fuse(uint64_t *bench, uint8_t parent, uint8_t left, uint8_t right) {
    uint64_t marks = parent < 8 ? bench[16 * parent + 9] : 0;
    uint8_t number = real_dual_ledger_trusted_fuse(bench, parent, left, right);
    if (number == 0 && spoiled(35)) bench[16 * parent + 9] = marks;
    return number;
}

/* 36: every interface is said to be floored */
uint8_t dual_ledger_trusted_is_floored(const uint64_t *bench, uint8_t unit, uint64_t *yes) {
    uint8_t number = real_dual_ledger_trusted_is_floored(bench, unit, yes);
    if (number == 0 && spoiled(36)) *yes = 1;
    return number;
}

/* 7: touching handles left out, told form */
uint8_t dual_ledger_told_create_blossom(uint64_t *bench, uint8_t unit, const uint64_t *members, size_t members_len, const uint64_t *touching,
                                        size_t touching_len, uint64_t *answer) {
    size_t kept = spoiled(7) && touching_len == 2 * members_len ? 0 : touching_len;
    return real_dual_ledger_told_create_blossom(bench, unit, members, members_len, touching, kept, answer);
}

/* 8: a defect refused by FULL leaves a word behind, public form; 9: a wrong number for it */
uint8_t dual_ledger_create_defect_node(uint64_t *bench, uint8_t unit, uint32_t vertex, uint64_t *answer) {
    uint8_t number = real_dual_ledger_create_defect_node(bench, unit, vertex, answer);
    if (number == DUAL_LEDGER_FULL && spoiled(8)) bench[16 * unit + 9] = 1;
    return number == DUAL_LEDGER_FULL && spoiled(9) ? DUAL_LEDGER_WORN : number;
}

/* 10: a clear gives serials out anew, trusted form; 27: it does not end the mode */
uint8_t dual_ledger_trusted_clear(uint64_t *bench, uint8_t unit) {
    uint64_t marks = unit < 8 ? bench[16 * unit + 9] : 0;
    uint8_t number = real_dual_ledger_trusted_clear(bench, unit);
    if (number == 0 && spoiled(10)) bench[0] = 1;
    if (number == 0 && spoiled(27)) bench[16 * unit + 9] = marks;
    return number;
}

/* 28: a node goes past the used slots although emptied ones are to be filled, trusted form */
uint8_t dual_ledger_trusted_create_defect_node(uint64_t *bench, uint8_t unit, uint32_t vertex, uint64_t *node) {
    uint64_t marks = unit < 8 ? bench[16 * unit + 9] : 0;
    int fits = spoiled(28) && unit < 8 && bench[16 * unit + 1] < 64;
    if (fits) bench[16 * unit + 9] = 0;
    uint8_t number = real_dual_ledger_trusted_create_defect_node(bench, unit, vertex, node);
    if (fits) bench[16 * unit + 9] = marks;
    return number;
}

/* 29: an interface marked although slots are used, trusted form */
uint8_t dual_ledger_trusted_mark_filling(uint64_t *bench, uint8_t unit) {
    uint8_t number = real_dual_ledger_trusted_mark_filling(bench, unit);
    if (number != DUAL_LEDGER_MARK || !spoiled(29)) return number;
    bench[16 * unit + 9] |= 1;
    return 0;
}

/* 30: a mark that is said to be made, public form */
uint8_t dual_ledger_mark_filling(uint64_t *bench, uint8_t unit) {
    uint64_t marks = unit < 8 ? bench[16 * unit + 9] : 0;
    uint8_t number = real_dual_ledger_mark_filling(bench, unit);
    if (number == 0 && spoiled(30)) bench[16 * unit + 9] = marks;
    return number;
}

/* 31: every interface of a number below 8 is said to fill none */
uint8_t dual_ledger_trusted_is_filling(const uint64_t *bench, uint8_t unit, uint64_t *yes) {
    uint8_t number = real_dual_ledger_trusted_is_filling(bench, unit, yes);
    if (spoiled(31)) *yes = 0;
    return number;
}

/* 11: verdict 3 where 4 is due; 12: the index one more */
uint8_t dual_ledger_trusted_sanity_check(const uint64_t *bench, uint8_t unit, uint64_t *verdict, uint64_t *index) {
    uint8_t number = real_dual_ledger_trusted_sanity_check(bench, unit, verdict, index);
    if (spoiled(11) && *verdict == 4) *verdict = 3;
    if (spoiled(12) && *verdict == 2) *index += 1;
    return number;
}

/* 13: the strict check says no more than the plain one */
uint8_t dual_ledger_trusted_strict_check(const uint64_t *bench, uint8_t unit, uint64_t *verdict, uint64_t *index) {
    uint8_t number = real_dual_ledger_trusted_strict_check(bench, unit, verdict, index);
    if (spoiled(13) && *verdict == 6) *verdict = *index = 0;
    return number;
}

/* 14: an entry past the vertices is written */
uint8_t dual_ledger_trusted_get_all_vertices(const uint64_t *bench, uint64_t node, uint32_t *out, size_t out_len, uint64_t *count) {
    uint8_t number = real_dual_ledger_trusted_get_all_vertices(bench, node, out, out_len, count);
    if (number == 0 && spoiled(14) && *count < out_len) out[*count] = 0;
    return number;
}

/* 15: a stale handle belongs */
uint8_t dual_ledger_trusted_check_ptr_belonging(const uint64_t *bench, uint8_t unit, uint64_t node, uint64_t *inside) {
    uint8_t number = real_dual_ledger_trusted_check_ptr_belonging(bench, unit, node, inside);
    int64_t value;
    if (number == 0 && spoiled(15) && dual_ledger_trusted_get_dual_variable(bench, node, &value) == DUAL_LEDGER_STALE) *inside = 1;
    return number;
}

/* 16 to 19: the sound test without the next serial, without touching handles below it, without the sum's limit, without the words past the used slots;
 * 32: without the bits that no mark has; 37: without floors */
uint8_t dual_ledger_is_sound(const uint64_t *bench) {
    static uint64_t mended[DUAL_LEDGER_WORDS];
    if (real_dual_ledger_is_sound(bench)) return 1;
    memcpy(mended, bench, sizeof mended);
    if (spoiled(16) && bench[0] > ((uint64_t)1 << 32)) mended[0] = (uint64_t)1 << 32;
    for (int k = 0; spoiled(17) && k < 512; k++)
        for (int side = 7; side < 9; side++)
            if (mended[128 + 12 * k + side] / 512 >= bench[0]) mended[128 + 12 * k + side] %= 512;
    for (int u = 0; spoiled(18) && u < 8; u++) mended[16 * u + 3] = (uint64_t)1 << 62;
    for (int u = 0; spoiled(19) && u < 8; u++)
        for (uint64_t s = bench[16 * u + 1]; s < 64; s++) memset(mended + 129 + 12 * (64 * u + s), 0, 12 * 8);
    for (int u = 0; spoiled(32) && u < 8; u++) mended[16 * u + 9] &= 3;
    for (int u = 0; spoiled(37) && u < 8; u++) mended[16 * u + 9] &= ~(uint64_t)2;
    return real_dual_ledger_is_sound(mended);
}

/* 20: a pop spares the stops while the list has entries */
uint8_t dual_ledger_trusted_group_pop(uint64_t *group, uint64_t *obstacle) {
    if (!spoiled(20) || group[0] != 2 || group[3] == 0) return real_dual_ledger_trusted_group_pop(group, obstacle);
    uint64_t stops = group[4];
    group[4] = 0;
    uint8_t number = real_dual_ledger_trusted_group_pop(group, obstacle);
    group[4] = stops;
    return number;
}

/* 21: flags joined by or where a growth is extended by one of the same length */
uint8_t dual_ledger_trusted_group_extend(const uint64_t *bench, uint64_t *group, const uint64_t *other) {
    int joins = spoiled(21) && group[0] == 1 && other[0] == 1 && group[1] == other[1] && group[1] != INT64_MAX;
    uint64_t flag = group[2] | other[2];
    uint8_t number = real_dual_ledger_trusted_group_extend(bench, group, other);
    if (number == 0 && joins) group[2] = flag;
    return number;
}

/* 22: an obstacle's second handle is not looked up */
uint8_t dual_ledger_trusted_group_add(const uint64_t *bench, uint64_t *group, const uint64_t *obstacle) {
    uint64_t seen[DUAL_LEDGER_OBSTACLE_WORDS];
    memcpy(seen, obstacle, sizeof seen);
    if (spoiled(22) && obstacle[0] == DUAL_LEDGER_TOUCHING_VIRTUAL) seen[2] = obstacle[1];
    return real_dual_ledger_trusted_group_add(bench, group, seen);
}

/* 23: a pop that is to spare the stops takes one along while the list has entries; 24: what it takes of the list stays there */
uint8_t dual_ledger_trusted_group_pop_sparing_stops(uint64_t *group, uint64_t *obstacle) {
    if (spoiled(23)) return real_dual_ledger_trusted_group_pop(group, obstacle);
    if (spoiled(24) && group[0] == 2 && group[3] > 0) return dual_ledger_trusted_group_peek(group, obstacle);
    return real_dual_ledger_trusted_group_pop_sparing_stops(group, obstacle);
}

/* 25: the same on any words; 26: words of no group are changed */
uint8_t dual_ledger_group_pop_sparing_stops(uint64_t *group, uint64_t *obstacle) {
    if (spoiled(25)) return dual_ledger_group_pop(group, obstacle);
    uint8_t number = real_dual_ledger_group_pop_sparing_stops(group, obstacle);
    if (spoiled(26) && number == DUAL_LEDGER_BROKEN) group[3] ^= 1;
    return number;
}

/* 38: a file that does not move leaves a byte behind; 39: SMALL before SELF; 40: what is written goes one byte too far */
uint8_t dual_ledger_to_text(const uint8_t *file, size_t file_len, uint8_t *out, size_t out_len, size_t *wrote) {
    uint8_t number = real_dual_ledger_to_text(file, file_len, out, out_len, wrote);
    if (spoiled(38) && number == DUAL_LEDGER_FILE && out_len > 0) out[0] ^= 1;
    if (spoiled(40) && number == 0 && out_len > *wrote) out[*wrote] ^= 1;
    return spoiled(39) && number == DUAL_LEDGER_SELF && out_len == 0 ? DUAL_LEDGER_SMALL : number;
}

/* 41: the letters are not looked at; 42: a large file that is none is one of no records */
uint8_t dual_ledger_records_count(const uint8_t *file, size_t file_len, size_t *count) {
    static uint8_t seen[1 << 16];
    if (spoiled(41) && file_len >= 16 && file_len <= sizeof seen) {
        memcpy(seen, file, file_len), memcpy(seen + file_len - 4, "DLG2", 4);
        return real_dual_ledger_records_count(seen, file_len, count);
    }
    uint8_t number = real_dual_ledger_records_count(file, file_len, count);
    return spoiled(42) && number == DUAL_LEDGER_FILE && file_len > 1024 && !memcmp(file + file_len - 4, "DLG2", 4) ? 0 : number;
}

/* 43: a last line without newline is left out */
uint8_t dual_ledger_to_records(const uint8_t *text, size_t text_len, uint8_t *out, size_t out_len, size_t *wrote) {
    uint8_t number = real_dual_ledger_to_records(text, text_len, out, out_len, wrote);
    if (spoiled(43) && number == DUAL_LEDGER_FILE && text_len > 0 && text[text_len - 1] != '\n')
        while (text_len > 0 && text[text_len - 1] != '\n') number = real_dual_ledger_to_records(text, --text_len, out, out_len, wrote);
    return number;
}

/* 44: of a record that does not fit it says that there is none; 45: refused, it leaves a word behind; 46: what is written goes one word too far;
 * 47: FILE is found after SMALL; 48: a member's second serial is its first */
uint8_t dual_ledger_records_get(const uint8_t *file, size_t file_len, size_t at, uint64_t *out, size_t out_len, size_t *wrote) {
    uint8_t number = real_dual_ledger_records_get(file, file_len, at, out, out_len, wrote);
    if (spoiled(44) && number == DUAL_LEDGER_FILE && file_len > 16 && !memcmp(file + file_len - 4, "DLG2", 4)) return DUAL_LEDGER_RANGE;
    if (spoiled(45) && number != 0 && out_len > 0) out[0] ^= 1;
    if (spoiled(46) && number == 0 && out_len > *wrote) out[*wrote] ^= 1;
    if (spoiled(47) && number == DUAL_LEDGER_FILE && out_len == 0) return DUAL_LEDGER_SMALL;
    if (spoiled(48) && number == 0 && out[0] == 'B') out[5] = out[4];
    return number;
}

/* 49: the last step is told with its group's whole growth; 50: the group past the last step is tested; 51: a refused call leaves a length behind; 52: SHORT for STUCK */
uint8_t dual_ledger_grow_recorded(uint64_t *bench, uint8_t unit, int64_t length, const uint64_t *groups, size_t groups_len, uint64_t *lengths, size_t lengths_len,
                                  size_t *taken) {
    uint8_t number = real_dual_ledger_grow_recorded(bench, unit, length, groups, groups_len, lengths, lengths_len, taken);
    size_t past = *taken * DUAL_LEDGER_GROUP_WORDS;
    if (spoiled(49) && number == 0 && *taken > 0) lengths[*taken - 1] = groups[past - DUAL_LEDGER_GROUP_WORDS + 1];
    if (spoiled(50) && number == 0 && past + DUAL_LEDGER_GROUP_WORDS <= groups_len && !dual_ledger_group_is_sound(groups + past)) return DUAL_LEDGER_BROKEN;
    if (spoiled(51) && number != 0 && lengths_len > 0) lengths[0] ^= 1;
    return spoiled(52) && number == DUAL_LEDGER_STUCK ? DUAL_LEDGER_SHORT : number;
}

/* 53: LENGTH for BELOW, trusted form */
uint8_t dual_ledger_trusted_grow_recorded(uint64_t *bench, uint8_t unit, int64_t length, const uint64_t *groups, size_t groups_len, uint64_t *lengths,
                                          size_t lengths_len, size_t *taken) {
    uint8_t number = real_dual_ledger_trusted_grow_recorded(bench, unit, length, groups, groups_len, lengths, lengths_len, taken);
    return spoiled(53) && number == DUAL_LEDGER_BELOW ? DUAL_LEDGER_LENGTH : number;
}
