/* The proved dual ledger, for C. Link libdual_ledger.a, which `rust/archive` makes for this machine (include/cmake and include/pkgconfig have files for CMake and
 * pkg-config). What the words mean is said in docs/MANUAL.md; its sections are named here as [Refusals], [Reads] and so on.
 *
 * A bench is DUAL_LEDGER_WORDS words that the caller owns and lends; a group is DUAL_LEDGER_GROUP_WORDS. No function keeps a pointer, allocates,
 * prints or stops the program. Pointers must be valid for what they are said to hold, and what is written must not overlap what else is lent.
 * A list of length 0 may be NULL.
 *
 * A call or read answers a number: 0 is accepted; any other is the reason of a refusal, the lowest that applies. Refused, everything that was lent
 * stays as it was but for the answer, whose values are then 0 or none. (A set-up alone, of either engine, makes a bench although it answers WORN.)
 *
 * A handle is one word: (serial * 64 + slot) * 8 + interface, below DUAL_LEDGER_NO_NODE. A word that is no handle names no node.
 *
 * Threads: there is no state but what is lent. Functions may run at once on any threads as long as nothing that one of them writes is lent to another; reads of
 * one bench may run at once.
 *
 * The archive needs memmove and memset of the C library and nothing else. It has some 103 KB (x86-64).
 *
 * Three forms. dual_ledger_NAME takes any words at all and tests them first (BROKEN if they hold no sound bench). dual_ledger_trusted_NAME tests
 * nothing about the words: lend it only words that a set-up or dual_ledger_text_opening and accepted or refused calls of this library alone have written, or that
 * dual_ledger_is_sound has passed. dual_ledger_told_NAME is as trusted as that and tells the notices besides.
 */
#ifndef DUAL_LEDGER_H
#define DUAL_LEDGER_H

#include <stddef.h>
#include <stdint.h>

#ifdef __cplusplus
extern "C" {
#endif

/* The version of this header and of the archive beside it: major * 10000 + minor * 100 + patch, and as text. */
#define DUAL_LEDGER_VERSION 200
#define DUAL_LEDGER_VERSION_TEXT "0.2.0"

#define DUAL_LEDGER_WORDS 6273
#define DUAL_LEDGER_ANSWER_WORDS 199
#define DUAL_LEDGER_OBSTACLE_WORDS 5
#define DUAL_LEDGER_GROUP_WORDS 1413
#define DUAL_LEDGER_NO_NODE ((uint64_t)2199023255552u)

/* A handle of its parts, and the parts of a handle. (An interface above 7 or a slot above 63 would run into the next part.) */
#define DUAL_LEDGER_HANDLE(interface, slot, serial) (((uint64_t)(serial) * 64u + (uint64_t)(slot)) * 8u + (uint64_t)(interface))
#define DUAL_LEDGER_HANDLE_INTERFACE(handle) ((uint8_t)((uint64_t)(handle) % 8u))
#define DUAL_LEDGER_HANDLE_SLOT(handle) ((uint8_t)((uint64_t)(handle) / 8u % 64u))
#define DUAL_LEDGER_HANDLE_SERIAL(handle) ((uint32_t)((uint64_t)(handle) / 512u))

/* The answer of a call that tells notices [Notices]:
 *   word 0              the node made or named, as a handle; 0 where there is none
 *   word 1              how many notices follow, at most 66
 *   word 2              how many members the circle of "shrink prepared" has, at most 64
 *   words 3 + 2 i, + 4  notice i: its kind, and what it is of
 *   words 135 + i       member i of the circle
 * Words past those counts say nothing and stay as they were: read by the counts. A refused call writes three words, 0 each. */
#define DUAL_LEDGER_DEFECT_ADDED 1    /* the node */
#define DUAL_LEDGER_STATE_STAY 2      /* the node, set to stay */
#define DUAL_LEDGER_STATE_GROW 3      /* the node, set to grow */
#define DUAL_LEDGER_STATE_SHRINK 4    /* the node, set to shrink */
#define DUAL_LEDGER_SHRINK_PREPARED 5 /* 0; its circle stands beside the notices */
#define DUAL_LEDGER_BLOSSOM_ADDED 6   /* the blossom */
#define DUAL_LEDGER_BLOSSOM_REMOVED 7 /* the blossom */
#define DUAL_LEDGER_GROWN 8           /* the length, as a signed word */

/* An obstacle [Obstacle groups]: its kind, then four words, 0 where nothing is said.
 *   growth      length as a signed word, whether some boundary node is empty (1 or 0)
 *   conflict    node, what touches there, node, what touches there
 *   virtual     node, what touches there, the virtual vertex, whether it is a mirror (1 or 0)
 *   expand      the blossom
 *   stop        the node
 *   stop, pair  the node, the pair's node, what touches there
 * Nodes are handles: every word of 2^41 and more is one and the same, and names no node. */
#define DUAL_LEDGER_NO_OBSTACLE 0
#define DUAL_LEDGER_NON_ZERO_GROW 1
#define DUAL_LEDGER_CONFLICTING 2
#define DUAL_LEDGER_TOUCHING_VIRTUAL 3
#define DUAL_LEDGER_BLOSSOM_NEED_EXPAND 4
#define DUAL_LEDGER_VERTEX_SHRINK_STOP 5
#define DUAL_LEDGER_VERTEX_SHRINK_STOP_PAIR 6

/* A group: words 0 to 2 are 1, the length as a signed word and a flag for a growth, or 2, 0, 0 for conflicts; words 3 and 4 are how many are listed and
 * how many stops are pending; words 5 + 5 i are entry i of the list, an obstacle; words 645 + 6 i are stop i, its vertex and then an obstacle.
 * Words past the counts, and words 3 and more of a growth, say nothing: they may hold anything, and a call leaves them unless it writes an entry or a
 * stop there. */

/* ---- set-up */

/* Makes the words a bench of eight empty interfaces whose next serial is first. Answers 0, or WORN for first = 0: then it is as from serial 1. */
uint8_t dual_ledger_set_up(uint64_t *bench, uint32_t first);

/* The same for the plain engine: every growth adds to each value of the tree, fused halves included, so that word 128 + 12 k + 9 of a node is its value + 2^60 at any
 * time. Every call, read and check then answers as in the lazy engine; a growth takes time that goes with the nodes of its tree. The engine is the bench's: kept by
 * every call, clears included. */
uint8_t dual_ledger_set_up_plain(uint64_t *bench, uint32_t first);

/* 1 where the words are a sound bench, else 0. Any words may be lent. Word 16 u + 8 is the map of interface u, bit s for slot s: words stored before there was
 * one have 0 there, and are no sound bench if they hold a node (docs/MIGRATING.md says how to take them over). Word 16 u + 9 has its marks: 1 where it fills
 * emptied slots, 2 where it is floored, 4 in all eight where the bench is of the plain engine, these added, and no other bit. */
uint8_t dual_ledger_is_sound(const uint64_t *bench);

/* ---- calls, on any words */

/* Adds the node of a vertex to interface unit, growing, with value 0. */
uint8_t dual_ledger_create_defect_node(uint64_t *bench, uint8_t unit, uint32_t vertex, uint64_t *answer);
/* Makes a blossom of the members, in circle order. touching has two handles for each member, or none: then each member touches by itself. (The lengths
 * count handles; one touching handle left over goes with none.) */
uint8_t dual_ledger_create_blossom(uint64_t *bench, uint8_t unit, const uint64_t *members, size_t members_len, const uint64_t *touching,
                                   size_t touching_len, uint64_t *answer);
/* Takes a blossom apart: its members are outermost again and grow, and its value stays in the sum. */
uint8_t dual_ledger_expand_blossom(uint64_t *bench, uint8_t unit, uint64_t node, uint64_t *answer);
/* Sets the state of an outermost node by the sign of state: above 0 it grows, at 0 it stays, below 0 it shrinks. */
uint8_t dual_ledger_set_grow_state(uint64_t *bench, uint8_t unit, uint64_t node, int8_t state, uint64_t *answer);
/* Grows interface unit, and what is fused into it, by length. */
uint8_t dual_ledger_grow(uint64_t *bench, uint8_t unit, int64_t length, uint64_t *answer);
/* Makes left and right the halves of parent. Tells nothing. */
uint8_t dual_ledger_fuse(uint64_t *bench, uint8_t parent, uint8_t left, uint8_t right);
/* Empties interface unit and what is fused into it; serials go on. Tells nothing. */
uint8_t dual_ledger_clear(uint64_t *bench, uint8_t unit);
/* Has interface unit, which has neither halves nor used slots, fill emptied slots until it is cleared: a new node gets its lowest empty slot, and FULL comes
 * exactly when 64 of its nodes are present [Filling]. MARK where it is too late; progress does not hinder, and twice is as once. Tells nothing. */
uint8_t dual_ledger_mark_filling(uint64_t *bench, uint8_t unit);
/* Has interface unit, which has neither halves nor used slots, floored until it is cleared: a growth by which a value of its tree would fall below zero is
 * refused as BELOW [Floors]. Halves are both floored or neither (MARK), and their parent is as they are. MARK where it is too late; progress does not hinder,
 * and twice is as once. Tells nothing. */
uint8_t dual_ledger_mark_floored(uint64_t *bench, uint8_t unit);

/* ---- the same on sound words, with the notices */

uint8_t dual_ledger_told_create_defect_node(uint64_t *bench, uint8_t unit, uint32_t vertex, uint64_t *answer);
uint8_t dual_ledger_told_create_blossom(uint64_t *bench, uint8_t unit, const uint64_t *members, size_t members_len, const uint64_t *touching,
                                        size_t touching_len, uint64_t *answer);
uint8_t dual_ledger_told_expand_blossom(uint64_t *bench, uint8_t unit, uint64_t node, uint64_t *answer);
uint8_t dual_ledger_told_set_grow_state(uint64_t *bench, uint8_t unit, uint64_t node, int8_t state, uint64_t *answer);
uint8_t dual_ledger_told_grow(uint64_t *bench, uint8_t unit, int64_t length, uint64_t *answer);

/* ---- the same on sound words, without notices: node is the handle made or named, 0 where there is none */

uint8_t dual_ledger_trusted_create_defect_node(uint64_t *bench, uint8_t unit, uint32_t vertex, uint64_t *node);
uint8_t dual_ledger_trusted_create_blossom(uint64_t *bench, uint8_t unit, const uint64_t *members, size_t members_len, const uint64_t *touching,
                                           size_t touching_len, uint64_t *node);
uint8_t dual_ledger_trusted_expand_blossom(uint64_t *bench, uint8_t unit, uint64_t node);
uint8_t dual_ledger_trusted_set_grow_state(uint64_t *bench, uint8_t unit, uint64_t node, int8_t state);
uint8_t dual_ledger_trusted_grow(uint64_t *bench, uint8_t unit, int64_t length);
uint8_t dual_ledger_trusted_fuse(uint64_t *bench, uint8_t parent, uint8_t left, uint8_t right);
uint8_t dual_ledger_trusted_clear(uint64_t *bench, uint8_t unit);
uint8_t dual_ledger_trusted_mark_filling(uint64_t *bench, uint8_t unit);
uint8_t dual_ledger_trusted_mark_floored(uint64_t *bench, uint8_t unit);

/* ---- reads, on any words; dual_ledger_trusted_NAME with the same arguments on sound words */

/* The stored sum of an interface without a parent, its halves counted in. */
uint8_t dual_ledger_sum_dual_variables(const uint64_t *bench, uint8_t unit, int64_t *sum);
/* Its speed: growing nodes less shrinking ones. */
uint8_t dual_ledger_sum_grow_speed(const uint64_t *bench, uint8_t unit, int64_t *speed);
/* How many slots its tree has, used or emptied. */
uint8_t dual_ledger_nodes_count(const uint64_t *bench, uint8_t unit, uint64_t *count);
/* yes: 1 where the interface fills emptied slots, else 0. Of an interface without a parent, and of that one alone: its halves may differ. */
uint8_t dual_ledger_is_filling(const uint64_t *bench, uint8_t unit, uint64_t *yes);
/* yes: 1 where the interface, and with it its tree, is floored, else 0. */
uint8_t dual_ledger_is_floored(const uint64_t *bench, uint8_t unit, uint64_t *yes);
/* The handle at an index of its tree, left half, right half, own; DUAL_LEDGER_NO_NODE for an emptied slot, 0 where refused. */
uint8_t dual_ledger_get_node(const uint64_t *bench, uint8_t unit, uint32_t index, uint64_t *node);
/* How many present nodes its tree has: the ones of its interfaces' maps, added. */
uint8_t dual_ledger_present_count(const uint64_t *bench, uint8_t unit, uint64_t *count);
/* The next present node at or after an index of its tree, and its own index; DUAL_LEDGER_NO_NODE and 0 where every slot from there on was emptied, 0 and 0
 * where refused. A walk goes on from *next + 1 and ends there, or with RANGE after the last slot. */
uint8_t dual_ledger_next_present(const uint64_t *bench, uint8_t unit, uint32_t index, uint32_t *next, uint64_t *node);
/* 1 where the node stands in the tree of interface unit, else 0. */
uint8_t dual_ledger_check_ptr_belonging(const uint64_t *bench, uint8_t unit, uint64_t node, uint64_t *inside);
/* The node's value now. */
uint8_t dual_ledger_get_dual_variable(const uint64_t *bench, uint64_t node, int64_t *value);
/* The outermost blossom around the node, itself if it is in none, and the parent links followed to it: as many as the node's chain of parents has, never
 * more than the present blossoms of its tree, 0 for a node without a parent. For sizing a time slot: a chain has at most 255 links in a bench that only
 * these calls have written, 447 in any sound one; each takes 5 ns (trusted, x86-64, an older kit: 14 ns for one link, 52 for 16, 259 for 64, 1,110 for 255, 2,014 for
 * 447), and the form on any words tests the bench first (2 to 10 microseconds in those nests). `oracle/run bench` measures them again. */
uint8_t dual_ledger_get_ancestor_blossom(const uint64_t *bench, uint64_t node, uint64_t *ancestor, uint64_t *links);
/* The node below the outermost blossom on the way there. */
uint8_t dual_ledger_get_secondary_ancestor_blossom(const uint64_t *bench, uint64_t node, uint64_t *second);
/* The node's first vertex. */
uint8_t dual_ledger_get_representative_vertex(const uint64_t *bench, uint64_t node, uint32_t *vertex);
/* All the node's vertices into the first entries of out, if it has room; entries past them stay. */
uint8_t dual_ledger_get_all_vertices(const uint64_t *bench, uint64_t node, uint32_t *out, size_t out_len, uint64_t *count);

uint8_t dual_ledger_trusted_sum_dual_variables(const uint64_t *bench, uint8_t unit, int64_t *sum);
uint8_t dual_ledger_trusted_sum_grow_speed(const uint64_t *bench, uint8_t unit, int64_t *speed);
uint8_t dual_ledger_trusted_nodes_count(const uint64_t *bench, uint8_t unit, uint64_t *count);
uint8_t dual_ledger_trusted_is_filling(const uint64_t *bench, uint8_t unit, uint64_t *yes);
uint8_t dual_ledger_trusted_is_floored(const uint64_t *bench, uint8_t unit, uint64_t *yes);
uint8_t dual_ledger_trusted_get_node(const uint64_t *bench, uint8_t unit, uint32_t index, uint64_t *node);
uint8_t dual_ledger_trusted_present_count(const uint64_t *bench, uint8_t unit, uint64_t *count);
uint8_t dual_ledger_trusted_next_present(const uint64_t *bench, uint8_t unit, uint32_t index, uint32_t *next, uint64_t *node);
uint8_t dual_ledger_trusted_check_ptr_belonging(const uint64_t *bench, uint8_t unit, uint64_t node, uint64_t *inside);
uint8_t dual_ledger_trusted_get_dual_variable(const uint64_t *bench, uint64_t node, int64_t *value);
uint8_t dual_ledger_trusted_get_ancestor_blossom(const uint64_t *bench, uint64_t node, uint64_t *ancestor, uint64_t *links);
uint8_t dual_ledger_trusted_get_secondary_ancestor_blossom(const uint64_t *bench, uint64_t node, uint64_t *second);
uint8_t dual_ledger_trusted_get_representative_vertex(const uint64_t *bench, uint64_t node, uint32_t *vertex);
uint8_t dual_ledger_trusted_get_all_vertices(const uint64_t *bench, uint64_t node, uint32_t *out, size_t out_len, uint64_t *count);

/* ---- the check [The check] */

#define DUAL_LEDGER_SOUND 0            /* nothing was found */
#define DUAL_LEDGER_VERTEX_TWICE 1     /* a vertex was seen before; the index of the later */
#define DUAL_LEDGER_DEFECT_TOUCH 2     /* a defect member touches by another node; the member's index, as for 3, 4 and 6 */
#define DUAL_LEDGER_OTHER_OUTERMOST 3  /* a blossom member touches by a node of another outermost blossom */
#define DUAL_LEDGER_TOUCH_GONE 4       /* a node that a blossom member touches by is gone */
#define DUAL_LEDGER_SUM_DIFFERS 5      /* the sum is not the total of the values */
#define DUAL_LEDGER_NOT_UNDER 6        /* the strict check's alone: a blossom member touches by a node that is not under it */

/* The Rust's check: verdict 0 to 5 and the index of the first finding. */
uint8_t dual_ledger_sanity_check(const uint64_t *bench, uint8_t unit, uint64_t *verdict, uint64_t *index);
/* The strict check: verdict 0 to 6 and the index. */
uint8_t dual_ledger_strict_check(const uint64_t *bench, uint8_t unit, uint64_t *verdict, uint64_t *index);
uint8_t dual_ledger_trusted_sanity_check(const uint64_t *bench, uint8_t unit, uint64_t *verdict, uint64_t *index);
uint8_t dual_ledger_trusted_strict_check(const uint64_t *bench, uint8_t unit, uint64_t *verdict, uint64_t *index);

/* ---- the picture [The picture] */

/* The nodes of an interface as JSON for the Rust's viewer, the values of its `snapshot`: abbreviated names unless abbreviated is 0. Written to the first bytes
 * of out, without a zero at the end, if the plain check says 0 and it has room; bytes past it stay. UNSOUND comes before SMALL. Refused, *length is 0 and out is
 * as it was. At most 128 bytes and 144 a slot. */
uint8_t dual_ledger_snapshot(const uint64_t *bench, uint8_t unit, uint8_t abbreviated, uint8_t *out, size_t out_len, uint64_t *length);
uint8_t dual_ledger_trusted_snapshot(const uint64_t *bench, uint8_t unit, uint8_t abbreviated, uint8_t *out, size_t out_len, uint64_t *length);

/* ---- groups of obstacles. Words of a group or an obstacle that are not written as above, and groups that are not sound, are refused as BROKEN. */

/* Makes any words the empty group: words 0 to 2 are written, the others stay. */
void dual_ledger_empty_group(uint64_t *group);
/* 1 where the words are a sound group, else 0. */
uint8_t dual_ledger_group_is_sound(const uint64_t *group);
/* yes: 1 where no obstacle stands in the way, else 0. */
uint8_t dual_ledger_group_is_empty(const uint64_t *group, uint64_t *yes);
/* yes: 1 where growing makes sense as it stands, else 0. */
uint8_t dual_ledger_group_is_active(const uint64_t *group, uint64_t *yes);
/* asked: 1 and the length where the group is a growth, else 0 and 0. */
uint8_t dual_ledger_group_get_none_zero_growth(const uint64_t *group, uint64_t *asked, int64_t *length);
/* The obstacle that either pop would answer, left where it is; NO_OBSTACLE where there is none, and where refused. */
uint8_t dual_ledger_group_peek(const uint64_t *group, uint64_t *obstacle);
/* Takes out the last of the list, and the stop of smallest vertex with it, which is answered where the list was empty. */
uint8_t dual_ledger_group_pop(uint64_t *group, uint64_t *obstacle);
/* Takes out the same obstacle and nothing else: a stop only where the list is empty. Called until it answers NO_OBSTACLE, it gives every entry of conflicts
 * once, the list from its end, then the stops by rising vertex. */
uint8_t dual_ledger_group_pop_sparing_stops(uint64_t *group, uint64_t *obstacle);
/* Adds an obstacle; every node that it names must be present in the bench. */
uint8_t dual_ledger_group_add(const uint64_t *bench, uint64_t *group, const uint64_t *obstacle);
/* Adds what another group holds. */
uint8_t dual_ledger_group_extend(const uint64_t *bench, uint64_t *group, const uint64_t *other);

/* ---- groups of obstacles, on words that hold a sound group (dual_ledger_empty_group's, dual_ledger_group_is_sound's, or those that the calls on groups
 * alone have written); for add and extend the bench's words hold a sound bench, as above, and the obstacle's are written as above. Nothing is tested but
 * STALE, ROOM, KIND and NOTHING, and each call reads and writes only the words that it is about. */
uint8_t dual_ledger_trusted_group_is_empty(const uint64_t *group, uint64_t *yes);
uint8_t dual_ledger_trusted_group_is_active(const uint64_t *group, uint64_t *yes);
uint8_t dual_ledger_trusted_group_get_none_zero_growth(const uint64_t *group, uint64_t *asked, int64_t *length);
uint8_t dual_ledger_trusted_group_peek(const uint64_t *group, uint64_t *obstacle);
uint8_t dual_ledger_trusted_group_pop(uint64_t *group, uint64_t *obstacle);
uint8_t dual_ledger_trusted_group_pop_sparing_stops(uint64_t *group, uint64_t *obstacle);
uint8_t dual_ledger_trusted_group_add(const uint64_t *bench, uint64_t *group, const uint64_t *obstacle);
uint8_t dual_ledger_trusted_group_extend(const uint64_t *bench, uint64_t *group, const uint64_t *other);

/* ---- growing against a recorded list of groups [Recorded growth]. groups_len counts words: the groups stand one after the other, DUAL_LEDGER_GROUP_WORDS each,
 * and words left over at the end are a broken group. They are read, never changed. */

/* Grows interface unit, and what is fused into it, by length, a group a step: while length is left the next group is taken, and the step goes as far as the smaller
 * of its growth and what is left. The bench is then that of one growth by length. The lengths of the steps stand at the front of lengths, which has an entry for
 * each group; *taken says how many, and entries past them stay. Length 0 takes no group; what is left of the last one's growth is lost.
 * BROKEN for the bench, UNIT, CHILD, LENGTH where length is negative; then position by position, the lowest at which a step is refused: BROKEN where the group is
 * not sound, NOTHING where it is empty, STUCK where it is conflicts or a growth of 0 or less, LENGTH and BELOW as a growth by the step is, SHORT past the last
 * group; then SMALL, where lengths_len is below the number of groups, one that is cut short counted. Groups that are not reached are not tested. Refused, neither
 * bench nor lengths have changed, and *taken is 0. */
uint8_t dual_ledger_grow_recorded(uint64_t *bench, uint8_t unit, int64_t length, const uint64_t *groups, size_t groups_len, uint64_t *lengths, size_t lengths_len,
                                  size_t *taken);
uint8_t dual_ledger_trusted_grow_recorded(uint64_t *bench, uint8_t unit, int64_t length, const uint64_t *groups, size_t groups_len, uint64_t *lengths,
                                          size_t lengths_len, size_t *taken);

/* ---- text records [Lines] [Answers]. hints are 512 numbers that the caller keeps from line to line; they may hold anything, no answer depends on them, and
 * zeros are right to begin with. The bench of a record is set up from serial 1. A record whose first line may be an M, which chooses the engine, is begun by
 * dual_ledger_text_opening; to the other functions an M is LINE. */

#define DUAL_LEDGER_HINTS 512
#define DUAL_LEDGER_HELD 1024
#define DUAL_LEDGER_ANSWER_BYTES 57

/* Does what a line says, its newline left out. Answers its number, and the three others; on words that hold no sound bench BROKEN and 0, 0, 0. */
uint8_t dual_ledger_text_line(uint64_t *bench, const uint8_t *line, size_t line_len, uint16_t *hints, uint64_t *serial, int64_t *speed, int64_t *sum);
uint8_t dual_ledger_trusted_text_line(uint64_t *bench, const uint8_t *line, size_t line_len, uint16_t *hints, uint64_t *serial, int64_t *speed, int64_t *sum);
/* Does the lines that a chunk of a record ends, and writes their answers, wrote bytes, at the front of out. line keeps DUAL_LEDGER_HELD bytes of a line that is
 * not ended yet, of which *held are in use: 0 to begin with. However a record is cut, the answers are those of the whole. Answers 0; SMALL where out has
 * less than DUAL_LEDGER_ANSWER_BYTES bytes for each byte of the chunk; BROKEN where *held is above DUAL_LEDGER_HELD or the words hold no sound bench. */
uint8_t dual_ledger_text_chunk(uint64_t *bench, const uint8_t *chunk, size_t chunk_len, uint8_t *line, size_t *held, uint16_t *hints, uint8_t *out,
                               size_t out_len, size_t *wrote);
uint8_t dual_ledger_trusted_text_chunk(uint64_t *bench, const uint8_t *chunk, size_t chunk_len, uint8_t *line, size_t *held, uint16_t *hints, uint8_t *out,
                                       size_t out_len, size_t *wrote);
/* The same for the chunk that begins a record: it sets the bench up, whatever the words hold, in the engine that the first line chooses, else in the lazy one.
 * Nothing is written exactly where that line is not ended yet: then the next chunk is given to this function too. BROKEN only where *held is above
 * DUAL_LEDGER_HELD. */
uint8_t dual_ledger_text_opening(uint64_t *bench, const uint8_t *chunk, size_t chunk_len, uint8_t *line, size_t *held, uint16_t *hints, uint8_t *out,
                                 size_t out_len, size_t *wrote);
/* The record ends: where something is held, a line without newline, its answer LINE is written. SMALL where out has less than DUAL_LEDGER_ANSWER_BYTES bytes. */
uint8_t dual_ledger_text_end(size_t held, uint8_t *out, size_t out_len, size_t *wrote);

/* ---- files of byte records [Byte records]. Any bytes may be lent. */

/* How many records a file has, if it is whole: every number of the trailer and the list, and every record, is looked at. Else FILE and 0. */
uint8_t dual_ledger_records_count(const uint8_t *file, size_t file_len, size_t *count);
/* What record `at` says, the first being 0, as words at the front of out, wrote of them; words past them stay. They are its letter, its unit and its other fields in
 * order: D vertex; B the number of members, then of each its serial, first and second; E serial; S serial, state; G length; F left, right. A state and a length are
 * signed numbers in two's complement. Found by the trailer and the list, in the same time wherever it stands: these, two starts and the record are looked at, not the
 * file (which dual_ledger_records_count does). Of a whole file it is the file's operation; of others FILE where what was looked at does not fit. RANGE where `at` is
 * at or past the number of records; SMALL, last, where out is too short: DUAL_LEDGER_RECORD_WORDS are enough. Refused, *wrote is 0 and out is as it was. */
#define DUAL_LEDGER_RECORD_WORDS 1533
uint8_t dual_ledger_records_get(const uint8_t *file, size_t file_len, size_t at, uint64_t *out, size_t out_len, size_t *wrote);
/* Moves a text record to a file of byte records, every pair the member itself: wrote bytes at the front of out; bytes past them stay. FILE where a line is not
 * of the grammar or has no newline, or the file would pass 4,294,967,295 bytes; SMALL, last, where out is too short: 6 bytes for each of the text and 16 are
 * enough. Refused, *wrote is 0 and out is as it was. */
uint8_t dual_ledger_to_records(const uint8_t *text, size_t text_len, uint8_t *out, size_t out_len, size_t *wrote);
/* Moves a file of byte records to text. FILE where it is not whole; then SELF where a pair is not the member itself, which a line cannot say; SMALL, last, where
 * out is too short: twice the file is enough. What was moved there and back is the same bytes. */
uint8_t dual_ledger_to_text(const uint8_t *file, size_t file_len, uint8_t *out, size_t out_len, size_t *wrote);

/* Runs a file of byte records, operation by operation, as the single calls answer: four numbers each at the front of answers, which are those of its text line,
 * number, serial (of K the verdict), speed and sum; count says how many operations there were, and entries past 4 times that stay. A refused operation changes
 * nothing, and the run goes on. FILE first; then BROKEN, once; then SMALL, where answers_len is below 4 times the number of records: refused, neither bench
 * nor answers have changed, and *count is 0. */
uint8_t dual_ledger_run_records(uint64_t *bench, const uint8_t *file, size_t file_len, int64_t *answers, size_t answers_len, size_t *count);
uint8_t dual_ledger_trusted_run_records(uint64_t *bench, const uint8_t *file, size_t file_len, int64_t *answers, size_t answers_len, size_t *count);

/* ---- the numbers [Refusals] */

#define DUAL_LEDGER_LINE 1 /* text program: line not of the grammar */
#define DUAL_LEDGER_BROKEN 2 /* bench or group words that are not sound */
#define DUAL_LEDGER_UNIT 3 /* an interface the call names above 7 (inside a handle it is STALE) */
#define DUAL_LEDGER_CHILD 4 /* an interface named has a parent */
#define DUAL_LEDGER_LENGTH 5 /* growth negative, or progress would pass 2^40 */
#define DUAL_LEDGER_CIRCLE 6 /* 0 or more than 64 members */
#define DUAL_LEDGER_TOUCH 7 /* touching list neither empty nor as long as the circle */
#define DUAL_LEDGER_STALE 8 /* a handle names no present node of that serial; for extend, any handle of the other group */
#define DUAL_LEDGER_FOREIGN 9 /* a node, touching ones too, of another tree than the call's interface */
#define DUAL_LEDGER_KIND 10 /* expanding a defect; a pop or peek of a growth */
#define DUAL_LEDGER_INSIDE 11 /* set state, expand, or circle member with a parent */
#define DUAL_LEDGER_TOP 12 /* node below the outermost asked of a node without parent */
#define DUAL_LEDGER_TWICE 13 /* a member twice */
#define DUAL_LEDGER_FULL 14 /* all 64 slots of the interface used since its clear; of one that fills emptied slots, 64 nodes present */
#define DUAL_LEDGER_WORN 15 /* no serial left after 4,294,967,295; set-up from 0 */
#define DUAL_LEDGER_PAIR 16 /* fuse: left is right, or parent's number not above both */
#define DUAL_LEDGER_USED 17 /* fuse: parent has slots used, progress or children */
#define DUAL_LEDGER_RANGE 18 /* index at or past the count */
#define DUAL_LEDGER_SMALL 19 /* slice shorter than the defect size, than the picture, than what is moved, or than the recording has groups */
#define DUAL_LEDGER_ROOM 20 /* list or stops would pass 128 at any step */
#define DUAL_LEDGER_NOTHING 21 /* growth asked of (largest weight, any flag) */
#define DUAL_LEDGER_SELF 22 /* moving back a record whose pair is not the member itself */
#define DUAL_LEDGER_FILE 23 /* a trailer, list or record that does not fit, or a text with a bad line */
#define DUAL_LEDGER_UNSOUND 24 /* the check of the interface says other than 0 */
#define DUAL_LEDGER_BELOW 25 /* growth: a shrinking node of a floored tree would fall below zero */
#define DUAL_LEDGER_MARK 26 /* an interface marked that has slots used, or halves; fuse: one half floored and the other not */
#define DUAL_LEDGER_STUCK 27 /* recorded growth: conflicts, or a growth of 0 or less */
#define DUAL_LEDGER_SHORT 28 /* recorded growth: no group left */

/* The name of a number: "STALE" for 8; "ACCEPTED" for 0; NULL for a number that no function answers. */
static inline const char *dual_ledger_refusal_name(uint8_t number) {
    static const char *const names[29] = {"ACCEPTED", "LINE", "BROKEN", "UNIT", "CHILD",   "LENGTH", "CIRCLE", "TOUCH",   "STALE", "FOREIGN", "KIND", "INSIDE",  "TOP",   "TWICE",
                                          "FULL",     "WORN", "PAIR",   "USED", "RANGE", "SMALL",  "ROOM",   "NOTHING", "SELF",  "FILE",    "UNSOUND", "BELOW", "MARK",
                                          "STUCK",    "SHORT"};
    return number < 29 ? names[number] : NULL;
}

/* ---- stack: the most bytes that a function needs below its caller's frame on x86-64, its return address included. The C library's memcpy
 * and its like are not counted, nor is binding them at the first call (link with -z now, or statically). A function that goes
 * down a nest by calling itself is counted for the deepest that a sound bench can hold. By oracle/stack; tests/linked holds
 * every row by painted stacks, to 64 bytes; that of dual_ledger_text_opening counts a call that no text is known to take.
 *
 *   dual_ledger_check_ptr_belonging                     792
 *   dual_ledger_clear                                   824
 *   dual_ledger_create_blossom                          816
 *   dual_ledger_create_defect_node                      792
 *   dual_ledger_empty_group                               8
 *   dual_ledger_expand_blossom                          792
 *   dual_ledger_fuse                                    808
 *   dual_ledger_get_all_vertices                      21576   48 a level, of 448
 *   dual_ledger_get_ancestor_blossom                    792
 *   dual_ledger_get_dual_variable                       792
 *   dual_ledger_get_node                               1800
 *   dual_ledger_get_representative_vertex               776
 *   dual_ledger_get_secondary_ancestor_blossom          792
 *   dual_ledger_group_add                               776
 *   dual_ledger_group_extend                            776
 *   dual_ledger_group_get_none_zero_growth               40
 *   dual_ledger_group_is_active                          40
 *   dual_ledger_group_is_empty                           40
 *   dual_ledger_group_is_sound                           24
 *   dual_ledger_group_peek                               40
 *   dual_ledger_group_pop                                88
 *   dual_ledger_group_pop_sparing_stops                  88
 *   dual_ledger_grow                                   1912
 *   dual_ledger_grow_recorded                          2200
 *   dual_ledger_is_filling                              776
 *   dual_ledger_is_floored                              776
 *   dual_ledger_is_sound                                760
 *   dual_ledger_mark_filling                            776
 *   dual_ledger_mark_floored                            776
 *   dual_ledger_next_present                           1800
 *   dual_ledger_nodes_count                            1800
 *   dual_ledger_present_count                          1784
 *   dual_ledger_records_count                           264
 *   dual_ledger_records_get                             184
 *   dual_ledger_run_records                           21640
 *   dual_ledger_sanity_check                          18584
 *   dual_ledger_set_grow_state                          824
 *   dual_ledger_set_up                                   40
 *   dual_ledger_set_up_plain                             40
 *   dual_ledger_snapshot                              27032
 *   dual_ledger_strict_check                          18584
 *   dual_ledger_sum_dual_variables                      776
 *   dual_ledger_sum_grow_speed                          776
 *   dual_ledger_text_chunk                            19544
 *   dual_ledger_text_end                                  8
 *   dual_ledger_text_line                             19400
 *   dual_ledger_text_opening                          19464
 *   dual_ledger_to_records                             8408
 *   dual_ledger_to_text                                 744
 *   dual_ledger_told_create_blossom                     816
 *   dual_ledger_told_create_defect_node                 208
 *   dual_ledger_told_expand_blossom                     184
 *   dual_ledger_told_grow                              1896
 *   dual_ledger_told_set_grow_state                     120
 *   dual_ledger_trusted_check_ptr_belonging              24
 *   dual_ledger_trusted_clear                            88
 *   dual_ledger_trusted_create_blossom                  800
 *   dual_ledger_trusted_create_defect_node              208
 *   dual_ledger_trusted_expand_blossom                  168
 *   dual_ledger_trusted_fuse                             64
 *   dual_ledger_trusted_get_all_vertices              21528   48 a level, of 448
 *   dual_ledger_trusted_get_ancestor_blossom             24
 *   dual_ledger_trusted_get_dual_variable                56
 *   dual_ledger_trusted_get_node                       1784
 *   dual_ledger_trusted_get_representative_vertex         8
 *   dual_ledger_trusted_get_secondary_ancestor_blossom     40
 *   dual_ledger_trusted_group_add                       144
 *   dual_ledger_trusted_group_extend                    192
 *   dual_ledger_trusted_group_get_none_zero_growth        8
 *   dual_ledger_trusted_group_is_active                   8
 *   dual_ledger_trusted_group_is_empty                    8
 *   dual_ledger_trusted_group_peek                        8
 *   dual_ledger_trusted_group_pop                        88
 *   dual_ledger_trusted_group_pop_sparing_stops          88
 *   dual_ledger_trusted_grow                           1880
 *   dual_ledger_trusted_grow_recorded                  2168
 *   dual_ledger_trusted_is_filling                        8
 *   dual_ledger_trusted_is_floored                        8
 *   dual_ledger_trusted_mark_filling                      8
 *   dual_ledger_trusted_mark_floored                      8
 *   dual_ledger_trusted_next_present                   1800
 *   dual_ledger_trusted_nodes_count                    1784
 *   dual_ledger_trusted_present_count                  1784
 *   dual_ledger_trusted_run_records                   21624
 *   dual_ledger_trusted_sanity_check                  18568
 *   dual_ledger_trusted_set_grow_state                  104
 *   dual_ledger_trusted_snapshot                      26984
 *   dual_ledger_trusted_strict_check                  18568
 *   dual_ledger_trusted_sum_dual_variables                8
 *   dual_ledger_trusted_sum_grow_speed                    8
 *   dual_ledger_trusted_text_chunk                    19496
 *   dual_ledger_trusted_text_line                     19416
 * ---- end of the stack's table */

#ifdef __cplusplus
}
#endif

#endif
