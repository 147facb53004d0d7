/*
 * Yeshqoram: GFA text reported on, normalized and spelled, by code that is proved.
 *
 * The library is crates/exports/out/libexports.a, written by `rt lib` in crates/exports.
 *
 * Of every call, on every input, this is proved:
 *   - the answer's four fields, and the statistics, are those of the definition (docs/DEFINITIONS.md);
 *   - out: the answer fills its front, and the bytes behind it are as they were; on a refusal all of it is as it was;
 *   - work: every word is 0 after the call, whatever it held before.
 * A caller tests nothing beforehand. What C asks of any call is owed here too: each address is that of an array of the length
 * beside it and is not NULL (a length may be 0), and out, work and text do not overlap.
 *
 * Refusals (document 01, "Refused calls"); a field that is not named is 0:
 *    1        the text is longer than 1,048,576 bytes
 *    2        from: the offset of a byte of 128 or more
 *    3        from: the offset of a carriage return that is not followed at once by a line feed
 *    4        the work area is shorter than YESHQORAM_LEAST_WORK words
 *    5 to 17  line: the first line, counted from 1, that cannot be read
 *   18        from, length: the name in the text of a path step that names no segment
 *   19        from, length: the name in the text of a path step whose segment has the sequence `*`
 *   20        never given
 *   21        no path has that number
 *   22        the output buffer is shorter than the answer
 */
#ifndef YESHQORAM_H
#define YESHQORAM_H

#include <stddef.h>
#include <stdint.h>

#ifdef __cplusplus
extern "C" {
#endif

#define YESHQORAM_LONGEST_TEXT ((size_t)1048576)
#define YESHQORAM_LEAST_WORK(text_length) (4 * (size_t)(text_length) + 64)

/* No cap: a segment of any length may be folded. */
#define YESHQORAM_NO_CAP ((size_t)0)

typedef struct {
    size_t number; /* 0: accepted; else the number of the refusal */
    size_t line;   /* the line that is refused, from 1 */
    size_t from;   /* the offset of what is refused, from 0 */
    size_t length; /* accepted: how many bytes were written; refused: the length of the name that is refused */
} yeshqoram_answer;

/* All are 0 on a refusal. A self-link has equal ends; a pair is two adjacent steps of a path. */
typedef struct {
    size_t input_direct_self_loop_edges;          /* self-links of the text */
    size_t output_direct_self_loop_edges;         /* self-links of the output */
    size_t input_adjacent_same_node_path_steps;   /* pairs on one node, of the text */
    size_t output_adjacent_same_node_path_steps;  /* and of the output */
    size_t input_adjacent_same_step_path_steps;   /* pairs of equal steps, of the text */
    size_t output_adjacent_same_step_path_steps;  /* and of the output */
    size_t normalized_nodes;                      /* folded segments */
    size_t collapsed_runs;                        /* runs turned into one step */
    size_t created_segments;                      /* new segments */
    size_t added_links;                           /* new links */
    size_t removed_self_loop_links;               /* links of equal ends and orientations on folded segments */
    size_t paths_changed;                         /* paths with a folded run */
    size_t path_steps_before;                     /* steps of all paths of the text */
    size_t path_steps_after;                      /* and of the output */
} yeshqoram_stats;

typedef struct {
    yeshqoram_answer answer;
    yeshqoram_stats stats;
} yeshqoram_normalized;

/* Reports on a text, with the first top_n nodes. Refusals: 1 to 17 and 22. */
yeshqoram_answer yeshqoram_report(const uint8_t *text, size_t text_length, size_t top_n,
                                  uint8_t *out, size_t out_length, uint32_t *work, size_t work_length);

/*
 * Folds the runs on self-looped segments whose sequence has at most cap bytes; cap 0 is no cap. Refusals: 1 to 19 and 22.
 * Of every accepted output, read again, it is proved that each path spells what it spelled, and has lost exactly the steps of its
 * folded runs, which is also its fall in adjacent equal steps; and that a looser cap folds at least as much.
 */
yeshqoram_normalized yeshqoram_normalize(const uint8_t *text, size_t text_length, size_t cap,
                                         uint8_t *out, size_t out_length, uint32_t *work, size_t work_length);

/* Spells path k, counted from 0. Refusals: 1 to 19, 21 and 22. */
yeshqoram_answer yeshqoram_spell_path(const uint8_t *text, size_t text_length, size_t k,
                                      uint8_t *out, size_t out_length, uint32_t *work, size_t work_length);

#ifdef __cplusplus
}
#endif

#endif
