/*
 * The library called from C: valid, damaged, empty, longest and too long texts; a work area at its least and one word less;
 * an output buffer that fits exactly and one byte less. Both buffers are filled with a pattern before each call, and every
 * byte and word is looked at afterwards. It prints how many checks passed, or the first that failed.
 */
#include <stdio.h>
#include <stdlib.h>
#include <string.h>

#include "yeshqoram.h"

static size_t checks;

#define CHECK(that)                                                           \
    do {                                                                      \
        if (!(that)) {                                                        \
            printf("boundary.c:%d: %s\n", __LINE__, #that);                   \
            exit(1);                                                          \
        }                                                                     \
        checks++;                                                             \
    } while (0)

enum service { REPORT, NORMALIZE, SPELL };

struct buffers {
    uint8_t *out;
    size_t out_length;
    uint32_t *work;
    size_t work_length;
};

static uint8_t byte_at(size_t i) { return (uint8_t)(i * 37 + 11); }
static uint32_t word_at(size_t i) { return (uint32_t)(i * 2654435761u) | 1u; }

static struct buffers lend(size_t out_length, size_t work_length) {
    struct buffers b = {malloc(out_length + 1), out_length, malloc((work_length + 1) * sizeof(uint32_t)), work_length};
    if (b.out == NULL || b.work == NULL) {
        printf("boundary.c: no memory\n");
        exit(2);
    }
    /* One element behind each buffer, which no call may touch. */
    for (size_t i = 0; i <= out_length; i++) b.out[i] = byte_at(i);
    for (size_t i = 0; i <= work_length; i++) b.work[i] = word_at(i);
    return b;
}

/* Calls, and checks all that was not written: the rest of the output, the work area, and what is behind both. */
static yeshqoram_normalized call(enum service service, const uint8_t *text, size_t length, size_t arg, struct buffers b) {
    yeshqoram_normalized r = {{0, 0, 0, 0}, {0}};
    switch (service) {
    case REPORT: r.answer = yeshqoram_report(text, length, arg, b.out, b.out_length, b.work, b.work_length); break;
    case SPELL: r.answer = yeshqoram_spell_path(text, length, arg, b.out, b.out_length, b.work, b.work_length); break;
    case NORMALIZE: r = yeshqoram_normalize(text, length, arg, b.out, b.out_length, b.work, b.work_length); break;
    }
    size_t written = r.answer.number == 0 ? r.answer.length : 0;
    CHECK(written <= b.out_length);
    for (size_t i = written; i <= b.out_length; i++) if (b.out[i] != byte_at(i)) CHECK(!"a byte was changed");
    for (size_t i = 0; i < b.work_length; i++) if (b.work[i] != 0) CHECK(!"a word is not zero");
    CHECK(b.work[b.work_length] == word_at(b.work_length));
    if (r.answer.number != 0) {
        static const yeshqoram_stats none;
        CHECK(memcmp(&r.stats, &none, sizeof none) == 0);
    }
    return r;
}

static void give_back(struct buffers b) {
    free(b.out);
    free(b.work);
}

/* The answer's number where the buffers are as long as said. */
static size_t number(enum service service, const uint8_t *text, size_t length, size_t arg, size_t room, size_t work) {
    struct buffers b = lend(room, work);
    yeshqoram_normalized r = call(service, text, length, arg, b);
    give_back(b);
    return r.answer.number;
}

/* A text that is accepted: what is written, exactly that room, one byte less, the least work area, one word less. */
static void accepted(enum service service, const char *text, size_t arg, const char *wanted) {
    const uint8_t *bytes = (const uint8_t *)text;
    size_t length = strlen(text), need = strlen(wanted), work = YESHQORAM_LEAST_WORK(length);
    size_t rooms[] = {need, need + 1, need + 1000};
    for (size_t i = 0; i < 3; i++) {
        struct buffers b = lend(rooms[i], work + i);
        yeshqoram_normalized r = call(service, bytes, length, arg, b);
        CHECK(r.answer.number == 0 && r.answer.line == 0 && r.answer.from == 0);
        CHECK(r.answer.length == need);
        CHECK(memcmp(b.out, wanted, need) == 0);
        give_back(b);
    }
    if (need > 0) CHECK(number(service, bytes, length, arg, need - 1, work) == 22);
    CHECK(number(service, bytes, length, arg, need, work - 1) == 4);
}

static void refused(enum service service, const char *text, size_t arg, yeshqoram_answer wanted) {
    struct buffers b = lend(4096, YESHQORAM_LEAST_WORK(strlen(text)));
    yeshqoram_answer r = call(service, (const uint8_t *)text, strlen(text), arg, b).answer;
    CHECK(r.number == wanted.number);
    CHECK(r.line == wanted.line);
    CHECK(r.from == wanted.from);
    CHECK(r.length == wanted.length);
    give_back(b);
}

#define LISTING "S\t1\tAC\nL\t1\t+\t1\t+\t0M\nP\tp\t1+,1+,1+\t*\n"

static void small_texts(void) {
    accepted(NORMALIZE, LISTING, 0, "S\t1\tAC\nS\t2\tACACAC\nP\tp\t2+\t*\n");
    accepted(NORMALIZE, LISTING, 1, LISTING);
    accepted(NORMALIZE, LISTING, SIZE_MAX, "S\t1\tAC\nS\t2\tACACAC\nP\tp\t2+\t*\n");
    accepted(NORMALIZE, "", 0, "");
    accepted(SPELL, LISTING, 0, "ACACAC");
    accepted(SPELL, "S\t1\tacGN\nP\tp\t1-\n", 0, "NCGT");
    accepted(NORMALIZE, "S\t1\tAC\r\nL\t1\t+\t1\t+\t0M\r\nP\tp\t1+,1+,1+\t*\r\n", 0, "S\t1\tAC\nS\t2\tACACAC\nP\tp\t2+\t*\n");
    accepted(NORMALIZE, "S\t1\tAC\r\n", 0, "S\t1\tAC\r\n");
    accepted(REPORT, "", SIZE_MAX,
             "direct_self_loop_edges=0\ndirect_self_loop_nodes=0\nadjacent_same_node_path_steps=0\n"
             "adjacent_same_step_path_steps=0\nrepeated_path_runs=0\nmax_repeat_run_len=0\n");
    enum service all[] = {REPORT, NORMALIZE, SPELL};
    for (size_t i = 0; i < 3; i++) {
        refused(all[i], "S\t1\n", 0, (yeshqoram_answer){5, 1, 0, 0});
        refused(all[i], "#\xc3\n", 0, (yeshqoram_answer){2, 0, 1, 0});
        refused(all[i], "H\r", 0, (yeshqoram_answer){3, 0, 1, 0});
        refused(all[i], "\n\nW\ts\t1\tc\t0\t1\tabc\n", 0, (yeshqoram_answer){16, 3, 0, 0});
    }
    refused(NORMALIZE, LISTING "P\tq\t9+\t*\n", 0, (yeshqoram_answer){18, 0, 39, 1});
    refused(SPELL, "S\tx\t*\nP\tp\tx+\n", 0, (yeshqoram_answer){19, 0, 10, 1});
    refused(SPELL, LISTING, 1, (yeshqoram_answer){21, 0, 0, 0});
    refused(SPELL, LISTING, SIZE_MAX, (yeshqoram_answer){21, 0, 0, 0});
}

/* The longest text and one byte more: a comment, and the listing's graph in front of it. */
static void longest_text(void) {
    size_t longest = YESHQORAM_LONGEST_TEXT;
    uint8_t *text = malloc(longest + 1);
    if (text == NULL) exit(2);
    memset(text, '#', longest + 1);
    memcpy(text, LISTING, strlen(LISTING));
    size_t work = YESHQORAM_LEAST_WORK(longest);
    struct buffers b = lend(longest + 64, work);
    yeshqoram_normalized r = call(NORMALIZE, text, longest, 0, b);
    CHECK(r.answer.number == 0);
    CHECK(r.stats.collapsed_runs == 1 && r.stats.path_steps_before == 3 && r.stats.path_steps_after == 1);
    give_back(b);
    CHECK(number(REPORT, text, longest, 10, 4096, work) == 0);
    CHECK(number(SPELL, text, longest, 0, 6, work) == 0);
    CHECK(number(SPELL, text, longest, 0, 5, work) == 22);
    CHECK(number(SPELL, text, longest, 0, 6, work - 1) == 4);
    CHECK(number(REPORT, text, longest + 1, 10, 64, work + 4) == 1);
    CHECK(number(NORMALIZE, text, longest + 1, 0, 64, work + 4) == 1);
    CHECK(number(SPELL, text, longest + 1, 0, 64, work + 4) == 1);
    free(text);
}

/* An answer of 91 GB is refused as 22 at once. */
static void huge_answer(void) {
    size_t unit = 524000, steps = 174000;
    uint8_t *text = malloc(YESHQORAM_LONGEST_TEXT);
    if (text == NULL) exit(2);
    size_t at = 0;
    memcpy(text, "S\t1\t", 4);
    memset(text + 4, 'A', unit);
    at = 4 + unit;
    const char *link = "\nL\t1\t+\t1\t+\t0M\nP\tp\t";
    memcpy(text + at, link, strlen(link));
    at += strlen(link);
    for (size_t i = 0; i < steps; i++) {
        memcpy(text + at, i == 0 ? "1+" : ",1+", i == 0 ? 2 : 3);
        at += i == 0 ? 2 : 3;
    }
    memcpy(text + at, "\t*\n", 3);
    at += 3;
    CHECK(at <= YESHQORAM_LONGEST_TEXT);
    CHECK(number(NORMALIZE, text, at, 0, 1000, YESHQORAM_LEAST_WORK(at)) == 22);
    free(text);
}

int main(void) {
    small_texts();
    longest_text();
    huge_answer();
    printf("boundary: %zu checks from C\n", checks);
    return 0;
}
