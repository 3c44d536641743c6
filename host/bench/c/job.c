#include "job.h"

#include <string.h>

#include "line.h"
#include "text.h"

static void add(uint64_t *count, uint64_t more) {
    *count = *count + more < *count ? UINT64_MAX : *count + more;
}

static void count_done(struct tally *tally, enum operation operation) {
    switch (operation) {
    case ENTER:
        add(&tally->entries, 1);
        break;
    case WITHDRAW:
        add(&tally->withdrawals, 1);
        break;
    case FILE_FAULT:
        add(&tally->filings, 1);
        break;
    case SHOW:
        break;
    }
}

/* Makes the change of an accepted line, and counts it. */
static void carry_out(uint32_t *words, const struct request *request, const struct spot *spot, struct tally *tally) {
    uint32_t before = buckets_of(words);
    change(words, request, spot);
    uint32_t after = buckets_of(words);
    count_done(tally, request->operation);
    add(&tally->splits, before < after);
    add(&tally->contractions, after < before);
}

/* The answer to a line, before it has any effect. */
static struct plan plan_line(const uint32_t *words, const uint8_t *line, size_t length, struct request *request) {
    if (!parse_line(line, length, request)) {
        return (struct plan){{12, 0, 0, 0}, {0, 0, 0, 0}};
    }
    return decide(words, request);
}

/* Lists the faults that an accepted line shows, and gives their number. */
static uint32_t list_shown(const uint32_t *words, const struct request *request, const struct spot *spot,
                           struct pair *list) {
    bool shows = request->operation == SHOW || request->operation == WITHDRAW;
    return shows ? list_faults(words, spot->cell, list) : 0;
}

/* Answers one line and does it, and gives the bytes written: 0 if the answer does not fit, and then nothing is done. */
static size_t run_line(uint32_t *words, const uint8_t *line, size_t length, struct pair *list, struct room out,
                       struct tally *tally) {
    struct request request;
    struct plan plan = plan_line(words, line, length, &request);
    bool done = plan.answer.number == 0;
    uint32_t count = done ? list_shown(words, &request, &plan.spot, list) : 0;
    size_t needed = answer_length(&plan.answer, list, count);
    if (needed > out.length) {
        return 0;
    }
    write_answer(&plan.answer, list, count, out.bytes);
    add(&tally->comparisons, plan.answer.comparisons);
    if (done) {
        carry_out(words, &request, &plan.spot, tally);
    }
    return needed;
}

/* How long the line at the start of this text is, without its LF. */
static size_t line_length(const uint8_t *text, size_t rest) {
    const uint8_t *end = memchr(text, '\n', rest);
    return end == NULL ? rest : (size_t)(end - text);
}

static struct done run_lines(uint32_t *words, struct text text, struct room out, struct tally *tally) {
    struct pair list[MOST_FAULTS];
    struct done done = {0, 0, 0};
    for (size_t at = 0; at < text.length;) {
        size_t length = line_length(text.bytes + at, text.length - at);
        struct room left = {out.bytes + done.bytes, out.length - done.bytes};
        size_t written = run_line(words, text.bytes + at, length, list, left, tally);
        if (written == 0) {
            done.number = 10;
            return done;
        }
        done.lines++;
        done.bytes += (uint32_t)written;
        at += length + 1;
    }
    return done;
}

struct done run_job(uint32_t *words, size_t length, struct room scratch, struct text text, struct room out,
                    struct tally *tally) {
    if (scratch.length < SCRATCH) {
        return (struct done){11, 0, 0};
    }
    if (text.length > LONGEST_JOB) {
        memset(scratch.bytes, 0, SCRATCH);
        return (struct done){13, 0, 0};
    }
    if (!sound(words, length, scratch.bytes)) {
        return (struct done){3, 0, 0};
    }
    return run_lines(words, text, out, tally);
}
