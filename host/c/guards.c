/*
 * Guard pages around all that a program lends. Linked with -Wl,--wrap=NAME for each function of reader.h, every call goes
 * through a __wrap_ function here: each buffer is copied into pages of its own, the library works on the copies, and
 * what it may write is copied back. Nobody may touch the pages beside. With GUARD=behind in the environment a copy ends
 * where they begin, with GUARD=before it begins where they end, and what is left of its own pages has a pattern that
 * must still be there afterwards. A buffer that is only read stands in pages that nobody may write. So a touch outside
 * stops the program. That it does is tried first.
 */
#define _DEFAULT_SOURCE
#include <signal.h>
#include <stdio.h>
#include <stdlib.h>
#include <string.h>
#include <sys/mman.h>
#include <sys/wait.h>
#include <unistd.h>

#include "reader.h"

/* As large as pages get on the machines that run this, under an emulator too. */
#define PAGE ((size_t)65536)
#define PATTERN 0xA5
/* What a process that was stopped by a touch outside ends with. */
#define STOPPED 111

enum access { READ_ONLY, WRITABLE };

typedef struct copy {
    uint8_t *bytes;
    size_t length;
    enum access access;
    uint8_t *pages; /* its own pages, between those that nobody may touch */
    size_t pages_length;
    uint8_t *mapped; /* all of them */
    size_t mapped_length;
} copy;

static int behind;
static unsigned long lent;

static void fail(const char *why) {
    fprintf(stderr, "guards: %s\n", why);
    _exit(1);
}

static uint8_t *page_from(uint8_t *at) {
    return at + (PAGE - (uintptr_t)at % PAGE) % PAGE;
}

/* ---- a buffer lent, and taken back */

static copy lend(const void *from, size_t length, enum access access) {
    copy c;
    void *mapped;
    c.length = length;
    c.access = access;
    c.pages_length = (length + PAGE - 1) / PAGE * PAGE;
    c.mapped_length = c.pages_length + 3 * PAGE;
    mapped = mmap(NULL, c.mapped_length, PROT_NONE, MAP_PRIVATE | MAP_ANONYMOUS, -1, 0);
    if (mapped == MAP_FAILED) fail("no memory");
    c.mapped = (uint8_t *)mapped;
    c.pages = page_from(c.mapped) + PAGE;
    c.bytes = behind ? c.pages + c.pages_length - length : c.pages;
    if (c.pages_length > 0) {
        if (mprotect(c.pages, c.pages_length, PROT_READ | PROT_WRITE) != 0) fail("no pages to write");
        memset(c.pages, PATTERN, c.pages_length);
        memcpy(c.bytes, from, length);
        if (access == READ_ONLY && mprotect(c.pages, c.pages_length, PROT_READ) != 0) fail("no pages to read");
    }
    lent++;
    return c;
}

/* Whether what is left of the copy's own pages is as it was. */
static int is_whole(const copy *c) {
    const uint8_t *at;
    for (at = c->pages; at < c->pages + c->pages_length; at++) {
        if ((at < c->bytes || at >= c->bytes + c->length) && *at != PATTERN) return 0;
    }
    return 1;
}

static void give_back(copy *c) {
    if (!is_whole(c)) fail("a byte outside a buffer was written");
    if (munmap(c->mapped, c->mapped_length) != 0) fail("pages cannot be given back");
}

static void take_back(copy *c, void *to) {
    memcpy(to, c->bytes, c->length);
    give_back(c);
}

/* ---- that a touch outside is found, tried before the program begins */

static void stop(int number) {
    (void)number;
    _exit(STOPPED);
}

/* Whether to read, or to write, this byte stops the process that does it. */
static int stops(volatile uint8_t *at, enum access access) {
    int status;
    const pid_t child = fork();
    if (child < 0) fail("no process");
    if (child == 0) {
        signal(SIGSEGV, stop);
        if (access == WRITABLE) {
            *at = 1;
        } else {
            (void)*at;
        }
        _exit(0);
    }
    if (waitpid(child, &status, 0) != child || !WIFEXITED(status)) fail("a process is lost");
    return WEXITSTATUS(status) == STOPPED;
}

static void try_guards(void) {
    const uint8_t five[5] = {1, 2, 3, 4, 5};
    copy c = lend(five, 5, WRITABLE);
    uint8_t *guarded = behind ? c.bytes + 5 : c.bytes - 1;
    uint8_t *open = behind ? c.bytes - 1 : c.bytes + 5;
    if (!stops(guarded, READ_ONLY) || !stops(guarded, WRITABLE)) fail("a touch outside is not stopped");
    if (stops(c.bytes, WRITABLE) || stops(c.bytes + 4, WRITABLE)) fail("a touch inside is stopped");
    *open = 0;
    if (is_whole(&c)) fail("a byte written outside is not seen");
    *open = PATTERN;
    give_back(&c);
    c = lend(five, 5, READ_ONLY);
    if (stops(c.bytes, READ_ONLY) || !stops(c.bytes, WRITABLE)) fail("what is only read can be written");
    give_back(&c);
    lent = 0;
}

static void tell(void) {
    fprintf(stderr, "%lu buffers lent with a guard page %s\n", lent, behind ? "behind" : "before");
}

__attribute__((constructor)) static void begin(void) {
    const char *side = getenv("GUARD");
    if (side == NULL || (strcmp(side, "behind") != 0 && strcmp(side, "before") != 0)) fail("GUARD is behind or before");
    behind = strcmp(side, "behind") == 0;
    try_guards();
    atexit(tell);
}

/* ---- the functions: __real_ is the library's, __wrap_ is what the program calls; both are declared as reader.h has them */

#define WORDS(length) ((length) * sizeof(uint32_t))
#define THROUGH(name) extern __typeof__(name) __real_##name, __wrap_##name

THROUGH(reader_code);
THROUGH(reader_address);
THROUGH(reader_pad);
THROUGH(reader_open);
THROUGH(reader_check);
THROUGH(reader_enter);
THROUGH(reader_file);
THROUGH(reader_show);
THROUGH(reader_withdraw);
THROUGH(reader_job);
THROUGH(reader_report);

uint32_t __wrap_reader_code(const uint8_t *bytes, size_t length) {
    copy b = lend(bytes, length, READ_ONLY);
    const uint32_t code = __real_reader_code(b.bytes, length);
    give_back(&b);
    return code;
}

uint32_t __wrap_reader_address(uint32_t code, uint32_t maxp, uint32_t p) {
    return __real_reader_address(code, maxp, p);
}

void __wrap_reader_pad(const uint8_t *label, size_t label_length, reader_serial *serial) {
    copy l = lend(label, label_length, READ_ONLY);
    copy s = lend(serial, sizeof *serial, WRITABLE);
    __real_reader_pad(l.bytes, label_length, (reader_serial *)s.bytes);
    take_back(&s, serial);
    give_back(&l);
}

uint32_t __wrap_reader_open(uint32_t *words, size_t words_length, uint32_t cards, uint32_t faults, uint32_t upper,
                            uint32_t lower) {
    copy w = lend(words, WORDS(words_length), WRITABLE);
    const uint32_t number = __real_reader_open((uint32_t *)w.bytes, words_length, cards, faults, upper, lower);
    take_back(&w, words);
    return number;
}

uint32_t __wrap_reader_check(const uint32_t *words, size_t words_length, uint8_t *scratch, size_t scratch_length) {
    copy w = lend(words, WORDS(words_length), READ_ONLY);
    copy s = lend(scratch, scratch_length, WRITABLE);
    const uint32_t number = __real_reader_check((const uint32_t *)w.bytes, words_length, s.bytes, scratch_length);
    give_back(&w);
    take_back(&s, scratch);
    return number;
}

reader_answer __wrap_reader_enter(uint32_t *words, size_t words_length, uint8_t *scratch, size_t scratch_length,
                                  const reader_serial *serial, size_t serial_length) {
    copy w = lend(words, WORDS(words_length), WRITABLE);
    copy s = lend(scratch, scratch_length, WRITABLE);
    copy y = lend(serial, sizeof *serial, READ_ONLY);
    const reader_answer a = __real_reader_enter((uint32_t *)w.bytes, words_length, s.bytes, scratch_length,
                                                (const reader_serial *)y.bytes, serial_length);
    take_back(&w, words);
    take_back(&s, scratch);
    give_back(&y);
    return a;
}

reader_answer __wrap_reader_file(uint32_t *words, size_t words_length, uint8_t *scratch, size_t scratch_length,
                                 const reader_serial *serial, size_t serial_length, uint32_t day, uint32_t code) {
    copy w = lend(words, WORDS(words_length), WRITABLE);
    copy s = lend(scratch, scratch_length, WRITABLE);
    copy y = lend(serial, sizeof *serial, READ_ONLY);
    const reader_answer a = __real_reader_file((uint32_t *)w.bytes, words_length, s.bytes, scratch_length,
                                               (const reader_serial *)y.bytes, serial_length, day, code);
    take_back(&w, words);
    take_back(&s, scratch);
    give_back(&y);
    return a;
}

reader_answer __wrap_reader_show(const uint32_t *words, size_t words_length, uint8_t *scratch, size_t scratch_length,
                                 const reader_serial *serial, size_t serial_length, uint32_t *room,
                                 size_t room_length) {
    copy w = lend(words, WORDS(words_length), READ_ONLY);
    copy s = lend(scratch, scratch_length, WRITABLE);
    copy y = lend(serial, sizeof *serial, READ_ONLY);
    copy r = lend(room, WORDS(room_length), WRITABLE);
    const reader_answer a =
        __real_reader_show((const uint32_t *)w.bytes, words_length, s.bytes, scratch_length,
                           (const reader_serial *)y.bytes, serial_length, (uint32_t *)r.bytes, room_length);
    give_back(&w);
    take_back(&s, scratch);
    give_back(&y);
    take_back(&r, room);
    return a;
}

reader_answer __wrap_reader_withdraw(uint32_t *words, size_t words_length, uint8_t *scratch, size_t scratch_length,
                                     const reader_serial *serial, size_t serial_length, uint32_t *room,
                                     size_t room_length) {
    copy w = lend(words, WORDS(words_length), WRITABLE);
    copy s = lend(scratch, scratch_length, WRITABLE);
    copy y = lend(serial, sizeof *serial, READ_ONLY);
    copy r = lend(room, WORDS(room_length), WRITABLE);
    const reader_answer a =
        __real_reader_withdraw((uint32_t *)w.bytes, words_length, s.bytes, scratch_length,
                               (const reader_serial *)y.bytes, serial_length, (uint32_t *)r.bytes, room_length);
    take_back(&w, words);
    take_back(&s, scratch);
    give_back(&y);
    take_back(&r, room);
    return a;
}

reader_done __wrap_reader_job(uint32_t *words, size_t words_length, uint8_t *scratch, size_t scratch_length,
                              const uint8_t *text, size_t text_length, uint8_t *out, size_t out_length,
                              reader_tally *tally) {
    copy w = lend(words, WORDS(words_length), WRITABLE);
    copy s = lend(scratch, scratch_length, WRITABLE);
    copy x = lend(text, text_length, READ_ONLY);
    copy o = lend(out, out_length, WRITABLE);
    copy t = lend(tally, sizeof *tally, WRITABLE);
    const reader_done d = __real_reader_job((uint32_t *)w.bytes, words_length, s.bytes, scratch_length, x.bytes,
                                            text_length, o.bytes, out_length, (reader_tally *)t.bytes);
    take_back(&w, words);
    take_back(&s, scratch);
    give_back(&x);
    take_back(&o, out);
    take_back(&t, tally);
    return d;
}

reader_wrote __wrap_reader_report(const uint32_t *words, size_t words_length, const uint32_t *lengths, size_t stores,
                                  uint8_t *scratch, size_t scratch_length, uint8_t *out, size_t out_length) {
    copy w = lend(words, WORDS(words_length), READ_ONLY);
    copy l = lend(lengths, WORDS(stores), READ_ONLY);
    copy s = lend(scratch, scratch_length, WRITABLE);
    copy o = lend(out, out_length, WRITABLE);
    const reader_wrote r = __real_reader_report((const uint32_t *)w.bytes, words_length, (const uint32_t *)l.bytes,
                                                stores, s.bytes, scratch_length, o.bytes, out_length);
    give_back(&w);
    give_back(&l);
    take_back(&s, scratch);
    take_back(&o, out);
    return r;
}
