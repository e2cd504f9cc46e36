/* What of libfugu is best tried from C: null pointers where nothing is handed over, a stack of FUGU_STACK bytes, and calls that run at once.
 *
 *     test SCRIPT..
 */
#define _XOPEN_SOURCE 700
#define _DEFAULT_SOURCE

#include "fugu.h"

#include <pthread.h>
#include <stdio.h>
#include <stdlib.h>
#include <string.h>
#include <sys/mman.h>
#include <ucontext.h>

/* All that a call may be lent. */
struct lent {
    uint32_t memory[FUGU_SIZE];
    uint32_t numbers[2];
    uint8_t text[64];
    uint64_t state[FUGU_TELL_STATE];
    uint8_t kept[FUGU_TELL_KEPT];
    uint8_t out[FUGU_TELL_OUT];
    uint32_t report[FUGU_REPORT];
    uint64_t part[FUGU_TELL];
};

static void failed(const char *what, const char *how) {
    fprintf(stderr, "%s: %s\n", what, how);
    exit(1);
}

/* ---- null pointers */

struct slice {
    void *at;
    size_t length;
};

enum { SLICES = 6 };

#define OF(n) s[n].at, s[n].length

static uint32_t by_power_on(const struct slice *s) { return fugu_power_on(OF(0), OF(1)); }
static uint32_t by_test(const struct slice *s) { return fugu_test(OF(0)); }
static uint32_t by_step(const struct slice *s) { return fugu_step(OF(0), FUGU_SWITCH, OF(1), OF(2)); }
static uint32_t by_line(const struct slice *s) { return fugu_line(OF(0), OF(1), OF(2)); }
static uint32_t by_head(const struct slice *s) { return fugu_head(OF(0), OF(1)); }
static uint32_t by_paging(const struct slice *s) { return fugu_paging(OF(0), OF(1)); }
static uint32_t by_why(const struct slice *s) { return fugu_why(OF(0), OF(1), 2, OF(2)); }
static uint32_t by_header(const struct slice *s) { return fugu_header(OF(0)); }
static uint32_t by_feed(const struct slice *s) { return fugu_feed(OF(0), OF(1), OF(2), OF(3), OF(4), OF(5)); }
static uint32_t by_feed_end(const struct slice *s) { return fugu_feed_end(OF(0), OF(1), OF(2), OF(3), OF(4)); }
static uint32_t by_tell(const struct slice *s) { return fugu_tell(OF(0), OF(1), OF(2), OF(3), OF(4), OF(5)); }
static uint32_t by_tell_end(const struct slice *s) { return fugu_tell_end(OF(0), OF(1), OF(2), OF(3), OF(4)); }

/* What each call takes, a letter for each pointer: memory, numbers, text, state, kept, out, report, part. */
static const struct {
    const char *name;
    uint32_t (*call)(const struct slice *);
    const char *takes;
} calls[] = {
    {"fugu_power_on", by_power_on, "mr"},
    {"fugu_test", by_test, "m"},
    {"fugu_step", by_step, "mnr"},
    {"fugu_line", by_line, "mtr"},
    {"fugu_head", by_head, "mr"},
    {"fugu_paging", by_paging, "mr"},
    {"fugu_why", by_why, "mtr"},
    {"fugu_header", by_header, "o"},
    {"fugu_feed", by_feed, "msktop"},
    {"fugu_feed_end", by_feed_end, "mskop"},
    {"fugu_tell", by_tell, "msktop"},
    {"fugu_tell_end", by_tell_end, "mskop"},
};

static struct slice slice_of(struct lent *lent, char which) {
    switch (which) {
    case 'm': return (struct slice){lent->memory, FUGU_SIZE};
    case 'n': return (struct slice){lent->numbers, 1};
    case 's': return (struct slice){lent->state, FUGU_TELL_STATE};
    case 'k': return (struct slice){lent->kept, FUGU_TELL_KEPT};
    case 'o': return (struct slice){lent->out, FUGU_TELL_OUT};
    case 'r': return (struct slice){lent->report, FUGU_REPORT};
    case 'p': return (struct slice){lent->part, FUGU_TELL};
    default: return (struct slice){lent->text, strlen((const char *)lent->text)};
    }
}

/* A call on a fresh node, with those of its slices empty that the bits name: by a null pointer, or by one that isn't. */
static uint32_t called(struct lent *lent, size_t call, unsigned empty, int null) {
    struct slice slices[SLICES];
    memset(lent, 0, sizeof *lent);
    fugu_power_on(lent->memory, FUGU_SIZE, lent->report, FUGU_REPORT);
    lent->numbers[0] = 1;
    strcpy((char *)lent->text, "S,1\nA,1,7\nD\nA,2");
    for (unsigned i = 0; i < strlen(calls[call].takes); i++) {
        slices[i] = slice_of(lent, calls[call].takes[i]);
        if (empty >> i & 1) {
            slices[i].length = 0;
            if (null) {
                slices[i].at = NULL;
            }
        }
    }
    return calls[call].call(slices);
}

/* Every choice of empty slices: a null pointer is as good as any, in what is returned and in all that is lent. */
static void nulls(void) {
    static struct lent null, other;
    for (size_t call = 0; call < sizeof calls / sizeof *calls; call++) {
        for (unsigned empty = 0; empty < 1u << strlen(calls[call].takes); empty++) {
            uint32_t by_null = called(&null, call, empty, 1);
            uint32_t by_other = called(&other, call, empty, 0);
            if (by_null != by_other || memcmp(&null, &other, sizeof null) != 0) {
                failed(calls[call].name, "a null pointer makes a difference");
            }
        }
    }
}

/* ---- every call over a script */

struct script {
    uint8_t *text;
    size_t length;
};

struct run {
    struct script script;
    struct lent lent;
    uint64_t sum;
};

/* A sum of all that calls hand back. */
static void add(struct run *run, const void *bytes, size_t length) {
    for (size_t i = 0; i < length; i++) {
        run->sum = (run->sum ^ ((const uint8_t *)bytes)[i]) * 1099511628211u;
    }
}

typedef uint32_t portion(uint32_t *, size_t, uint64_t *, size_t, uint8_t *, size_t, const uint8_t *, size_t, uint8_t *, size_t, uint64_t *, size_t);
typedef uint32_t end(uint32_t *, size_t, const uint64_t *, size_t, const uint8_t *, size_t, uint8_t *, size_t, uint64_t *, size_t);

/* A script in portions of at most a hundred bytes. */
static void in_portions(struct run *run, portion *feed, end *finish) {
    struct lent *lent = &run->lent;
    memset(lent, 0, sizeof *lent);
    fugu_power_on(lent->memory, FUGU_SIZE, lent->report, FUGU_REPORT);
    for (size_t at = 0; at < run->script.length; at += lent->part[FUGU_USED]) {
        size_t count = run->script.length - at < 100 ? run->script.length - at : 100;
        feed(lent->memory, FUGU_SIZE, lent->state, FUGU_TELL_STATE, lent->kept, FUGU_TELL_KEPT, run->script.text + at, count, lent->out,
             FUGU_TELL_OUT, lent->part, FUGU_TELL);
        add(run, lent->out, lent->part[FUGU_WRITTEN]);
    }
    finish(lent->memory, FUGU_SIZE, lent->state, FUGU_TELL_STATE, lent->kept, FUGU_TELL_KEPT, lent->out, FUGU_TELL_OUT, lent->part, FUGU_TELL);
    add(run, lent->out, lent->part[FUGU_WRITTEN]);
    add(run, lent->memory, sizeof lent->memory);
}

static void by_lines(struct run *run) {
    struct lent *lent = &run->lent;
    fugu_power_on(lent->memory, FUGU_SIZE, lent->report, FUGU_REPORT);
    for (size_t at = 0; at < run->script.length;) {
        const uint8_t *text = run->script.text + at;
        const uint8_t *newline = memchr(text, '\n', run->script.length - at);
        size_t length = newline ? (size_t)(newline - text) : run->script.length - at;
        fugu_line(lent->memory, FUGU_SIZE, text, length, lent->report, FUGU_REPORT);
        add(run, lent->report, sizeof lent->report);
        fugu_head(lent->memory, FUGU_SIZE, lent->report, FUGU_REPORT);
        add(run, lent->report, sizeof lent->report);
        at += length + 1;
    }
    fugu_paging(lent->memory, FUGU_SIZE, lent->report, FUGU_REPORT);
    add(run, lent->report, sizeof lent->report);
}

static void every_call(struct run *run) {
    run->sum = 14695981039346656037u + fugu_size();
    fugu_header(run->lent.out, FUGU_TELL_OUT);
    add(run, run->lent.out, FUGU_HEADER);
    in_portions(run, fugu_feed, fugu_feed_end);
    in_portions(run, fugu_tell, fugu_tell_end);
    by_lines(run);
    fugu_step(run->lent.memory, FUGU_SIZE, FUGU_TURN, NULL, 0, run->lent.report, FUGU_REPORT);
    add(run, run->lent.report, sizeof run->lent.report);
    fugu_why(run->lent.memory, FUGU_SIZE, run->script.text, run->script.length, 3, run->lent.report, FUGU_REPORT);
    add(run, run->lent.report, sizeof run->lent.report);
    run->sum += fugu_test(run->lent.memory, FUGU_SIZE);
}

/* ---- the stack */

/* The test's own frames, and what makecontext puts there. */
enum { PAGE = 4096, MARGIN = 1024, STACK = FUGU_STACK + MARGIN, UNTOUCHED = 0xa5 };

static ucontext_t back, small;
static struct run *on_small;

static void run_on_small(void) {
    every_call(on_small);
}

/* Every call on a stack of that size, below which there is nothing; how much of it they used. */
static size_t on_small_stack(struct run *run) {
    static uint8_t *pages;
    size_t unused = 0;
    if (pages == NULL) {
        pages = mmap(NULL, PAGE + STACK, PROT_READ | PROT_WRITE, MAP_PRIVATE | MAP_ANONYMOUS, -1, 0);
        if (pages == MAP_FAILED || mprotect(pages, PAGE, PROT_NONE) != 0) {
            failed("stack", "there is no memory for it");
        }
    }
    memset(pages + PAGE, UNTOUCHED, STACK);
    getcontext(&small);
    small.uc_stack.ss_sp = pages + PAGE;
    small.uc_stack.ss_size = STACK;
    small.uc_link = &back;
    on_small = run;
    makecontext(&small, run_on_small, 0);
    swapcontext(&back, &small);
    while (pages[PAGE + unused] == UNTOUCHED) {
        unused++;
    }
    return STACK - unused;
}

/* ---- threads */

enum { THREADS = 8 };

static struct run *runs;
static size_t count;

struct worker {
    size_t number;
    struct run run;
};

/* Every script in turn, from another one on in each thread, on a memory of its own. */
static void *work(void *own) {
    struct worker *worker = own;
    for (size_t i = 0; i < count; i++) {
        const struct run *known = &runs[(i + worker->number) % count];
        worker->run.script = known->script;
        every_call(&worker->run);
        if (worker->run.sum != known->sum) {
            failed("threads", "calls at once hand back something else");
        }
    }
    return NULL;
}

static void threads(void) {
    static struct worker workers[THREADS];
    pthread_t all[THREADS];
    for (size_t i = 0; i < THREADS; i++) {
        workers[i].number = i;
        if (pthread_create(&all[i], NULL, work, &workers[i]) != 0) {
            failed("threads", "one does not begin");
        }
    }
    for (size_t i = 0; i < THREADS; i++) {
        pthread_join(all[i], NULL);
    }
}

static struct script read_script(const char *path) {
    struct script script = {malloc(1 << 20), 0};
    FILE *file = fopen(path, "rb");
    if (script.text == NULL || file == NULL) {
        failed(path, "can't be read");
    }
    script.length = fread(script.text, 1, 1 << 20, file);
    fclose(file);
    return script;
}

int main(int arguments, char **argument) {
    size_t used = 0;
    count = (size_t)arguments - 1;
    runs = calloc(count, sizeof *runs);
    if (runs == NULL || count == 0) {
        failed("test", "no scripts");
    }
    nulls();
    for (size_t i = 0; i < count; i++) {
        uint64_t sum;
        size_t now;
        runs[i].script = read_script(argument[i + 1]);
        every_call(&runs[i]);
        sum = runs[i].sum;
        now = on_small_stack(&runs[i]);
        if (runs[i].sum != sum) {
            failed("stack", "calls on a small one hand back something else");
        }
        used = now > used ? now : used;
    }
    threads();
    printf("%zu scripts, %zu bytes of stack\n", count, used);
    return 0;
}
