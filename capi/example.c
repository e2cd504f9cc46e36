/* A node from C: power-on, steps by letter and by line, the head message, the place that it leaves, a timer that is forced, the processor taken
 * and given, who has mail, pages sent out and brought in, a script listed, why its messages were buffered, and what is refused.
 *
 * Where libfugu is installed:
 *
 *     cc -std=c11 example.c $(pkg-config --cflags --libs fugu) -o example && ./example
 *
 * and in the project's folder:
 *
 *     bin/library
 *     cc -std=c11 -Icapi capi/example.c -Ltarget/lib -lfugu -Wl,-rpath,"$PWD/target/lib" -o example && ./example
 */
#include "fugu.h"

#include <stdio.h>
#include <string.h>

static uint32_t memory[FUGU_SIZE];

/* A report as a listing has it: answer, value, trap, upcall, moved, and what was sent. */
static void print_report(const char *what, const uint32_t *report) {
    printf("%-16s %u,%u,%u,%u,%u", what, report[FUGU_ANSWER], report[FUGU_VALUE], report[FUGU_TRAP], report[FUGU_UPCALL], report[FUGU_MOVED]);
    if (report[FUGU_SENT_COUNT] != 0) {
        printf(",%u,%u", report[FUGU_SENT_NODE], report[FUGU_SENT_GROUP]);
        for (uint32_t i = 0; i < report[FUGU_SENT_COUNT]; i++) {
            printf(",%u", report[FUGU_SENT_WORDS + i]);
        }
    }
    printf("\n");
}

static void step(const char *what, uint8_t letter, const uint32_t *arguments, size_t count) {
    uint32_t report[FUGU_REPORT];
    if (fugu_step(memory, FUGU_SIZE, letter, arguments, count, report, FUGU_REPORT) == FUGU_REPORT) {
        print_report(what, report);
    }
}

static void line(const char *text) {
    uint32_t report[FUGU_REPORT];
    if (fugu_line(memory, FUGU_SIZE, (const uint8_t *)text, strlen(text), report, FUGU_REPORT) == FUGU_REPORT) {
        print_report(text, report);
    }
}

static void print_head(void) {
    uint32_t head[FUGU_HEAD];
    if (fugu_head(memory, FUGU_SIZE, head, FUGU_HEAD) == FUGU_HEAD) {
        printf("head: %u words at %u:", head[1], head[0]);
        for (uint32_t i = 0; i < head[1]; i++) {
            printf(" %u", memory[head[0] + i]);
        }
        printf("\n");
    }
}

/* The first place of frame 0: a length and eight words, all 0 where no message waits. */
enum { PLACE = 1092, PLACE_WORDS = 9 };

static void print_place(void) {
    printf("place at %u:", PLACE);
    for (uint32_t i = 0; i < PLACE_WORDS; i++) {
        printf(" %u", memory[PLACE + i]);
    }
    printf("\n");
}

static void print_paging(void) {
    uint32_t paging[FUGU_PAGING];
    if (fugu_paging(memory, FUGU_SIZE, paging, FUGU_PAGING) == FUGU_PAGING) {
        printf("pages: %u sent out, %u brought in\n", paging[0], paging[1]);
    }
}

/* Messages for group 2, which does not run, until its first page has gone out; then it runs. */
static void fill_frames(void) {
    const uint32_t word[] = {2, 9};
    uint32_t report[FUGU_REPORT];
    for (int i = 0; i < 257; i++) {
        fugu_step(memory, FUGU_SIZE, FUGU_ARRIVAL, word, 2, report, FUGU_REPORT);
    }
    print_report("257 times A,2,9", report);
    print_paging();
    line("S,2");
    print_paging();
    print_head();
}

/* A script is played on the memory anew for each line that is asked for. */
static void why(const char *script, uint32_t number) {
    uint32_t told[FUGU_WHY];
    if (fugu_why(memory, FUGU_SIZE, (const uint8_t *)script, strlen(script), number, told, FUGU_WHY) == FUGU_WHY) {
        uint64_t named = (uint64_t)told[FUGU_LINE_HIGH] << 32 | told[FUGU_LINE_LOW];
        printf("why line %u: answer %u, reason %u at line %llu\n", number, told[FUGU_ANSWER], told[FUGU_REASON], (unsigned long long)named);
    }
}

/* A script fed in portions of ten bytes, to the same memory, state and kept line: its listing, from power-on. */
static void list(const char *script) {
    uint64_t state[FUGU_FEED_STATE] = {0};
    uint8_t kept[FUGU_FEED_KEPT] = {0};
    uint8_t out[10 * FUGU_FEED_LINE];
    uint64_t fed[FUGU_FEED];
    uint32_t report[FUGU_REPORT];
    size_t length = strlen(script);

    fugu_power_on(memory, FUGU_SIZE, report, FUGU_REPORT);
    fwrite(out, 1, fugu_header(out, sizeof out), stdout);
    for (size_t at = 0; at < length; at += fed[FUGU_USED]) {
        size_t count = length - at < 10 ? length - at : 10;
        fugu_feed(memory, FUGU_SIZE, state, FUGU_FEED_STATE, kept, FUGU_FEED_KEPT, (const uint8_t *)script + at, count, out, sizeof out, fed,
                  FUGU_FEED);
        fwrite(out, 1, fed[FUGU_WRITTEN], stdout);
    }
    fugu_feed_end(memory, FUGU_SIZE, state, FUGU_FEED_STATE, kept, FUGU_FEED_KEPT, out, sizeof out, fed, FUGU_FEED);
    fwrite(out, 1, fed[FUGU_WRITTEN], stdout);
}

/* Every reason of a script, in one pass: it is handed over whole, and anew from where the output was full. */
static void tell(const char *script) {
    uint64_t state[FUGU_TELL_STATE] = {0};
    uint8_t kept[FUGU_TELL_KEPT] = {0};
    uint8_t out[FUGU_TELL_OUT];
    uint64_t told[FUGU_TELL];
    uint32_t report[FUGU_REPORT];
    size_t length = strlen(script);

    fugu_power_on(memory, FUGU_SIZE, report, FUGU_REPORT);
    for (size_t at = 0; at < length; at += told[FUGU_USED]) {
        fugu_tell(memory, FUGU_SIZE, state, FUGU_TELL_STATE, kept, FUGU_TELL_KEPT, (const uint8_t *)script + at, length - at, out, FUGU_TELL_OUT,
                  told, FUGU_TELL);
        fwrite(out, 1, told[FUGU_WRITTEN], stdout);
    }
    fugu_tell_end(memory, FUGU_SIZE, state, FUGU_TELL_STATE, kept, FUGU_TELL_KEPT, out, FUGU_TELL_OUT, told, FUGU_TELL);
    fwrite(out, 1, told[FUGU_WRITTEN], stdout);
}

int main(void) {
    const char *script = "S,1\nA,1,7\nA,2,5\nD\nA,1,8\nO";
    uint32_t report[FUGU_REPORT];
    const uint32_t group[] = {1};
    const uint32_t message[] = {1, 7, 8, 9};
    const uint32_t ticks[] = {256};
    const uint32_t force[] = {1};

    printf("a node has %u words\n", fugu_size());
    printf("before power-on: test %u\n", fugu_test(memory, FUGU_SIZE));
    step("S,1", FUGU_SWITCH, group, 1);
    fugu_power_on(memory, FUGU_SIZE, report, FUGU_REPORT);
    print_report("power-on", report);
    printf("after power-on: test %u\n", fugu_test(memory, FUGU_SIZE));

    step("S,1", FUGU_SWITCH, group, 1);
    print_head();
    step("A,1,7,8,9", FUGU_ARRIVAL, message, 4);
    print_head();
    step("T,256", FUGU_TICKS, ticks, 1);
    print_head();
    line("E,2");
    print_place();
    line("D");
    print_place();
    memory[PLACE] = 3;
    printf("with a length left there: test %u\n", fugu_test(memory, FUGU_SIZE));
    memory[PLACE] = 0;
    line("N");
    step("B,1", FUGU_BEGIN_ATOMIC, force, 1);
    step("T,256", FUGU_TICKS, ticks, 1);
    line("N");
    line("P,5");
    line("L,63");
    line("A,1,4");
    print_head();
    step("O", FUGU_PREEMPT, NULL, 0);
    print_head();
    step("C", FUGU_TURN, NULL, 0);
    step("I,1", FUGU_DISPATCH, group, 1);
    print_head();
    line("D");
    line("N");
    print_paging();
    fill_frames();

    step("I,1", FUGU_DISPATCH, group, 1);
    step("S, no number", FUGU_SWITCH, NULL, 0);
    step("Q", 'Q', NULL, 0);
    line("S, 1");

    list(script);
    why(script, 2);
    why(script, 3);
    why(script, 5);
    why(script, 6);
    tell(script);

    fugu_power_on(memory, FUGU_SIZE - 1, report, FUGU_REPORT);
    print_report("one word less", report);
    printf("a part of 15 words: %u written\n", fugu_power_on(memory, FUGU_SIZE, report, FUGU_REPORT - 1));
    return 0;
}
