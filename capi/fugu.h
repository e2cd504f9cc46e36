/* libfugu: a node of the FUGU machine in lent memory, for C.
 *
 * The calls are proved, for x86-64. In the project's folder `bin/library` proves them and writes target/lib/libfugu.a and target/lib/libfugu.so;
 * `bin/install PREFIX` installs these, this header and a file for pkg-config. What each call does, in full, is in the rules that crates/capi cites;
 * docs/LISTING.md explains the operations and the numbers of a report, and docs/PROGRAMMING.md how to link.
 *
 * A node is FUGU_SIZE words of memory that the caller lends, and nothing else: it may be copied, kept and handed on as words. Memory may be
 * longer; what stands behind the first FUGU_SIZE words is never touched. Memory may also be anything: a step on words that are no node is
 * refused.
 *
 * Where no message waits, the page frames and swap pages of a node are 0: a message that is disposed of and a page that goes elsewhere leave
 * no word behind, and memory with a word left there is no node.
 *
 * What a call has to tell, a report, where the head message stands, how many pages went, why a message was buffered or what a portion of a script
 * came to, it writes into a part that the caller lends beside the memory, and returns how many words it wrote there. Where the part is too short it
 * returns 0, and neither the memory nor the part has changed. Words of the part behind those written stay as they were. To the calls that take a
 * script in portions a state and a kept line are lent too: where one of these is too short it is the same, 0 and nothing at all has changed.
 *
 * What a caller owes: each pointer is aligned for its type and has as many words or bytes behind it as the length after it says, or that length is 0
 * and the pointer whatever it is, null too; and what a call writes overlaps nothing else that it is handed.
 *
 * A call ends, uses at most FUGU_STACK bytes of stack, takes no memory but what it is lent, and keeps nothing of its own: the library has no variables
 * and no locks. So calls on different memories may run at once, in as many threads as there are; on one memory, one at a time.
 *
 * The header is C89 but for <stdint.h>, and C++.
 */
#ifndef FUGU_H
#define FUGU_H

#include <stddef.h>
#include <stdint.h>

#ifdef __cplusplus
extern "C" {
#endif

#if !defined(__cplusplus) && defined(__STDC_VERSION__) && __STDC_VERSION__ >= 199901L
#define FUGU_LENT restrict
#else
#define FUGU_LENT
#endif

enum {
    FUGU_SIZE = 8104,  /* the words of a node */
    FUGU_REPORT = 16,  /* the words of a report */
    FUGU_HEAD = 2,     /* the words that say where the head message stands */
    FUGU_PAGING = 2,   /* the words that say how many pages went to swap space and back */
    FUGU_WHY = 4,      /* the words that say why a message was buffered */
    FUGU_HEADER = 36,  /* the bytes of a listing's header line, its newline among them */
    FUGU_STACK = 8192  /* the bytes of stack that a call uses, at most */
};

/* To list a script in portions: what is lent beside the memory. */
enum {
    FUGU_FEED_STATE = 2,  /* the 64-bit words that are carried from portion to portion, */
    FUGU_FEED_KEPT = 130, /* and the bytes: a line that has begun */
    FUGU_FEED_LINE = 192, /* the bytes of output that a line of the script takes, at most, and the script's end */
    FUGU_FEED = 3,        /* the 64-bit words that say what a portion came to */
    FUGU_FEED_END = 2     /* and those that say what the script's end came to, the first two of them */
};

/* To tell of every message of a script in portions: the same. */
enum {
    FUGU_TELL_STATE = 19,
    FUGU_TELL_KEPT = 130,
    FUGU_TELL_LINE = 2240, /* the output that a line of the script takes, at most: 16 messages of 140 bytes each */
    FUGU_TELL_OUT = 4480,  /* and that which the script's end takes */
    FUGU_TELL = 3,
    FUGU_TELL_END = 2
};

/* Where each number stands in the words that say what a portion, or the script's end, came to. */
enum {
    FUGU_STOP = 0,    /* why it stopped */
    FUGU_WRITTEN = 1, /* how many bytes of the output were written */
    FUGU_USED = 2     /* how many bytes of the portion were used */
};

/* Why it stopped. */
enum {
    FUGU_ALL_USED = 0,   /* nothing is left of the portion */
    FUGU_NO_ROOM = 1,    /* the output has no room for one more line of the script, or for its end */
    FUGU_LAST_NUMBER = 2 /* fewer line numbers are left, of 64 bits, than the portion has bytes: nothing of it was used */
};

/* The operations by their letters, and the numbers that each takes. */
enum {
    FUGU_ARRIVAL = 'A',        /* a message arrives: its group, 1 to 8, and its words, 1 to 8 of them */
    FUGU_PREEMPT = 'O',        /* the kernel takes the processor */
    FUGU_DISPATCH = 'I',       /* and gives it: the group, 1 to 8 */
    FUGU_SWITCH = 'S',         /* both in one step: the group, 0 for nobody */
    FUGU_TICKS = 'T',          /* ticks pass: how many, 1 to 65,535 */
    FUGU_TURN = 'C',           /* whose turn it is: its value is the next group with a message behind the running one, 0 where none has one */
    FUGU_MESSAGE_LENGTH = 'M', /* its value is how many words the running group's first message has, 0 where there is none */
    FUGU_MESSAGE_WORD = 'E',   /* its value is word i of that message, from 0: i */
    FUGU_DISPOSE = 'D',        /* that message is disposed of */
    FUGU_BEGIN_ATOMIC = 'B',   /* an atomic section begins: no number or one, 1 where it turns force on and 0 where it leaves it */
    FUGU_END_ATOMIC = 'N',     /* and ends */
    FUGU_DESCRIBE = 'P',       /* a word is added to the descriptor, whose new length is the value: the word */
    FUGU_LAUNCH = 'L'          /* the descriptor is sent, its length is the value: the node, 0 to 63 */
};

/* Where each number stands in a report. Of a refused step all but the answer are 0. */
enum {
    FUGU_ANSWER = 0,      /* 0 accepted, else the number of the refusal, below */
    FUGU_VALUE = 1,       /* what C, M, E, P or L hands back */
    FUGU_TRAP = 2,        /* a trap, below, or 0 */
    FUGU_UPCALL = 3,      /* the group that gets an upcall, or 0 */
    FUGU_MOVED = 4,       /* how many messages went from the hardware queue to buffers */
    FUGU_SENT_NODE = 5,   /* an accepted L: the node, */
    FUGU_SENT_GROUP = 6,  /* the group, */
    FUGU_SENT_COUNT = 7,  /* how many words were sent, 0 where nothing was, */
    FUGU_SENT_WORDS = 8   /* and eight words, 0 past that count */
};

/* The traps. */
enum {
    FUGU_TRAP_DISPOSE_EXTEND = 1,   /* a D begun while the running group was buffered */
    FUGU_TRAP_ATOMICITY_EXTEND = 2, /* an N begun while the running group was buffered */
    FUGU_TRAP_TIMEOUT = 3           /* a T in which the timer reached 256 */
};

/* The answers, in the words of docs/LISTING.md, which has the order in which they are tried: the first that holds is reported. */
enum {
    FUGU_ACCEPTED = 0,          /* accepted */
    FUGU_NOT_NODE = 1,          /* the memory is too short, or is no node */
    FUGU_UNREADABLE = 2,        /* unknown operation or unreadable line */
    FUGU_BAD_GROUP = 3,         /* A: the group is not 1 to 8 */
    FUGU_BAD_WORDS = 4,         /* A: no words, or more than 8 */
    FUGU_QUEUE_FULL = 5,        /* A: 16 messages are in the hardware queue already */
    FUGU_NO_PAGES = 6,          /* A: with this message the pledges would sum to above 96 */
    FUGU_NOBODY_RUNS = 7,       /* M, E, D, B, N, P or L: nobody runs */
    FUGU_NO_MESSAGE = 8,        /* D or E: the line is empty; for E whatever i is */
    FUGU_PAST_MESSAGE = 9,      /* E: i is not below the length of the message */
    FUGU_STILL_PENDING = 10,    /* N while pending: no message has been disposed of since the upcall */
    FUGU_DESCRIPTOR_FULL = 11,  /* P: the descriptor has 8 words already */
    FUGU_DESCRIPTOR_EMPTY = 12, /* L: the descriptor is empty */
    FUGU_BAD_NODE = 13,         /* L: the node is above 63 */
    FUGU_BAD_SCHEDULE = 14,     /* S: above 8. I: the group is not 1 to 8 */
    FUGU_BAD_TICKS = 15,        /* T: 0, or above 65,535 */
    FUGU_ALREADY_RUNS = 16,     /* I: a group runs already */
    FUGU_NO_ARRIVAL = 17        /* fugu_why alone: the line is no accepted arrival of the script */
};

/* Where each number stands in what fugu_why tells, behind the answer. Where it refuses they are 0. */
enum {
    FUGU_REASON = 1,
    FUGU_LINE_LOW = 2,  /* the line that the reason is named with: its low 32 bits, */
    FUGU_LINE_HIGH = 3  /* and its high ones */
};

/* The reasons, and the line that each is named with: the one that moved the message, where nothing else is said. */
enum {
    FUGU_DISPOSED_OF = 1,    /* never buffered, disposed of: the line that disposed of it */
    FUGU_STILL_QUEUED = 2,   /* still in the hardware queue: the script's last */
    FUGU_NOT_RUNNING = 3,    /* its group wasn't running when it became head */
    FUGU_OLDER_WAITING = 4,  /* older messages of its group were waiting in the buffer */
    FUGU_REVOKED = 5,        /* its group was revoked */
    FUGU_TIMEOUT = 6,        /* timeout */
    FUGU_PROCESSOR_TAKEN = 7 /* the processor was taken */
};

/* The words of a node: FUGU_SIZE. */
uint32_t fugu_size(void);

/* Power-on: memory of at least FUGU_SIZE words, whatever stands in it, becomes a node on which nobody runs. Shorter memory is refused with 1
 * and left as it was. */
uint32_t fugu_power_on(uint32_t *FUGU_LENT memory, size_t memory_length, uint32_t *FUGU_LENT report, size_t report_length);

/* 1 where the memory is a node, else 0. */
uint32_t fugu_test(const uint32_t *memory, size_t memory_length);

/* One step: the operation by its letter, above, and its numbers. Memory that is no node is refused with 1; then a letter of no operation, a wrong
 * count of numbers, or another number for 'B', with 2. A refused step leaves the memory as it was. */
uint32_t fugu_step(uint32_t *FUGU_LENT memory, size_t memory_length, uint8_t letter, const uint32_t *arguments, size_t arguments_length,
                   uint32_t *FUGU_LENT report, size_t report_length);

/* The same by a line of a script, without its newline. A line that can't be read is refused with 2. */
uint32_t fugu_line(uint32_t *FUGU_LENT memory, size_t memory_length, const uint8_t *text, size_t text_length, uint32_t *FUGU_LENT report,
                   size_t report_length);

/* The running group's first message, where it stands: into the part go the index in the memory of its first word, and how many words it has,
 * 1 to 8; 0 and 0 where there is none or the memory is no node. The value of an accepted E with i is the memory's word at that index + i, and E
 * is accepted exactly where i is below that count. */
uint32_t fugu_head(const uint32_t *memory, size_t memory_length, uint32_t *FUGU_LENT part, size_t part_length);

/* Pages that went to swap space and back: into the part go how many were sent out so far, and how many were brought in, an exchange being one
 * of each. A count stays at 4,294,967,295 once there. 0 and 0 where the memory is no node. */
uint32_t fugu_paging(const uint32_t *memory, size_t memory_length, uint32_t *FUGU_LENT part, size_t part_length);

/* Why the message that came by a line of a script was buffered, or where it went instead: into the part go 0, the reason, and the line that it is
 * named with. Lines count from 1, and the last may lack its newline. A line that the listing answers with 2 is refused with 2, any other that is no
 * accepted arrival, or not in the script, with 17. The memory, of at least FUGU_SIZE words, whatever stands in it, becomes a node, and the whole
 * script is played on it: it is left as after the script, whatever is told. Shorter memory is refused with 1 first and left as it was. */
uint32_t fugu_why(uint32_t *FUGU_LENT memory, size_t memory_length, const uint8_t *script, size_t script_length, uint32_t line,
                  uint32_t *FUGU_LENT part, size_t part_length);

/* The header line of a listing, with its newline, into the output: returns FUGU_HEADER, the bytes that it has, or 0 where the output is shorter, and
 * then nothing has changed. */
uint32_t fugu_header(uint8_t *FUGU_LENT out, size_t out_length);

/* A script in portions of any size: what holds of the two pairs of calls below, fugu_feed and fugu_feed_end, fugu_tell and fugu_tell_end.
 *
 * The caller lends a state and a kept line of zeros, which are those of a script of which nothing has been read, and hands the same ones to each call.
 * A portion's call steps the lines that it completes on the memory, and writes lines of text into the output, from its beginning on; what stands in
 * the output behind the count written says nothing. A line that has begun goes into the kept line, for the next portion to go on with. Where it stopped
 * with FUGU_NO_ROOM, the rest of the portion, from the count used on, is for the next call; an output of FUGU_FEED_LINE or FUGU_TELL_LINE bytes has
 * room for one more line of the script at least.
 *
 * The end's call takes a line that has begun for the script's last, as if it had its newline. Where one has begun, an output of fewer than
 * FUGU_FEED_LINE bytes has no room for it; for fugu_tell_end it is always one of fewer than FUGU_TELL_OUT bytes. Nothing is done then. The state stays
 * as it was.
 *
 * The state's first words are how many lines were read, and how many bytes of the kept line have begun. It may be copied, kept and handed on as words,
 * as the memory may; it may also be anything: a count that is too large is taken for the room that there is, and a kept line ends before a newline. */

/* The listing, on any memory, a node or not: the report of each line goes into the output, as in "3,0,0,0,1,0", its line's number first. On memory that
 * is no node each line is answered 1. Behind fugu_header's the texts of all calls are the listing of the script. */
uint32_t fugu_feed(uint32_t *FUGU_LENT memory, size_t memory_length, uint64_t *FUGU_LENT state, size_t state_length, uint8_t *FUGU_LENT kept,
                   size_t kept_length, const uint8_t *input, size_t input_length, uint8_t *FUGU_LENT out, size_t out_length,
                   uint64_t *FUGU_LENT part, size_t part_length);
uint32_t fugu_feed_end(uint32_t *FUGU_LENT memory, size_t memory_length, const uint64_t *state, size_t state_length, const uint8_t *kept,
                       size_t kept_length, uint8_t *FUGU_LENT out, size_t out_length, uint64_t *FUGU_LENT part, size_t part_length);

/* Why every message of a script was buffered, or where it went instead. The caller powers the memory on first. For each message that leaves the
 * hardware queue a line of text goes into the output: the line by which it came, its reason and the line that this is named with, in numbers and in
 * words, as in "line 3: reason 3 at line 4: its group wasn't running when it became head". Messages leave in the order in which they came; at the end
 * it is told of each that is still in the hardware queue. The state's other words are how many messages wait there, and the numbers of the 16 lines by
 * which they came. */
uint32_t fugu_tell(uint32_t *FUGU_LENT memory, size_t memory_length, uint64_t *FUGU_LENT state, size_t state_length, uint8_t *FUGU_LENT kept,
                   size_t kept_length, const uint8_t *input, size_t input_length, uint8_t *FUGU_LENT out, size_t out_length,
                   uint64_t *FUGU_LENT part, size_t part_length);
uint32_t fugu_tell_end(uint32_t *FUGU_LENT memory, size_t memory_length, const uint64_t *state, size_t state_length, const uint8_t *kept,
                       size_t kept_length, uint8_t *FUGU_LENT out, size_t out_length, uint64_t *FUGU_LENT part, size_t part_length);

#undef FUGU_LENT

#ifdef __cplusplus
}
#endif

#endif
