/* ffynorwel.h: the proved calls of Ffynorwel for C99, C++ and every language that calls C.

   A slice is a pointer and the number of its elements. A pointer is never null, not even of an empty slice; buffers that a call
   writes overlap nothing else that it is given. A call keeps nothing and may be called from any thread. It takes no memory but
   stack: ffy_plan and ffy_replan up to 120,000 bytes, every other call less than 6,000.

   Each call stores its answer in eight words:
     answer[0]      number: FFY_DONE, or why the call is refused, as the list of numbers below says
     answer[1]      place: the header's byte, the column, message, node or event that a refusal speaks of, from 0; else 0
     answer[2]      second place: with FFY_MEETING the lowest earlier message that is met; else 0
     answer[3..7]   figures: as said at each call; all that it does not speak of are 0, and all are 0 with a refusal
   A refused call writes to no other buffer, and a longer buffer keeps what is beyond the output.

   A problem file is of version 1 or 2, and every call but ffy_up and ffy_back takes both. Version 2 has a fifth byte in each
   column's record, its kind (0, an exclusive window; any other is refused with 5 as yet), and four bytes for a message's identifier
   (above 2047 it is refused with 6 as yet). As words a problem has three for each column in version 2 (start, width, kind) and two in
   version 1; so ffy_write tells the version by the count. The same problem in both versions gets the same answer from every call. */
#ifndef FFYNORWEL_H
#define FFYNORWEL_H

#include <stddef.h>
#include <stdint.h>

#ifdef __cplusplus
extern "C" {
#endif

/* The numbers. Where no place is named it is 0. */
enum {
    FFY_DONE = 0,
    FFY_LENGTH = 1,          /* the file or the problem's words have the wrong length */
    FFY_MARK = 2,            /* the file does not begin with the mark TSM */
    FFY_VERSION = 3,         /* the file's version is neither 1 nor 2; with ffy_up it is not 1, with ffy_back not 2 */
    FFY_HEADER = 4,          /* a number of the header is out of its range; place: the byte at which a file has the first such,
                                R 5, B 6, f 8, reference identifier 10, L 12, K 13, M 14, the 0 behind them 15 */
    FFY_COLUMN = 5,          /* a column breaks its rule; place: the first such column */
    FFY_IDENTITY = 6,        /* a message's identifier, node, data bytes or receivers are wrong; place: the message */
    FFY_TIMING = 7,          /* a message's period, offset or deadline is wrong; place: the message */
    FFY_TRIGGERS = 8,        /* a node needs more triggers than it may have; place: the lowest such node */
    FFY_PROPOSAL_LENGTH = 9, /* the proposal, or the list of what is to be kept, is not two words for each message */
    FFY_RANGE = 10,          /* a message's column or base row is out of range; place: the message */
    FFY_WIDTH = 11,          /* a message's frame is longer than its column is wide; place: the message */
    FFY_LATE = 12,           /* a message is late: not sent from release to deadline; place: the message */
    FFY_MEETING = 13,        /* a message meets an earlier one; place: the later message */
    FFY_NO_PLAN = 14,        /* no acceptable proposal exists; with ffy_replan none that keeps what is to be kept */
    FFY_TOO_MANY = 15,       /* there are more than 16 messages to plan, kept ones not counted */
    FFY_ROOM = 16,           /* the output buffer is too short */
    FFY_EVENT_LENGTH = 17,   /* the event words are not five for each event, or more than FFY_EVENTS */
    FFY_EVENT = 18,          /* a field of an event is wrong; place: the first such event */
    FFY_ENDLESS = 19,        /* with an event and those of higher priority the bus does not come to rest within 16777216 bit times;
                                place: the first such event */
    FFY_UNHELD = 20,         /* version 1 has no room for a column's kind or a message's identifier; place: the first such column,
                                else message */
    FFY_LOG = 24             /* the log's words are odd in number, or the span is not 1 to 100 cycles */
};

/* The most that there can be of each thing; as a buffer's length it is room for every output. */
enum {
    FFY_ANSWER = 8,            /* words of an answer */
    FFY_WORDS = 551,           /* words of a problem */
    FFY_BYTES = 1456,          /* bytes of its file */
    FFY_PROPOSAL = 128,        /* words of a proposal: two for each of 64 messages */
    FFY_PLAN = 32,             /* words of one that ffy_plan writes, for 16 messages */
    FFY_REPLAN = FFY_PROPOSAL, /* words of one that ffy_replan writes */
    FFY_LISTS = 2064,          /* words of the trigger lists */
    FFY_EVENTS = 320,          /* words of events: five for each of 64 */
    FFY_TIMES = 64,            /* response times */
    FFY_DUE = 422400           /* words of the list that is due */
};

/* Stands twice for no placement to keep, and for no send that was due. */
#define FFY_NONE UINT32_C(4294967295)

/* Reads a problem file into words. Figure 0: how many words. Refuses with 1 to 8, 16. */
void ffy_read(const uint8_t *file, size_t file_len, uint32_t *words, size_t words_len, uint32_t answer[FFY_ANSWER]);

/* Writes a problem's words as a file. Figure 0: how many bytes. Refuses with 1, 4 to 8, 16. */
void ffy_write(const uint32_t *words, size_t words_len, uint8_t *file, size_t file_len, uint32_t answer[FFY_ANSWER]);

/* Moves a file of version 1 up to version 2. Figure 0: how many bytes. Refuses with 1 to 8, then 3 if the file is not of version 1, 16. */
void ffy_up(const uint8_t *file, size_t file_len, uint8_t *out, size_t out_len, uint32_t answer[FFY_ANSWER]);

/* Moves a file of version 2 back to version 1; up and back gives the old bytes. Figure 0: how many bytes. Refuses with 1 to 8, then 3 if
   the file is not of version 2, 20, 16. */
void ffy_back(const uint8_t *file, size_t file_len, uint8_t *out, size_t out_len, uint32_t answer[FFY_ANSWER]);

/* Judges a proposal, two words for each message: column and base row. Number 0 is accepted; figures 0 to 4 then say where the bus
   time of one matrix cycle goes: reference, used, in-window, empty, gaps. Refuses with 1 to 13. */
void ffy_judge(const uint8_t *file, size_t file_len, const uint32_t *proposal, size_t proposal_len, uint32_t answer[FFY_ANSWER]);

/* The trigger lists: words[n] is the number of entries of node n, from 0 to 15; then come the entries of node 0, of node 1 and so on,
   each list directly behind the one before. So node n's list begins at FFY_NODES + FFY_ENTRY_WORDS * (words[0] + .. + words[n - 1]).
   An entry e has four words:
     e[0]   kind * FFY_KIND_WEIGHT + identifier
     e[1]   time mark: when it is due, counted from the start of the basic cycle
     e[2]   base row: the first basic cycle of the matrix in which it is due, from 0
     e[3]   repeat: every how many basic cycles it is due, 1, 2, 4 .. 64
   A list rises by time mark, then by base row. Its first entry is the reference's, with mark 0, row 0, repeat 1. */
enum { FFY_NODES = 16, FFY_ENTRY_WORDS = 4, FFY_KIND_WEIGHT = 65536, FFY_REFERENCE = 0, FFY_SENDS = 1, FFY_RECEIVES = 2 };

/* Writes the trigger lists. Figure 0: how many words. Refuses with 1 to 13, 16. */
void ffy_lists(const uint8_t *file, size_t file_len, const uint32_t *proposal, size_t proposal_len, uint32_t *words, size_t words_len,
               uint32_t answer[FFY_ANSWER]);

/* Holds a log against the plan for a span of 1 to 100 matrix cycles from time 0. A log has two words a send: start time and
   identifier, reference messages included. Figure 0: 0 if the log is exactly the list of sends that start in the span, in order,
   and all other figures are 0 then; 1 if it differs. Figures 1 to 3: the first pair that differs, from 0 (the log's length in pairs
   if it is too short), and the time and the identifier that were due there, both FFY_NONE if nothing was.
   Refuses with 1 to 13, 24. */
void ffy_hold(const uint8_t *file, size_t file_len, const uint32_t *proposal, size_t proposal_len, const uint32_t *log, size_t log_len,
              uint32_t span, uint32_t answer[FFY_ANSWER]);

/* Writes the list that is due in such a span, as a log has it. Figure 0: how many words. Refuses with 1 to 13, 24, 16. */
void ffy_due(const uint8_t *file, size_t file_len, const uint32_t *proposal, size_t proposal_len, uint32_t span, uint32_t *words,
             size_t words_len, uint32_t answer[FFY_ANSWER]);

/* Plans at most 16 messages: writes the least acceptable proposal, or answers 14 if there is none. Figure 0: how many words.
   Refuses with 1 to 8, 14 to 16. */
void ffy_plan(const uint8_t *file, size_t file_len, uint32_t *proposal, size_t proposal_len, uint32_t answer[FFY_ANSWER]);

/* Plans again with placements to keep: writes the least acceptable proposal among those that keep them, or answers 14 if there is
   none. kept has two words for each message, column and base row, or FFY_NONE twice for none; at most 16 messages have none.
   Figure 0: how many words. Refuses with 1 to 9, with 10 to 13 for the first kept message at fault (13: it meets an earlier kept one),
   then 15, 16, 14. */
void ffy_replan(const uint8_t *file, size_t file_len, const uint32_t *kept, size_t kept_len, uint32_t *proposal, size_t proposal_len,
                uint32_t answer[FFY_ANSWER]);

/* An event e has five words:
     e[0]   identifier, 0 to 2047, unlike all earlier ones; the smaller has the higher priority
     e[1]   data bytes, 0 to 8
     e[2]   period, 1 to 4194304
     e[3]   jitter, below the period
     e[4]   deadline, 1 to the period */
enum { FFY_EVENT_WORDS = 5 };

/* Writes the response time of each event on a plain CAN bus, one word an event: the longest response of all instances in the event's
   busy period, or 0 where that is above its deadline. Figure 0: how many such misses. Refuses with 17, 18, 19, 16, tested in this order. */
void ffy_responses(const uint32_t *events, size_t events_len, uint32_t *times, size_t times_len, uint32_t answer[FFY_ANSWER]);

#ifdef __cplusplus
}
#endif

#endif
