/*
 * Welsbell, the recorder's read queue: calls over a head, hours and tables that the caller lends. Clients submit reads with
 * deadlines, one read is served in each open slot, and where not all can finish one is dropped. Link with libwelsbell.a.
 *
 * The short way is a welsbell_queue, which names once what is lent:
 *
 *     static welsbell_request waiting[8];
 *     static welsbell_client clients[2];
 *     static welsbell_queue queue;
 *     welsbell_setup setup;
 *
 *     queue.waiting = waiting;
 *     queue.waiting_length = 8;
 *     queue.clients = clients;
 *     queue.clients_length = 2;
 *     setup.clients = 2;
 *     setup.period = 100;
 *     setup.slots_per_hour = 360;
 *     welsbell_answer answer = welsbell_queue_open(&queue, setup, welsbell_all_hours_open());
 *     if (answer.kind == WELSBELL_REFUSED)
 *         printf("refusal %d\n", (int)answer.is.refused.number);
 *
 * These are inline functions over the calls of the archive, which come first below and take each thing by itself.
 *
 * Head, hours and tables belong to the caller, who may read and write them between calls. Every call but open asks whether they
 * are sound before it does anything, and is refused where they are not. What the caller has to keep:
 *   - a pointer is good for as many records or numbers as its length says, one to a head, hours, a setup or values for one of
 *     these, and it is aligned for their type;
 *   - a pointer that a call of the archive gets is not null, even where its length is 0: then any other aligned address does (a
 *     welsbell_queue may have null for a table: it is lent as one without records);
 *   - nothing that is lent to one call overlaps: head, hours, tables, setup, marks, output and values;
 *   - during a call nobody else writes what is lent to it, or reads what it may write.
 * Nothing else is asked: for all arguments and whatever the tables hold, a call ends and gives an answer.
 *
 * Threads: nothing is shared or kept between calls. Calls on different tables may run at once; report and chart may run at once on
 * the same head, hours and tables, each with its own values and output. A call allocates nothing, and WELSBELL_ENOUGH_STACK bytes
 * of stack are enough for it.
 */
#ifndef WELSBELL_H
#define WELSBELL_H

#include <stddef.h>
#include <stdint.h>

#ifdef __cplusplus
extern "C" {
#endif

/* The version of this header. It rises with each change of a signature, a layout or a number, so a program asks first whether
   welsbell_version() gives the same: an archive of another version does not fit. */
#define WELSBELL_VERSION 4

/* Clients are 1 to so many, numbered from 0. */
#define WELSBELL_MOST_CLIENTS 256
/* A waiting table has 1 to so many records. */
#define WELSBELL_MOST_RECORDS 2048
/* A client's submitted, served and dropped are each at most this. */
#define WELSBELL_MOST_COUNTED UINT32_C(268435455)
/* A period is 1 to so many slots. */
#define WELSBELL_MOST_PERIOD UINT64_C(4294967295)
/* An hour has 1 to so many slots. */
#define WELSBELL_MOST_PER_HOUR UINT64_C(360000)
/* A week has so many hours, each open or closed. */
#define WELSBELL_HOURS 168
/* A deadline is past the clock by 1 to so many slots, open and closed ones counted. */
#define WELSBELL_MOST_AHEAD UINT64_C(65535)
/* Clock and request numbers end here. */
#define WELSBELL_END UINT64_C(281474976710655)
/* So many bytes of stack are enough for a call, even where the loader binds the archive's memcpy, memmove and memset in it. */
#define WELSBELL_ENOUGH_STACK 8192

/* What open sets, 24 bytes: its three numbers. The hours come beside them. */
typedef struct welsbell_setup {
    uint64_t clients;
    uint64_t period; /* in slots, open and closed ones counted */
    uint64_t slots_per_hour;
} welsbell_setup;

/* The hours of the week, 21 bytes: of each hour a mark, 1 where it is open, the first hour's in the highest bit of the first byte.
   Hour 0 begins at clock 0, and behind hour 167 the marks repeat: slot s lies in hour s / slots_per_hour % 168. In the slots of a
   closed hour nothing is served. Before an open they may hold anything. */
typedef struct welsbell_hours {
    uint8_t marks[WELSBELL_HOURS / 8];
} welsbell_hours;

/* The head, 48 bytes: its setup's numbers and three more. Before an open it may hold anything. */
typedef struct welsbell_head {
    welsbell_setup setup;
    uint64_t clock;
    uint64_t last;    /* the last request number given */
    uint64_t waiting; /* how many records wait */
} welsbell_head;

/* A waiting record, 24 bytes. The waiting ones stand at the table's front in chart order: earlier deadline first, equal deadlines
   by smaller number. All behind them are zero. */
typedef struct welsbell_request {
    uint64_t deadline;
    uint64_t number;
    uint64_t client;
} welsbell_request;

/* A client's record, 12 bytes. In sound tables submitted is served, dropped and the client's waiting records together. */
typedef struct welsbell_client {
    uint32_t submitted;
    uint32_t served;
    uint32_t dropped;
} welsbell_client;

/* The kinds of answers, with their values in order. What a shift is stands at welsbell_submit. */
enum {
    WELSBELL_OPENED = 0x81,   /* no values */
    WELSBELL_KEPT = 0x82,     /* number, place in chart order (from 0), shift */
    WELSBELL_DROPPED = 0x83,  /* the new request's number, the victim's number, the victim's client, shift */
    WELSBELL_SERVED = 0x84,   /* slot, number, client */
    WELSBELL_IDLE = 0x85,     /* slot */
    WELSBELL_REPORTED = 0x86, /* client, submitted, served, dropped, waiting */
    WELSBELL_CHARTED = 0x88,  /* count of start slots */
    WELSBELL_CLOSED = 0x89,   /* slot */
    WELSBELL_REFUSED = 0xFF   /* the refusal's number */
};

/* The values of an answer, 40 bytes. The answer's kind says which member to read. A call writes the answer's values over the first
   of the five numbers; the others stay as they were. */
typedef union welsbell_values {
    uint64_t numbers[5];
    struct {
        uint64_t number, place, shift;
    } kept;
    struct {
        uint64_t number, victim, client, shift;
    } dropped;
    struct {
        uint64_t slot, number, client;
    } served;
    struct {
        uint64_t slot;
    } idle;
    struct {
        uint64_t client, submitted, served, dropped, waiting;
    } reported;
    struct {
        uint64_t count;
    } charted;
    struct {
        uint64_t slot;
    } closed;
    struct {
        uint64_t number;
    } refused;
} welsbell_values;

/* Refusals, in the order in which a call asks for them. The first that matches is given, and nothing changes but the first of the
   values. Number 1 is for lines of the session program; no call here gives it.

    number  calls              condition
         2  open               clients outside 1 to 256
         3  open               period outside 1 to 4,294,967,295
        13  open               slots per hour outside 1 to 360,000
        14  open               all hours are closed
         4  all                the waiting table has no records or more than 2,048; or the client table is not one record for
                               each client (in open, for each that is given); or, not in open, the waiting count exceeds the
                               waiting table's length
         5  all but open       head, hours and tables are not sound
         6  submit, report     the client does not exist
         7  submit             the deadline is not after the clock, or more than 65,535 after it, all slots counted
        15  submit             no slot from the clock to the deadline is open
         8  submit             the client's submitted is 268,435,455
         9  submit             the last request number has been given
        10  submit             the waiting table is full
        11  tick               the clock is at its end
        12  chart              the output is shorter than the waiting count */
enum {
    WELSBELL_REFUSED_CLIENTS = 2,
    WELSBELL_REFUSED_PERIOD = 3,
    WELSBELL_REFUSED_LENGTHS = 4,
    WELSBELL_REFUSED_UNSOUND = 5,
    WELSBELL_REFUSED_CLIENT = 6,
    WELSBELL_REFUSED_DEADLINE = 7,
    WELSBELL_REFUSED_COUNT = 8,
    WELSBELL_REFUSED_NUMBER = 9,
    WELSBELL_REFUSED_FULL = 10,
    WELSBELL_REFUSED_CLOCK = 11,
    WELSBELL_REFUSED_OUTPUT = 12,
    WELSBELL_REFUSED_PER_HOUR = 13,
    WELSBELL_REFUSED_ALL_CLOSED = 14,
    WELSBELL_REFUSED_NO_OPEN_SLOT = 15
};

/* Layouts as the archive has them: an array of a negative length is refused. */
typedef char welsbell_setup_has_24_bytes[sizeof(welsbell_setup) == 24 ? 1 : -1];
typedef char welsbell_head_has_48_bytes[sizeof(welsbell_head) == 48 ? 1 : -1];
typedef char welsbell_hours_have_21_bytes[sizeof(welsbell_hours) == 21 ? 1 : -1];
typedef char welsbell_request_has_24_bytes[sizeof(welsbell_request) == 24 ? 1 : -1];
typedef char welsbell_client_has_12_bytes[sizeof(welsbell_client) == 12 ? 1 : -1];
typedef char welsbell_values_have_40_bytes[sizeof(welsbell_values) == 40 ? 1 : -1];

/*
 * The calls of the archive. Each takes, in this order,
 *
 *   head       one head
 *   hours      the hours that belong to it
 *   waiting    the waiting table, 1 to 2,048 records
 *   clients    the client table, one record a client
 *
 * each table with its length behind it, then its own arguments, and last
 *
 *   values     where the answer's values go
 *
 * and gives back the answer's kind. The waiting table's length is its number of records; the client table's is its number of
 * numbers, three for each record, and any other than three for each client meets refusal 4.
 */

/* The version of the archive. */
uint64_t welsbell_version(void);

/* Begins anew with this setup and these marks, whatever head, hours and tables held: the head takes the setup and the hours the
   marks, clock, last number and waiting count become 0, every record zero. Setup and marks are only read; where they are to be
   those that head and hours have, they are copies of these, since nothing that is lent overlaps. Gives WELSBELL_OPENED, or refusal
   2, 3, 13, 14 or 4. */
uint64_t welsbell_open(welsbell_head *head, welsbell_hours *hours,
                       welsbell_request *waiting, size_t waiting_length,
                       welsbell_client *clients, size_t client_numbers,
                       const welsbell_setup *setup, const welsbell_hours *marks,
                       welsbell_values *values);

/* A client submits a request, to be served in an open slot, slot deadline - 1 at the latest. It gets the next number, and the
   client's submitted rises by 1. Gives WELSBELL_KEPT if every request can still finish. Otherwise one record is taken out, its
   client's dropped rises by 1, and the answer is WELSBELL_DROPPED; the victim may be the new request. In both answers shift is how
   many waiting records stood behind the new one in chart order when it was put in, before any was taken out. Refusals 4 to 7, 15,
   and 8 to 10. */
uint64_t welsbell_submit(welsbell_head *head, const welsbell_hours *hours,
                         welsbell_request *waiting, size_t waiting_length,
                         welsbell_client *clients, size_t client_numbers,
                         uint64_t client, uint64_t deadline,
                         welsbell_values *values);

/* One slot passes, the one that starts at the clock. If it is open, the first waiting record is taken out and its client's served
   rises by 1: WELSBELL_SERVED; with none waiting WELSBELL_IDLE. If it is closed, every record and count stays, whether or not reads
   wait: WELSBELL_CLOSED. Then, in each of the three cases, the clock rises by 1. If it is now a multiple of the period, each
   client's submitted becomes its waiting count, and served and dropped become 0. Refusals 4, 5 and 11. */
uint64_t welsbell_tick(welsbell_head *head, const welsbell_hours *hours,
                       welsbell_request *waiting, size_t waiting_length,
                       welsbell_client *clients, size_t client_numbers,
                       welsbell_values *values);

/* Gives WELSBELL_REPORTED: a client's three counts and its waiting count. Head, hours and tables are only read. Refusals 4, 5
   and 6. */
uint64_t welsbell_report(const welsbell_head *head, const welsbell_hours *hours,
                         const welsbell_request *waiting, size_t waiting_length,
                         const welsbell_client *clients, size_t client_numbers,
                         uint64_t client,
                         welsbell_values *values);

/* Writes one start slot a waiting record, in chart order, to the front of the output, and gives WELSBELL_CHARTED; entries beyond
   are untouched. Each is the latest open slot before the record's deadline and before the start slot of the record behind it. Head,
   hours and tables are only read. Refusals 4, 5 and 12. */
uint64_t welsbell_chart(const welsbell_head *head, const welsbell_hours *hours,
                        const welsbell_request *waiting, size_t waiting_length,
                        const welsbell_client *clients, size_t client_numbers,
                        uint64_t *output, size_t output_length,
                        welsbell_values *values);

/* A head, and the hours and the tables that go with it. Lengths are numbers of records; a table that is null has none, whatever its
   length is. */
typedef struct welsbell_queue {
    welsbell_head head;
    welsbell_hours hours;
    welsbell_request *waiting;
    size_t waiting_length;
    welsbell_client *clients;
    size_t clients_length;
} welsbell_queue;

/* An answer: its kind, and what it is. Read the member of `is` that the kind names; numbers that the answer does not have are 0. */
typedef struct welsbell_answer {
    uint64_t kind;
    welsbell_values is;
} welsbell_answer;

/* The marks of a week without a closed hour. */
static inline welsbell_hours welsbell_all_hours_open(void)
{
    welsbell_hours hours;
    for (size_t i = 0; i < sizeof hours.marks; i++)
        hours.marks[i] = 0xFF;
    return hours;
}

/* Marks an hour of the week as open, or as closed where is_open is 0; hour 168 is hour 0 again. */
static inline void welsbell_mark_hour(welsbell_hours *hours, size_t hour, int is_open)
{
    uint8_t *byte = &hours->marks[hour % WELSBELL_HOURS / 8];
    int bit = 0x80 >> hour % 8;
    *byte = (uint8_t)(is_open ? *byte | bit : *byte & ~bit);
}

/* A table with its length. The archive takes no null, so one that is null is lent as the first 0 records at the head's address. */
#define WELSBELL_LEND_TABLE(queue, type, table, length) \
    (table) ? (table) : (type *)(uintptr_t)&(queue)->head, (table) ? (length) : 0

#define WELSBELL_NO_ANSWER {0, {{0, 0, 0, 0, 0}}}

/* What every call is lent first. A client's record is three numbers. */
#define WELSBELL_LEND(queue) \
    &(queue)->head, &(queue)->hours, \
    WELSBELL_LEND_TABLE(queue, welsbell_request, (queue)->waiting, (queue)->waiting_length), \
    WELSBELL_LEND_TABLE(queue, welsbell_client, (queue)->clients, 3 * (queue)->clients_length)

/* The calls on a queue. */
static inline welsbell_answer welsbell_queue_open(welsbell_queue *queue, welsbell_setup setup, welsbell_hours hours)
{
    welsbell_answer answer = WELSBELL_NO_ANSWER;
    answer.kind = welsbell_open(WELSBELL_LEND(queue), &setup, &hours, &answer.is);
    return answer;
}

static inline welsbell_answer welsbell_queue_submit(welsbell_queue *queue, uint64_t client, uint64_t deadline)
{
    welsbell_answer answer = WELSBELL_NO_ANSWER;
    answer.kind = welsbell_submit(WELSBELL_LEND(queue), client, deadline, &answer.is);
    return answer;
}

static inline welsbell_answer welsbell_queue_tick(welsbell_queue *queue)
{
    welsbell_answer answer = WELSBELL_NO_ANSWER;
    answer.kind = welsbell_tick(WELSBELL_LEND(queue), &answer.is);
    return answer;
}

static inline welsbell_answer welsbell_queue_report(const welsbell_queue *queue, uint64_t client)
{
    welsbell_answer answer = WELSBELL_NO_ANSWER;
    answer.kind = welsbell_report(WELSBELL_LEND(queue), client, &answer.is);
    return answer;
}

/* The output too may be null: then it has no entries. */
static inline welsbell_answer welsbell_queue_chart(const welsbell_queue *queue, uint64_t *output, size_t output_length)
{
    welsbell_answer answer = WELSBELL_NO_ANSWER;
    answer.kind = welsbell_chart(WELSBELL_LEND(queue), WELSBELL_LEND_TABLE(queue, uint64_t, output, output_length), &answer.is);
    return answer;
}

#undef WELSBELL_LEND
#undef WELSBELL_NO_ANSWER
#undef WELSBELL_LEND_TABLE

#ifdef __cplusplus
}
#endif

#endif
