/* Measures the stack that each exported call takes, with the largest tables and in its heaviest paths. A call is made on a painted stack
   of its own, and the deepest byte whose paint is gone tells how far down it came; the few frames from that stack's top to the call are
   counted too.
   A loader may bind what the archive takes from the C library (memcpy, memmove and memset) only when it is first called, and needs stack
   for that. So that it does this on the painted stack, nothing else here uses these three, and submit with closed hours, which goes
   deepest, comes first.
   Every call is made twice: its line tells of the second time, and the last line of both. */
#define _XOPEN_SOURCE 700
#include "welsbell.h"

#include <inttypes.h>
#include <stdio.h>
#include <stdlib.h>
#include <ucontext.h>

#define RECORDS WELSBELL_MOST_RECORDS
#define CLIENTS WELSBELL_MOST_CLIENTS
#define PAINT 0xA5

/* Deeper than is allowed, so that a call that goes too deep is counted. */
static unsigned char stack[4 * WELSBELL_ENOUGH_STACK];

static welsbell_request waiting[RECORDS];
static welsbell_client clients[CLIENTS];
static uint64_t starts[RECORDS];
static welsbell_queue queue;
static welsbell_answer answer;

/* So many waiting records, the clients by turns, the first with this deadline and each other so many slots after the one before. A
   period starts with every slot. An hour is one slot, and every hour is open. */
static void fill(size_t count, uint64_t first_deadline, uint64_t step)
{
    static const welsbell_client nothing;
    queue.hours = welsbell_all_hours_open();
    queue.head.setup.slots_per_hour = 1;
    queue.waiting = waiting;
    queue.waiting_length = RECORDS;
    queue.clients = clients;
    queue.clients_length = CLIENTS;
    queue.head.setup.clients = CLIENTS;
    queue.head.setup.period = 1;
    queue.head.clock = 0;
    queue.head.last = count;
    queue.head.waiting = count;
    for (size_t i = 0; i < CLIENTS; i++)
        clients[i] = nothing;
    for (size_t i = 0; i < RECORDS; i++) {
        int waits = i < count;
        waiting[i].deadline = waits ? first_deadline + i * step : 0;
        waiting[i].number = waits ? i + 1 : 0;
        waiting[i].client = waits ? i % CLIENTS : 0;
        clients[i % CLIENTS].submitted += waits;
    }
}

static void fill_all(void)
{
    fill(RECORDS, 1, 1);
}

static void fill_all_but_slot_0(void)
{
    fill(RECORDS - 1, 2, 1);
}

static void fill_with_one_deadline(void)
{
    fill(RECORDS - 1, RECORDS - 1, 0);
}

static void fill_none(void)
{
    fill(0, 0, 0);
}

/* The slots of odd numbers are closed. */
static void close_every_second(void)
{
    for (size_t hour = 1; hour < WELSBELL_HOURS; hour += 2)
        welsbell_mark_hour(&queue.hours, hour, 0);
}

static void fill_open_slots(void)
{
    fill(RECORDS, 2, 2);
    close_every_second();
}

static void fill_open_slots_but_0(void)
{
    fill(RECORDS - 1, 4, 2);
    close_every_second();
}

static void fill_open_slots_with_one_deadline(void)
{
    fill(RECORDS - 1, 2 * (RECORDS - 1), 0);
    close_every_second();
}

static void fill_behind_a_closed_slot(void)
{
    fill(RECORDS - 1, 4, 2);
    close_every_second();
    queue.head.clock = 1;
}

/* What is wrong stands last, so that all before it is looked at. */
static void fill_unsound(void)
{
    fill_all();
    clients[CLIENTS - 1].submitted++;
}

static void version(void)
{
    answer.kind = welsbell_version();
}

static void open_for(uint64_t count)
{
    welsbell_setup setup;
    setup.clients = count;
    setup.period = 1;
    setup.slots_per_hour = 1;
    answer = welsbell_queue_open(&queue, setup, welsbell_all_hours_open());
}

static void open_for_all(void)
{
    open_for(CLIENTS);
}

static void open_for_none(void)
{
    open_for(0);
}

static void submit_first(void)
{
    answer = welsbell_queue_submit(&queue, CLIENTS - 1, 1);
}

static void submit_last(void)
{
    answer = welsbell_queue_submit(&queue, CLIENTS - 1, WELSBELL_MOST_AHEAD);
}

static void submit_one_more(void)
{
    answer = welsbell_queue_submit(&queue, CLIENTS - 1, RECORDS - 1);
}

static void submit_one_more_open(void)
{
    answer = welsbell_queue_submit(&queue, CLIENTS - 1, 2 * (RECORDS - 1));
}

static void submit_before_an_open_slot(void)
{
    answer = welsbell_queue_submit(&queue, CLIENTS - 1, 2);
}

static void tick(void)
{
    answer = welsbell_queue_tick(&queue);
}

static void report(void)
{
    answer = welsbell_queue_report(&queue, CLIENTS - 1);
}

static void report_of_nobody(void)
{
    answer = welsbell_queue_report(&queue, CLIENTS);
}

static void chart(void)
{
    answer = welsbell_queue_chart(&queue, starts, RECORDS);
}

static void chart_too_short(void)
{
    answer = welsbell_queue_chart(&queue, starts, RECORDS - 1);
}

/* A call, the tables that it is made on, and the kind of its answer, which shows that it went the way that its name says. */
static const struct {
    const char *name;
    void (*prepare)(void);
    void (*call)(void);
    uint64_t kind;
} cases[] = {
    {"submit with closed hours, kept at the front", fill_open_slots_but_0, submit_first, WELSBELL_KEPT},
    {"submit with closed hours, kept at the end", fill_open_slots_but_0, submit_last, WELSBELL_KEPT},
    {"submit with closed hours, dropped with every record a candidate", fill_open_slots_with_one_deadline, submit_one_more_open,
     WELSBELL_DROPPED},
    {"submit, kept at the front", fill_all_but_slot_0, submit_first, WELSBELL_KEPT},
    {"submit, kept at the end", fill_all_but_slot_0, submit_last, WELSBELL_KEPT},
    {"submit, dropped with every record a candidate", fill_with_one_deadline, submit_one_more, WELSBELL_DROPPED},
    {"submit, refused with a full table", fill_all, submit_last, WELSBELL_REFUSED},
    {"submit, refused with tables that are not sound", fill_unsound, submit_last, WELSBELL_REFUSED},
    {"submit, refused for want of an open slot", fill_behind_a_closed_slot, submit_before_an_open_slot, WELSBELL_REFUSED},
    {"tick, served and a period starts", fill_all, tick, WELSBELL_SERVED},
    {"tick, idle and a period starts", fill_none, tick, WELSBELL_IDLE},
    {"tick, closed and a period starts", fill_behind_a_closed_slot, tick, WELSBELL_CLOSED},
    {"tick, refused", fill_unsound, tick, WELSBELL_REFUSED},
    {"report", fill_all, report, WELSBELL_REPORTED},
    {"report, refused", fill_all, report_of_nobody, WELSBELL_REFUSED},
    {"chart", fill_all, chart, WELSBELL_CHARTED},
    {"chart with closed hours", fill_open_slots, chart, WELSBELL_CHARTED},
    {"chart, refused", fill_all, chart_too_short, WELSBELL_REFUSED},
    {"open", fill_all, open_for_all, WELSBELL_OPENED},
    {"open, refused", fill_all, open_for_none, WELSBELL_REFUSED},
    {"version", fill_none, version, WELSBELL_VERSION},
};

#define CASES (sizeof cases / sizeof *cases)

/* Calls on the painted stack, and gives the bytes from its top to the deepest one that was written. */
static size_t measure(void (*call)(void))
{
    static ucontext_t here, there;
    size_t untouched = 0;
    for (size_t i = 0; i < sizeof stack; i++)
        stack[i] = PAINT;
    if (getcontext(&there) != 0)
        abort();
    there.uc_stack.ss_sp = stack;
    there.uc_stack.ss_size = sizeof stack;
    there.uc_link = &here;
    makecontext(&there, call, 0);
    if (swapcontext(&here, &there) != 0)
        abort();
    while (untouched < sizeof stack && stack[untouched] == PAINT)
        untouched++;
    return sizeof stack - untouched;
}

/* Makes every call once, and gives the most that one of them took. */
static size_t measure_all(int print)
{
    size_t most = 0;
    for (size_t i = 0; i < CASES; i++) {
        cases[i].prepare();
        size_t bytes = measure(cases[i].call);
        if (answer.kind != cases[i].kind) {
            fprintf(stderr, "tests/stack.c: %s: the answer is of kind %" PRIu64 "\n", cases[i].name, answer.kind);
            exit(1);
        }
        if (print)
            printf("%s: %zu bytes\n", cases[i].name, bytes);
        most = bytes > most ? bytes : most;
    }
    return most;
}

int main(void)
{
    size_t first = measure_all(0);
    size_t later = measure_all(1);
    size_t most = first > later ? first : later;
    int within = most <= WELSBELL_ENOUGH_STACK;
    printf("stack: at most %zu bytes in a call, %zu with what the loader does in the first ones: %s the header's %d\n", later, most,
           within ? "all within" : "NOT within", WELSBELL_ENOUGH_STACK);
    return !within;
}
