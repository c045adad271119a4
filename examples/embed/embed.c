/* A station that embeds the queue, with tables of 8 waiting records and 2 clients in arrays. An hour has 3 slots, and hour 1 belongs
   to the inspectors: slots 3, 4 and 5. It makes the calls of document 01's session, which end before, goes on until nothing waits
   and then for reads around that hour, and says each answer in words. It is C99 and C++11 alike; embed.rs, the Rust wrapper's
   example, and embed.py do the same. */
#include "welsbell.h"

#include <inttypes.h>
#include <stdio.h>

#define RECORDS 8
#define CLIENTS 2
#define SLOTS_PER_HOUR 3
#define INSPECTION 1

static welsbell_request waiting[RECORDS];
static welsbell_client clients[CLIENTS];
static welsbell_queue queue;

static const char *reason(uint64_t refusal)
{
    switch (refusal) {
    case WELSBELL_REFUSED_CLIENTS:
        return "clients are not 1 to 256";
    case WELSBELL_REFUSED_PERIOD:
        return "the period is not 1 to 4294967295 slots";
    case WELSBELL_REFUSED_LENGTHS:
        return "the tables do not have the lengths that are needed";
    case WELSBELL_REFUSED_UNSOUND:
        return "head, hours and tables are not sound";
    case WELSBELL_REFUSED_CLIENT:
        return "the client does not exist";
    case WELSBELL_REFUSED_DEADLINE:
        return "the deadline is not 1 to 65535 slots after the clock";
    case WELSBELL_REFUSED_COUNT:
        return "the client has submitted as many requests as can be counted";
    case WELSBELL_REFUSED_NUMBER:
        return "the last request number has been given";
    case WELSBELL_REFUSED_FULL:
        return "the waiting table is full";
    case WELSBELL_REFUSED_CLOCK:
        return "the clock is at its end";
    case WELSBELL_REFUSED_OUTPUT:
        return "the output is shorter than the waiting count";
    case WELSBELL_REFUSED_PER_HOUR:
        return "slots per hour are not 1 to 360000";
    case WELSBELL_REFUSED_ALL_CLOSED:
        return "all hours are closed";
    case WELSBELL_REFUSED_NO_OPEN_SLOT:
        return "no slot from the clock to the deadline is open";
    default:
        return "no reason that this program knows";
    }
}

static void say(welsbell_answer answer)
{
    const welsbell_values *is = &answer.is;
    switch (answer.kind) {
    case WELSBELL_OPENED:
        printf("opened\n");
        break;
    case WELSBELL_KEPT:
        printf("number %" PRIu64 " is kept, at place %" PRIu64 ", shift %" PRIu64 "\n", is->kept.number, is->kept.place,
               is->kept.shift);
        break;
    case WELSBELL_DROPPED:
        printf("number %" PRIu64 ", shift %" PRIu64 ", is one too many, number %" PRIu64 " of client %" PRIu64 " is dropped\n",
               is->dropped.number, is->dropped.shift, is->dropped.victim, is->dropped.client);
        break;
    case WELSBELL_SERVED:
        printf("number %" PRIu64 " of client %" PRIu64 " is served in slot %" PRIu64 "\n", is->served.number, is->served.client,
               is->served.slot);
        break;
    case WELSBELL_IDLE:
        printf("nothing waits in slot %" PRIu64 "\n", is->idle.slot);
        break;
    case WELSBELL_REPORTED:
        printf("client %" PRIu64 ": %" PRIu64 " submitted, %" PRIu64 " served, %" PRIu64 " dropped, %" PRIu64 " waiting\n",
               is->reported.client, is->reported.submitted, is->reported.served, is->reported.dropped, is->reported.waiting);
        break;
    case WELSBELL_CHARTED:
        printf("%" PRIu64 " waiting\n", is->charted.count);
        break;
    case WELSBELL_CLOSED:
        printf("slot %" PRIu64 " is closed\n", is->closed.slot);
        break;
    case WELSBELL_REFUSED:
        printf("refused, number %" PRIu64 ": %s\n", is->refused.number, reason(is->refused.number));
        break;
    }
}

static void submit(uint64_t client, uint64_t deadline)
{
    printf("client %" PRIu64 " submits a read with deadline %" PRIu64 ": ", client, deadline);
    say(welsbell_queue_submit(&queue, client, deadline));
}

static void tick(void)
{
    printf("tick: ");
    say(welsbell_queue_tick(&queue));
}

/* Each waiting read with the slot in which it starts. */
static void chart(void)
{
    uint64_t starts[RECORDS];
    welsbell_answer answer = welsbell_queue_chart(&queue, starts, RECORDS);
    uint64_t count = answer.kind == WELSBELL_CHARTED ? answer.is.charted.count : 0;
    printf("chart: ");
    say(answer);
    for (uint64_t i = 0; i < count; i++)
        printf("  slot %" PRIu64 ": number %" PRIu64 ", deadline %" PRIu64 "\n", starts[i], waiting[i].number, waiting[i].deadline);
}

static void open_queue(void)
{
    welsbell_hours hours = welsbell_all_hours_open();
    welsbell_setup setup;
    setup.clients = CLIENTS;
    setup.period = 100;
    setup.slots_per_hour = SLOTS_PER_HOUR;
    welsbell_mark_hour(&hours, INSPECTION, 0);
    queue.waiting = waiting;
    queue.waiting_length = RECORDS;
    queue.clients = clients;
    queue.clients_length = CLIENTS;
    printf("open with %d clients, %d slots an hour, hour %d closed: ", CLIENTS, SLOTS_PER_HOUR, INSPECTION);
    say(welsbell_queue_open(&queue, setup, hours));
}

int main(void)
{
    if (welsbell_version() != WELSBELL_VERSION) {
        fprintf(stderr, "the archive has version %" PRIu64 ", the header %d\n", welsbell_version(), WELSBELL_VERSION);
        return 1;
    }
    open_queue();
    submit(0, 1);
    submit(1, 2);
    submit(1, 1);
    chart();
    tick();
    say(welsbell_queue_report(&queue, 1));
    tick();
    tick();
    submit(2, 9);
    submit(0, 5);
    submit(0, 9);
    submit(0, 7);
    submit(1, 7);
    tick();
    chart();
    return 0;
}
