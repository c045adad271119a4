/* Holds the C header to the archive: the version, layouts, kinds and values of answers, hours, each bound at itself and one past,
   each refusal's name by the calls that give it, lengths of the client table in numbers, and tables that are null. It is C99 and C++11
   alike, and is run as both. */
#include "welsbell.h"

#include <stdio.h>
#include <string.h>

/* One more than the largest tables. */
#define RECORDS (WELSBELL_MOST_RECORDS + 1)
#define CLIENTS (WELSBELL_MOST_CLIENTS + 1)

static welsbell_request waiting[RECORDS];
static welsbell_client clients[CLIENTS];
static welsbell_queue queue;
static unsigned held, failed;

#define HOLD(condition) hold((condition), #condition, __LINE__)

static void hold(int is, const char *condition, int line)
{
    held++;
    if (!is) {
        failed++;
        fprintf(stderr, "tests/header.c, line %d: not so: %s\n", line, condition);
    }
}

/* Whether an answer is the refusal. */
static int refused(welsbell_answer answer, uint64_t number)
{
    return answer.kind == WELSBELL_REFUSED && answer.is.refused.number == number;
}

static int is_kind(welsbell_answer answer, uint64_t kind)
{
    return answer.kind == kind;
}

/* A queue of so many records and clients, with nothing in it but zeros. */
static void lend(size_t records, size_t client_count)
{
    memset(waiting, 0, sizeof waiting);
    memset(clients, 0, sizeof clients);
    memset(&queue, 0, sizeof queue);
    queue.waiting = waiting;
    queue.waiting_length = records;
    queue.clients = clients;
    queue.clients_length = client_count;
}

/* One slot an hour. */
static welsbell_setup setup_of(uint64_t client_count, uint64_t period)
{
    welsbell_setup setup;
    setup.clients = client_count;
    setup.period = period;
    setup.slots_per_hour = 1;
    return setup;
}

static welsbell_answer open_with(uint64_t client_count, uint64_t period)
{
    return welsbell_queue_open(&queue, setup_of(client_count, period), welsbell_all_hours_open());
}

static welsbell_answer open_within(uint64_t slots_per_hour, welsbell_hours hours)
{
    welsbell_setup setup = setup_of(1, 1000000);
    setup.slots_per_hour = slots_per_hour;
    return welsbell_queue_open(&queue, setup, hours);
}

static welsbell_hours all_hours_closed(void)
{
    welsbell_hours hours = welsbell_all_hours_open();
    for (size_t hour = 0; hour < WELSBELL_HOURS; hour++)
        welsbell_mark_hour(&hours, hour, 0);
    return hours;
}

/* The same, opened with a period that no case reaches. */
static void lend_opened(size_t records, size_t client_count)
{
    lend(records, client_count);
    HOLD(is_kind(open_with(client_count, 1000000), WELSBELL_OPENED));
}

static void layouts(void)
{
    HOLD(sizeof(welsbell_setup) == 24);
    HOLD(offsetof(welsbell_setup, clients) == 0);
    HOLD(offsetof(welsbell_setup, period) == 8);
    HOLD(offsetof(welsbell_setup, slots_per_hour) == 16);
    HOLD(sizeof(welsbell_head) == 48);
    HOLD(offsetof(welsbell_head, setup) == 0);
    HOLD(offsetof(welsbell_head, clock) == 24);
    HOLD(offsetof(welsbell_head, last) == 32);
    HOLD(offsetof(welsbell_head, waiting) == 40);
    HOLD(sizeof(welsbell_hours) == 21);
    HOLD(offsetof(welsbell_hours, marks) == 0);
    HOLD(sizeof queue.hours.marks == 21);
    HOLD(sizeof(welsbell_request) == 24);
    HOLD(offsetof(welsbell_request, deadline) == 0);
    HOLD(offsetof(welsbell_request, number) == 8);
    HOLD(offsetof(welsbell_request, client) == 16);
    HOLD(sizeof(welsbell_client) == 12);
    HOLD(offsetof(welsbell_client, submitted) == 0);
    HOLD(offsetof(welsbell_client, served) == 4);
    HOLD(offsetof(welsbell_client, dropped) == 8);
    HOLD(sizeof(welsbell_values) == 40);

    /* and as the archive writes them: all numbers differ */
    lend(8, 5);
    welsbell_setup setup = setup_of(5, 100);
    setup.slots_per_hour = 70;
    welsbell_hours hours = welsbell_all_hours_open();
    for (size_t i = 0; i < sizeof hours.marks; i++)
        hours.marks[i] = (uint8_t)(0x80 + i);
    HOLD(is_kind(welsbell_queue_open(&queue, setup, hours), WELSBELL_OPENED));
    for (size_t i = 0; i < sizeof hours.marks; i++)
        HOLD(queue.hours.marks[i] == 0x80 + i);
    for (int i = 0; i < 3; i++)
        HOLD(is_kind(welsbell_queue_tick(&queue), WELSBELL_IDLE));
    HOLD(is_kind(welsbell_queue_submit(&queue, 4, 50), WELSBELL_KEPT));
    HOLD(is_kind(welsbell_queue_submit(&queue, 3, 40), WELSBELL_KEPT));
    HOLD(queue.head.setup.clients == 5);
    HOLD(queue.head.setup.period == 100);
    HOLD(queue.head.setup.slots_per_hour == 70);
    HOLD(queue.head.clock == 3);
    HOLD(queue.head.last == 2);
    HOLD(queue.head.waiting == 2);
    HOLD(waiting[0].deadline == 40 && waiting[0].number == 2 && waiting[0].client == 3);
    HOLD(waiting[1].deadline == 50 && waiting[1].number == 1 && waiting[1].client == 4);
    HOLD(clients[3].submitted == 1 && clients[3].served == 0 && clients[3].dropped == 0);
    /* client 3 is served in slot 3; then two of its reads have to end with slot 4, and the second is dropped */
    HOLD(is_kind(welsbell_queue_tick(&queue), WELSBELL_SERVED));
    HOLD(is_kind(welsbell_queue_submit(&queue, 3, 5), WELSBELL_KEPT));
    HOLD(is_kind(welsbell_queue_submit(&queue, 3, 5), WELSBELL_DROPPED));
    HOLD(is_kind(welsbell_queue_submit(&queue, 3, 5), WELSBELL_DROPPED));
    HOLD(clients[3].submitted == 4 && clients[3].served == 1 && clients[3].dropped == 2);
    HOLD(clients[4].submitted == 1 && clients[4].served == 0 && clients[4].dropped == 0);
}

/* Each kind by the call that gives it, with its values by name. In no answer but the first read's are two values the same, so that
   none can stand for another. Client 7 has missed more than clients 2 and 6, so that its read is kept and the last of theirs is
   dropped; two reads of client 5 wait behind them all. */
static void answers(void)
{
    uint64_t starts[5] = {99, 99, 99, 99, 99};
    lend(8, 8);
    welsbell_answer a = open_with(8, 1000);
    HOLD(a.kind == WELSBELL_OPENED);
    queue.head.clock = 4;
    queue.head.last = 20;
    clients[7].submitted = 10;
    clients[7].served = 7;
    clients[7].dropped = 3;
    a = welsbell_queue_tick(&queue);
    HOLD(a.kind == WELSBELL_IDLE && a.is.idle.slot == 4);
    a = welsbell_queue_submit(&queue, 5, 30);
    HOLD(a.kind == WELSBELL_KEPT && a.is.kept.number == 21 && a.is.kept.place == 0 && a.is.kept.shift == 0);
    a = welsbell_queue_submit(&queue, 5, 31);
    HOLD(a.kind == WELSBELL_KEPT && a.is.kept.number == 22 && a.is.kept.place == 1 && a.is.kept.shift == 0);
    a = welsbell_queue_submit(&queue, 2, 7);
    HOLD(a.kind == WELSBELL_KEPT && a.is.kept.number == 23 && a.is.kept.place == 0 && a.is.kept.shift == 2);
    a = welsbell_queue_submit(&queue, 6, 7);
    HOLD(a.kind == WELSBELL_KEPT && a.is.kept.number == 24 && a.is.kept.place == 1 && a.is.kept.shift == 2);
    /* the victim stood behind the new one too */
    a = welsbell_queue_submit(&queue, 7, 6);
    HOLD(a.kind == WELSBELL_DROPPED && a.is.dropped.number == 25 && a.is.dropped.victim == 24);
    HOLD(a.is.dropped.client == 6 && a.is.dropped.shift == 4);
    a = welsbell_queue_tick(&queue);
    HOLD(a.kind == WELSBELL_SERVED && a.is.served.slot == 5 && a.is.served.number == 25 && a.is.served.client == 7);
    a = welsbell_queue_submit(&queue, 7, 9);
    HOLD(a.kind == WELSBELL_KEPT && a.is.kept.number == 26 && a.is.kept.place == 1 && a.is.kept.shift == 2);
    a = welsbell_queue_report(&queue, 7);
    HOLD(a.kind == WELSBELL_REPORTED && a.is.reported.client == 7 && a.is.reported.submitted == 12);
    HOLD(a.is.reported.served == 8 && a.is.reported.dropped == 3 && a.is.reported.waiting == 1);
    a = welsbell_queue_chart(&queue, starts, 5);
    HOLD(a.kind == WELSBELL_CHARTED && a.is.charted.count == 4);
    HOLD(starts[0] == 6 && starts[1] == 8 && starts[2] == 29 && starts[3] == 30 && starts[4] == 99);
    HOLD(refused(welsbell_queue_report(&queue, 8), WELSBELL_REFUSED_CLIENT));
}

/* Each hour by its name is where document 02 has it, "first hour in the highest bit", and the archive reads it there. */
static void hours_of_the_week(void)
{
    welsbell_hours open = welsbell_all_hours_open();
    for (size_t i = 0; i < sizeof open.marks; i++)
        HOLD(open.marks[i] == 0xFF);
    for (size_t hour = 0; hour < WELSBELL_HOURS; hour++) {
        welsbell_hours one = all_hours_closed(), others = open;
        welsbell_answer a;
        welsbell_mark_hour(&one, hour, 1);
        welsbell_mark_hour(&others, hour + WELSBELL_HOURS, 0);
        for (size_t i = 0; i < sizeof one.marks; i++) {
            HOLD(one.marks[i] == (i == hour / 8 ? 1 << (7 - hour % 8) : 0));
            HOLD(others.marks[i] == 0xFF - one.marks[i]);
        }
        lend(1, 1);
        HOLD(is_kind(open_within(1, one), WELSBELL_OPENED));
        queue.head.clock = hour;
        HOLD(is_kind(welsbell_queue_tick(&queue), WELSBELL_IDLE));
        queue.head.clock = hour + 5;
        a = welsbell_queue_tick(&queue);
        HOLD(a.kind == WELSBELL_CLOSED && a.is.closed.slot == hour + 5);
        HOLD(is_kind(open_within(1, others), WELSBELL_OPENED));
        queue.head.clock = hour + 2 * WELSBELL_HOURS;
        a = welsbell_queue_tick(&queue);
        HOLD(a.kind == WELSBELL_CLOSED && a.is.closed.slot == hour + 2 * WELSBELL_HOURS);
    }
}

/* Whether the first numbers, so many, are these, and the others stand as they were. */
static int wrote(const welsbell_values *values, size_t count, uint64_t a, uint64_t b, uint64_t c, uint64_t d)
{
    const uint64_t numbers[5] = {a, b, c, d, 7};
    for (size_t i = 0; i < 5; i++)
        if (values->numbers[i] != (i < count ? numbers[i] : 7))
            return 0;
    return 1;
}

/* The calls of the archive write the answer's values, and nothing behind them. */
static void values(void)
{
    static const welsbell_values unwritten = {{7, 7, 7, 7, 7}};
    uint64_t output[1];
    const welsbell_setup setup = setup_of(2, 100);
    welsbell_hours marks = welsbell_all_hours_open();
    welsbell_hours *const hours = &queue.hours;
    welsbell_values v = unwritten;
    welsbell_mark_hour(&marks, 1, 0);
    lend(8, 2);
    HOLD(welsbell_open(&queue.head, hours, waiting, 8, clients, 6, &setup, &marks, &v) == WELSBELL_OPENED);
    HOLD(wrote(&v, 0, 0, 0, 0, 0));
    HOLD(welsbell_submit(&queue.head, hours, waiting, 8, clients, 6, 1, 5, &v) == WELSBELL_KEPT);
    HOLD(wrote(&v, 3, 1, 0, 0, 0));
    v = unwritten;
    HOLD(welsbell_submit(&queue.head, hours, waiting, 8, clients, 6, 0, 1, &v) == WELSBELL_KEPT);
    HOLD(wrote(&v, 3, 2, 0, 1, 0));
    v = unwritten;
    HOLD(welsbell_submit(&queue.head, hours, waiting, 8, clients, 6, 0, 1, &v) == WELSBELL_DROPPED);
    HOLD(wrote(&v, 4, 3, 3, 0, 1));
    v = unwritten;
    HOLD(welsbell_report(&queue.head, hours, waiting, 8, clients, 6, 2, &v) == WELSBELL_REFUSED);
    HOLD(wrote(&v, 1, WELSBELL_REFUSED_CLIENT, 0, 0, 0));
    v = unwritten;
    HOLD(welsbell_chart(&queue.head, hours, waiting, 8, clients, 6, output, 0, &v) == WELSBELL_REFUSED);
    HOLD(wrote(&v, 1, WELSBELL_REFUSED_OUTPUT, 0, 0, 0));
    v = unwritten;
    HOLD(welsbell_tick(&queue.head, hours, waiting, 8, clients, 6, &v) == WELSBELL_SERVED);
    HOLD(wrote(&v, 3, 0, 2, 0, 0));
    v = unwritten;
    HOLD(welsbell_tick(&queue.head, hours, waiting, 8, clients, 6, &v) == WELSBELL_CLOSED);
    HOLD(wrote(&v, 1, 1, 0, 0, 0));
    /* in a welsbell_answer they are 0 */
    HOLD(welsbell_queue_tick(&queue).is.numbers[4] == 0);
}

/* The bounds of an open, each at itself and one past. */
static void bounds_of_open(void)
{
    lend(1, WELSBELL_MOST_CLIENTS);
    HOLD(is_kind(open_with(WELSBELL_MOST_CLIENTS, 1), WELSBELL_OPENED));
    lend(1, WELSBELL_MOST_CLIENTS + 1);
    HOLD(refused(open_with(WELSBELL_MOST_CLIENTS + 1, 1), WELSBELL_REFUSED_CLIENTS));
    lend(1, 1);
    HOLD(is_kind(open_with(1, 1), WELSBELL_OPENED));
    lend(1, 0);
    HOLD(refused(open_with(0, 1), WELSBELL_REFUSED_CLIENTS));

    lend(WELSBELL_MOST_RECORDS, 1);
    HOLD(is_kind(open_with(1, 1), WELSBELL_OPENED));
    lend(WELSBELL_MOST_RECORDS + 1, 1);
    HOLD(refused(open_with(1, 1), WELSBELL_REFUSED_LENGTHS));
    lend(0, 1);
    HOLD(refused(open_with(1, 1), WELSBELL_REFUSED_LENGTHS));

    lend(1, 1);
    HOLD(is_kind(open_with(1, WELSBELL_MOST_PERIOD), WELSBELL_OPENED));
    HOLD(queue.head.setup.period == WELSBELL_MOST_PERIOD);
    HOLD(refused(open_with(1, WELSBELL_MOST_PERIOD + 1), WELSBELL_REFUSED_PERIOD));
    HOLD(refused(open_with(1, 0), WELSBELL_REFUSED_PERIOD));

    HOLD(is_kind(open_within(WELSBELL_MOST_PER_HOUR, welsbell_all_hours_open()), WELSBELL_OPENED));
    HOLD(queue.head.setup.slots_per_hour == WELSBELL_MOST_PER_HOUR);
    HOLD(refused(open_within(WELSBELL_MOST_PER_HOUR + 1, welsbell_all_hours_open()), WELSBELL_REFUSED_PER_HOUR));
    HOLD(refused(open_within(0, all_hours_closed()), WELSBELL_REFUSED_PER_HOUR));
    HOLD(refused(open_within(1, all_hours_closed()), WELSBELL_REFUSED_ALL_CLOSED));
}

/* The bounds of what an open queue is asked and holds, each at itself and one past. */
static void bounds_of_others(void)
{
    lend_opened(4, 1);
    queue.head.clock = 10;
    HOLD(refused(welsbell_queue_submit(&queue, 0, 10), WELSBELL_REFUSED_DEADLINE));
    HOLD(is_kind(welsbell_queue_submit(&queue, 0, 11), WELSBELL_KEPT));
    HOLD(is_kind(welsbell_queue_submit(&queue, 0, 10 + WELSBELL_MOST_AHEAD), WELSBELL_KEPT));
    HOLD(refused(welsbell_queue_submit(&queue, 0, 10 + WELSBELL_MOST_AHEAD + 1), WELSBELL_REFUSED_DEADLINE));

    lend_opened(4, 1);
    queue.head.setup.slots_per_hour = WELSBELL_MOST_PER_HOUR;
    HOLD(is_kind(welsbell_queue_report(&queue, 0), WELSBELL_REPORTED));
    welsbell_mark_hour(&queue.hours, 0, 0);
    HOLD(refused(welsbell_queue_submit(&queue, 0, WELSBELL_MOST_AHEAD), WELSBELL_REFUSED_NO_OPEN_SLOT));
    HOLD(refused(welsbell_queue_submit(&queue, 0, WELSBELL_MOST_AHEAD + 1), WELSBELL_REFUSED_DEADLINE));
    queue.head.setup.slots_per_hour = WELSBELL_MOST_PER_HOUR + 1;
    HOLD(refused(welsbell_queue_report(&queue, 0), WELSBELL_REFUSED_UNSOUND));
    queue.head.setup.slots_per_hour = 1;
    queue.hours = all_hours_closed();
    HOLD(refused(welsbell_queue_report(&queue, 0), WELSBELL_REFUSED_UNSOUND));

    lend_opened(4, 1);
    clients[0].submitted = clients[0].served = WELSBELL_MOST_COUNTED - 1;
    HOLD(is_kind(welsbell_queue_submit(&queue, 0, 1), WELSBELL_KEPT));
    HOLD(clients[0].submitted == WELSBELL_MOST_COUNTED);
    HOLD(refused(welsbell_queue_submit(&queue, 0, 2), WELSBELL_REFUSED_COUNT));
    HOLD(is_kind(welsbell_queue_report(&queue, 0), WELSBELL_REPORTED));
    clients[0].submitted = WELSBELL_MOST_COUNTED + 1;
    clients[0].served = WELSBELL_MOST_COUNTED;
    HOLD(refused(welsbell_queue_report(&queue, 0), WELSBELL_REFUSED_UNSOUND));

    lend_opened(4, 1);
    queue.head.clock = WELSBELL_END - 1;
    HOLD(is_kind(welsbell_queue_tick(&queue), WELSBELL_IDLE));
    HOLD(queue.head.clock == WELSBELL_END);
    HOLD(refused(welsbell_queue_tick(&queue), WELSBELL_REFUSED_CLOCK));
    queue.head.clock = WELSBELL_END + 1;
    HOLD(refused(welsbell_queue_tick(&queue), WELSBELL_REFUSED_UNSOUND));

    lend_opened(4, 1);
    queue.head.last = WELSBELL_END - 1;
    HOLD(is_kind(welsbell_queue_submit(&queue, 0, 1), WELSBELL_KEPT));
    HOLD(queue.head.last == WELSBELL_END && waiting[0].number == WELSBELL_END);
    HOLD(refused(welsbell_queue_submit(&queue, 0, 2), WELSBELL_REFUSED_NUMBER));
    queue.head.last = WELSBELL_END + 1;
    HOLD(refused(welsbell_queue_submit(&queue, 0, 2), WELSBELL_REFUSED_UNSOUND));
}

/* The four calls that ask whether the tables are sound. */
static void all_but_open(uint64_t number)
{
    uint64_t starts[8];
    HOLD(refused(welsbell_queue_submit(&queue, 0, queue.head.clock + 9), number));
    HOLD(refused(welsbell_queue_tick(&queue), number));
    HOLD(refused(welsbell_queue_report(&queue, 0), number));
    HOLD(refused(welsbell_queue_chart(&queue, starts, 8), number));
}

/* Refusals that the bounds did not meet, by the calls that give them. */
static void refusals(void)
{
    uint64_t starts[2];
    lend_opened(4, 2);
    queue.clients_length = 1;
    all_but_open(WELSBELL_REFUSED_LENGTHS);
    HOLD(refused(open_with(2, 1), WELSBELL_REFUSED_LENGTHS));
    queue.clients_length = 3;
    all_but_open(WELSBELL_REFUSED_LENGTHS);
    HOLD(refused(open_with(2, 1), WELSBELL_REFUSED_LENGTHS));
    queue.clients_length = 2;
    queue.head.waiting = 5;
    all_but_open(WELSBELL_REFUSED_LENGTHS);
    queue.head.waiting = 4;
    all_but_open(WELSBELL_REFUSED_UNSOUND);

    lend_opened(2, 2);
    HOLD(is_kind(welsbell_queue_report(&queue, 1), WELSBELL_REPORTED));
    HOLD(refused(welsbell_queue_report(&queue, 2), WELSBELL_REFUSED_CLIENT));
    HOLD(refused(welsbell_queue_submit(&queue, 2, 1), WELSBELL_REFUSED_CLIENT));
    HOLD(is_kind(welsbell_queue_submit(&queue, 1, 5), WELSBELL_KEPT));
    HOLD(is_kind(welsbell_queue_submit(&queue, 1, 6), WELSBELL_KEPT));
    HOLD(refused(welsbell_queue_submit(&queue, 1, 7), WELSBELL_REFUSED_FULL));
    HOLD(is_kind(welsbell_queue_chart(&queue, starts, 2), WELSBELL_CHARTED));
    HOLD(refused(welsbell_queue_chart(&queue, starts, 1), WELSBELL_REFUSED_OUTPUT));
}

/* The calls of the archive on a client table of so many numbers, which are not those of two clients, nor of the head's. */
static void wrong_numbers(size_t numbers)
{
    uint64_t starts[4];
    const welsbell_setup setup = setup_of(2, 100);
    const welsbell_hours marks = welsbell_all_hours_open();
    welsbell_hours *const hours = &queue.hours;
    welsbell_answer a = welsbell_queue_report(&queue, 0);
    HOLD(!refused(a, WELSBELL_REFUSED_LENGTHS));
    a.kind = welsbell_open(&queue.head, hours, waiting, 4, clients, numbers, &setup, &marks, &a.is);
    HOLD(refused(a, WELSBELL_REFUSED_LENGTHS));
    a.is.refused.number = 0;
    a.kind = welsbell_submit(&queue.head, hours, waiting, 4, clients, numbers, 0, 9, &a.is);
    HOLD(refused(a, WELSBELL_REFUSED_LENGTHS));
    a.is.refused.number = 0;
    a.kind = welsbell_tick(&queue.head, hours, waiting, 4, clients, numbers, &a.is);
    HOLD(refused(a, WELSBELL_REFUSED_LENGTHS));
    a.is.refused.number = 0;
    a.kind = welsbell_report(&queue.head, hours, waiting, 4, clients, numbers, 0, &a.is);
    HOLD(refused(a, WELSBELL_REFUSED_LENGTHS));
    a.is.refused.number = 0;
    a.kind = welsbell_chart(&queue.head, hours, waiting, 4, clients, numbers, starts, 4, &a.is);
    HOLD(refused(a, WELSBELL_REFUSED_LENGTHS));
}

/* The client table's length, in numbers, one and more off its bound: with two clients, with none in the head, and with the most. */
static void numbers_of_clients(void)
{
    const size_t most = 3 * WELSBELL_MOST_CLIENTS;
    const welsbell_setup setup = setup_of(WELSBELL_MOST_CLIENTS, 100);
    const welsbell_hours marks = welsbell_all_hours_open();
    welsbell_answer a = {0, {{0, 0, 0, 0, 0}}};
    lend_opened(4, 2);
    for (size_t numbers = 0; numbers <= 9; numbers++)
        if (numbers != 6)
            wrong_numbers(numbers);
    queue.head.setup.clients = 0;
    queue.clients_length = 0;
    for (size_t numbers = 1; numbers <= 4; numbers++)
        wrong_numbers(numbers);

    lend(4, WELSBELL_MOST_CLIENTS);
    for (size_t numbers = most - 1; numbers <= most + 2; numbers++) {
        a.kind = welsbell_open(&queue.head, &queue.hours, waiting, 4, clients, numbers, &setup, &marks, &a.is);
        HOLD(numbers == most ? is_kind(a, WELSBELL_OPENED) : refused(a, WELSBELL_REFUSED_LENGTHS));
    }
}

/* Tables that are null have no records, whatever their lengths say. */
static void null_tables(void)
{
    lend(0, 0);
    queue.waiting = NULL;
    queue.clients = NULL;
    all_but_open(WELSBELL_REFUSED_LENGTHS);
    HOLD(refused(open_with(1, 1), WELSBELL_REFUSED_LENGTHS));
    queue.waiting_length = 8;
    queue.clients_length = 1;
    HOLD(refused(open_with(1, 1), WELSBELL_REFUSED_LENGTHS));
    queue.waiting = waiting;
    HOLD(refused(open_with(1, 1), WELSBELL_REFUSED_LENGTHS));
    queue.clients = clients;
    HOLD(is_kind(open_with(1, 1), WELSBELL_OPENED));
    HOLD(is_kind(welsbell_queue_chart(&queue, NULL, 8), WELSBELL_CHARTED));
    HOLD(is_kind(welsbell_queue_submit(&queue, 0, 1), WELSBELL_KEPT));
    HOLD(refused(welsbell_queue_chart(&queue, NULL, 8), WELSBELL_REFUSED_OUTPUT));
}

int main(void)
{
    HOLD(welsbell_version() == WELSBELL_VERSION);
    layouts();
    answers();
    hours_of_the_week();
    values();
    bounds_of_open();
    bounds_of_others();
    refusals();
    numbers_of_clients();
    null_tables();
    if (failed) {
        fprintf(stderr, "tests/header.c: %u of %u do not hold\n", failed, held);
        return 1;
    }
    printf("%u facts of the C header: all as the archive has them\n", held);
    return 0;
}
