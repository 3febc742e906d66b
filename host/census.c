/*
 * A host of the census: wards, theatres and cleaning teams hand in bed events through the intake, under a seeded random scheduler, and the
 * consumer keeps the census of two offices.
 *
 *     census [SEED]
 *
 * Each ward, theatre and cleaning team is a producer. A ward or a theatre takes a patient into a free bed of its own; when the patient has left,
 * the bed awaits cleaning; a cleaning team cleans it, and it is free again. Now and then a ward closes a free bed, and opens it again. The next
 * event of a bed is started only when the enqueue of the one before has ended. So a bed's events are received in their order, whatever the order of
 * the steps: that is linearizability. Events of different beds run at the same time, and have no order between them.
 *
 * The consumer dequeues, and drains now and then. Each item goes to the census in the order in which it is received. The site manager counts the
 * occupied beds, the porters also those that await cleaning. Half way the hospital reads an edited table: the porters count beds being cleaned,
 * too. The host prints a line for each item that changes one of the two counts. When all events are through it checks every bed of the board
 * against its own list of the beds' last events, and both counts against counts that it makes afresh, from that list and the rows of the table.
 *
 * It starts no enqueue where intake_has_room says no, and steps on whoever is in the way before the consumer, so that no producer waits for a
 * record for good (docs/STEPS.md, "Room"). A step that is refused with 8 is made again later.
 */
#include <stdio.h>

#include "census.h"
#include "intake.h"
#include "scheduler.h"

enum { WARDS = 3, THEATRES = 2, TEAMS = 2, OWNERS = WARDS + THEATRES, PRODUCERS = OWNERS + TEAMS, BEDS = 10, EVENTS = 40 };
enum { ENTRIES = 4, RECORDS = 32, ROWS = CENSUS_TABLE_WORDS / 3, SITE_MANAGER = 0, PORTERS = 1 };

_Static_assert(RECORDS >= INTAKE_LEAST_RECORDS(ENTRIES, PRODUCERS), "too few records for so many producers");

/* office, state, and 1 counted or 0 not; offices 2 and 3 count nothing */
static uint32_t rows[ROWS][3] = {
    {SITE_MANAGER, CENSUS_FREE, 0},
    {SITE_MANAGER, CENSUS_OCCUPIED, 1},
    {SITE_MANAGER, CENSUS_AWAITING_CLEANING, 0},
    {SITE_MANAGER, CENSUS_BEING_CLEANED, 0},
    {SITE_MANAGER, CENSUS_CLOSED, 0},
    {PORTERS, CENSUS_FREE, 0},
    {PORTERS, CENSUS_OCCUPIED, 1},
    {PORTERS, CENSUS_AWAITING_CLEANING, 1},
    {PORTERS, CENSUS_BEING_CLEANED, 0},
    {PORTERS, CENSUS_CLOSED, 0},
    {2, CENSUS_FREE, 0}, {2, CENSUS_OCCUPIED, 0}, {2, CENSUS_AWAITING_CLEANING, 0}, {2, CENSUS_BEING_CLEANED, 0}, {2, CENSUS_CLOSED, 0},
    {3, CENSUS_FREE, 0}, {3, CENSUS_OCCUPIED, 0}, {3, CENSUS_AWAITING_CLEANING, 0}, {3, CENSUS_BEING_CLEANED, 0}, {3, CENSUS_CLOSED, 0},
};

static const char *const in_words[CENSUS_STATES] = {"free", "occupied", "awaiting cleaning", "being cleaned", "closed"};

static uint32_t store[INTAKE_WORDS(ENTRIES, RECORDS, PRODUCERS)], buffer[INTAKE_MOST_BUFFER], board[CENSUS_WORDS];
static const size_t words = sizeof store / sizeof store[0];

static uint32_t last[CENSUS_BEDS]; /* the state that each bed's last event, ended or not, brings; all beds begin free */
static int under_way[PRODUCERS + 1], in_hand[BEDS]; /* calls of threads; events of beds */
static uint32_t bed_of[PRODUCERS + 1], calls_under_way, started, counted;

static void expect_ok(const char *what, uint32_t answer) {
    if (answer != 0) fail(what, answer);
}

static uint32_t count_of(uint32_t office) {
    uint32_t reply[4] = {0};
    expect_ok("count", census_count(board, office, reply));
    return reply[0];
}

static uint32_t count_afresh(uint32_t office) {
    uint32_t count = 0;
    for (uint32_t bed = 0; bed < CENSUS_BEDS; bed++)
        for (uint32_t row = 0; row < ROWS; row++)
            if (rows[row][0] == office && rows[row][1] == last[bed]) count += rows[row][2];
    return count;
}

static void read_edited_table(void) {
    for (uint32_t row = 0; row < ROWS; row++)
        if (rows[row][0] == PORTERS && rows[row][1] == CENSUS_BEING_CLEANED) rows[row][2] = 1;
    expect_ok("table", census_table(board, rows[0], CENSUS_TABLE_WORDS));
    printf("an edited table is read, in which the porters count beds being cleaned, too\n");
    printf("           counted afresh     %12u  %7u\n", (unsigned)count_of(SITE_MANAGER), (unsigned)count_of(PORTERS));
}

static void receive(uint32_t call, uint32_t value) {
    uint32_t site_manager = count_of(SITE_MANAGER), porters = count_of(PORTERS);
    expect_ok("item", census_take(board, value));
    if (count_of(SITE_MANAGER) != site_manager || count_of(PORTERS) != porters)
        printf("%4u  %3u  %-18s %12u  %7u\n", (unsigned)call, (unsigned)CENSUS_BED(value), in_words[CENSUS_STATE(value)],
               (unsigned)count_of(SITE_MANAGER), (unsigned)count_of(PORTERS));
    if (++counted == EVENTS / 2) read_edited_table();
}

/* The producer whose turn a bed is: a cleaning team's while it awaits cleaning or is being cleaned, else its ward's or theatre's. */
static uint32_t whose(uint32_t bed) {
    if (last[bed] == CENSUS_AWAITING_CLEANING || last[bed] == CENSUS_BEING_CLEANED) return 1 + OWNERS + bed % TEAMS;
    return 1 + bed % OWNERS;
}

static uint32_t next_state(uint32_t bed) {
    switch (last[bed]) {
    case CENSUS_FREE:
        return whose(bed) <= WARDS && draw(6) == 0 ? CENSUS_CLOSED : CENSUS_OCCUPIED;
    case CENSUS_OCCUPIED:
        return CENSUS_AWAITING_CLEANING;
    case CENSUS_AWAITING_CLEANING:
        return CENSUS_BEING_CLEANED;
    default:
        return CENSUS_FREE;
    }
}

/* Starts the next event of a bed whose turn is this producer's, if there is one of which no event is under way. */
static void start_event(uint32_t thread) {
    uint32_t reply[4] = {0}, bed = draw(BEDS), looked = 0;
    if (started == EVENTS || !intake_has_room(store)) return;
    while (whose(bed) != thread || in_hand[bed]) {
        if (++looked == BEDS) return;
        bed = (bed + 1) % BEDS;
    }
    last[bed] = next_state(bed);
    expect_ok("start of an enqueue", intake_start_enqueue(store, words, thread, CENSUS_VALUE(bed, last[bed]), reply));
    in_hand[bed] = 1;
    bed_of[thread] = bed;
    started++;
    under_way[thread] = 1;
    calls_under_way++;
}

static void start_receiving(void) {
    expect_ok("start of the consumer", draw(3) ? intake_start_dequeue(store, words) : intake_start_drain(store, words, INTAKE_MOST_DRAINED));
    under_way[0] = 1;
    calls_under_way++;
}

/* The engine's answer to a step. */
static uint32_t step(uint32_t thread) {
    uint32_t reply[4] = {0}, answer = intake_step(store, words, thread, buffer, INTAKE_MOST_BUFFER, 0, reply);
    if (answer == INTAKE_GOING || answer == INTAKE_REFUSED_NONE_FREE) return answer;
    if (answer < INTAKE_GOING) fail("step", answer);
    under_way[thread] = 0;
    calls_under_way--;
    if (answer == INTAKE_END) in_hand[bed_of[thread]] = 0;
    if (answer == INTAKE_ITEM) receive(reply[0], reply[1]);
    if (answer == INTAKE_DRAINED)
        for (uint32_t k = 0; k < reply[0]; k++) receive(buffer[2 * k], buffer[2 * k + 1]);
    return answer;
}

/* One turn of a thread: a step, or the start of its next call. */
static void turn(uint32_t thread) {
    if (under_way[thread]) {
        if (thread == 0) clear_the_way(store, PRODUCERS, step);
        step(thread);
    } else if (thread > 0) {
        start_event(thread);
    } else if (counted < EVENTS) {
        start_receiving();
    }
}

/* That the store is empty, where no call is under way: a dequeue finds nothing. */
static void check_empty(void) {
    uint32_t reply[4] = {0}, answer;
    expect_ok("start of the consumer", intake_start_dequeue(store, words));
    while ((answer = intake_step(store, words, 0, buffer, 0, 0, reply)) == INTAKE_GOING) {}
    if (answer != INTAKE_EMPTY) fail("the store is not empty", answer);
}

static void check_board(void) {
    for (uint32_t bed = 0; bed < CENSUS_BEDS; bed++)
        if (board[bed] != last[bed]) fail("a bed whose state is not that of its last event", bed);
    for (uint32_t office = SITE_MANAGER; office <= PORTERS; office++)
        if (count_of(office) != count_afresh(office)) fail("an office whose count is not one made afresh", office);
}

int main(int argc, char **argv) {
    uint32_t stopped[PRODUCERS + 1] = {0};

    begin("census", argc, argv);
    expect_ok("open", intake_open(store, words, ENTRIES, RECORDS, PRODUCERS, EVENTS));
    expect_ok("open", census_open(board));
    expect_ok("table", census_table(board, rows[0], CENSUS_TABLE_WORDS));
    printf("call  bed  state              site manager  porters\n");

    while (counted < EVENTS || calls_under_way > 0) turn(next_turn(PRODUCERS, stopped));
    check_empty();
    check_board();
    printf("%u events counted, not one bed out: each has the state of its last event; site manager %u, porters %u, as counted afresh\n",
           (unsigned)counted, (unsigned)count_of(SITE_MANAGER), (unsigned)count_of(PORTERS));
    return 0;
}
