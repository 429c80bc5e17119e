/*
 * A whole transmitter, twice: both ends of a link of 10,000 cells per second each way, with a network between them.
 * Four connections are open at both ends. The near end sends most of the data: a leased circuit, whose minimum is its
 * peak and on which data always waits, and beside it one connection steadily, one in bursts, one without a minimum
 * rate; the far end sends a little, and turns the near end's RM cells round. The network delays cells by 5 ms each way.
 * Towards the far end it has room for 6,000 cells per second, for a while for 3,500 only: it marks data cells (EFCI)
 * while cells queue, and writes explicit rates into the backward cells on their way to the near end. For a while the
 * far end's memory is short, and for a while the network gives the fourth connection a rate of 0.
 *
 * Each slot is passed the time of abr_slot_time, so that what it comes late is not lost: the leased circuit has every
 * cell that its contract promises. With a lag of 0 it is passed its own time, and a sixth of these cells is missing.
 *
 *   transmitter              prints what happened, a line every 20 ms
 *   transmitter FILE         and writes the numbers of a picture to a file
 *   transmitter FILE SLOTS   and passes times at most so many slots before a slot's own, in place of one for each open
 *
 * Every answer is checked. A refusal that should not be ends the program.
 */
#include <inttypes.h>

#include "common.h"

#define SLOT (100 * US)
#define DELAY (5 * MS)
#define END (600 * MS)
#define LEASED_RATE UINT64_C(2400) /* cells per second: minimum and peak of the leased circuit */
#define LEASED_GAP UINT64_C(416667) /* nanoseconds from one of its cells to the next */
#define PEAK UINT64_C(2500) /* of each other connection */

enum { NEAR, FAR, ENDS };
enum { LEASED, STEADY, BURSTS, LATE, CONNECTIONS };
enum { LITTLE_ROOM, SHORT_MEMORY, NO_RATE, PHASES };

/* Phases in which the network, or the far end, allows less. */
static const struct {
    uint64_t from, to;
    const char *name;
} phases[PHASES] = {
    {200 * MS, 300 * MS, "room for 3,500"},
    {340 * MS, 380 * MS, "far memory short"},
    {410 * MS, 460 * MS, "rate 0 for 1/100"},
};

/* A connection at one end, beside what the engine has of it: its accounts. */
typedef struct {
    uint32_t vpi, vci;
    int open;
    uint64_t offered, closed;      /* data cells */
    uint64_t sent[4], outside;     /* cells by ABR_SENT_..., and out of rate */
    uint64_t next_out, next_in;    /* numbers of data cells */
} connection;

typedef struct {
    const char *name;
    abr_table table;
    connection connections[CONNECTIONS];
    connection *in_leaf[ABR_CONNECTIONS_MAX]; /* by the leaf that the engine's answers carry: no search by address */
    wire in;
    uint64_t passed;  /* the time of the last slot, as it was passed */
    uint64_t unknown; /* received cells of connections that are not open */
    uint64_t idle;    /* slots */
} station;

static station ends[ENDS] = {{.name = "near"}, {.name = "far"}};

/* How long before its own time a slot may be passed: a slot for each connection that is opened. The peaks of all
 * together fit the link, so it never has to be longer. Opens, made and out-of-rate cells take the time that the last
 * slot was passed: a later one would take from the connections what they lag. */
static uint64_t lag = CONNECTIONS * SLOT;

/* The network: when its queue will be empty, who sent data when, and the cells that it marked. */
static uint64_t queue_end, last_data[CONNECTIONS], marked;

/* ---- The network -------------------------------------------------------- */

/* The connection of a cell. The network has no engine, and looks for its address. */
static int connection_of(uint32_t vpi, uint32_t vci)
{
    int which = 0;
    while (ends[NEAR].connections[which].vpi != vpi || ends[NEAR].connections[which].vci != vci) {
        must(++which < CONNECTIONS, "a known connection");
    }
    return which;
}

static int during(int phase, uint64_t now)
{
    return now >= phases[phase].from && now < phases[phase].to;
}

/* What the network has room for towards the far end, in cells per second. */
static uint64_t room(uint64_t now)
{
    return during(LITTLE_ROOM, now) ? 3500 : 6000;
}

/* The cells that have not left the queue. */
static uint64_t queue_length(uint64_t now)
{
    const wire *to = &ends[FAR].in;
    uint64_t length = 0;
    for (size_t place = 0; place < to->count; place++) {
        length += to->arrival[(to->first + place) % WIRE] > now + DELAY;
    }
    return length;
}

/* A cell from the near end waits its turn, is marked if many wait, and arrives. */
static void towards_far(uint64_t now, uint8_t *cell)
{
    abr_cell read = abr_read(cell, ABR_CELL_OCTETS);
    accepted("read", read.refusal);
    if (read.kind == ABR_CELL_DATA) {
        last_data[connection_of(read.rm.vpi, read.rm.vci)] = now;
        if (queue_length(now) > 12) {
            write_header(cell, read.rm.vpi, read.rm.vci, 2);
            marked++;
        }
    }
    queue_end = (queue_end > now ? queue_end : now) + 1000 * MS / room(now);
    put(&ends[FAR].in, queue_end + DELAY, cell);
}

/* The explicit rate for those that sent data in the last 20 ms: a fair share of what the leased circuit leaves of 15/16
 * of the room. If there is no limit, it is the largest rate, which limits nothing. */
static uint64_t share(uint64_t now)
{
    uint64_t demands[CONNECTIONS];
    size_t count = 0;
    for (int which = STEADY; which < CONNECTIONS; which++) {
        if (last_data[which] != 0 && now - last_data[which] < 20 * MS) {
            demands[count++] = PEAK * ABR_RATE_ONE;
        }
    }
    abr_share found = abr_fair_share((room(now) * 15 / 16 - LEASED_RATE) * ABR_RATE_ONE, demands, count);
    accepted("share", found.refusal);
    return found.rate;
}

/* A cell from the far end; if it is a backward one, its explicit rate is limited. */
static void towards_near(uint64_t now, uint8_t *cell)
{
    abr_cell read = abr_read(cell, ABR_CELL_OCTETS);
    accepted("read", read.refusal);
    uint64_t rate = during(NO_RATE, now) && read.rm.vpi == 1 ? 0 : share(now);
    accepted("limit", abr_limit(rate, cell, ABR_CELL_OCTETS));
    put(&ends[NEAR].in, now + DELAY, cell);
}

static void send(station *from, uint64_t now, uint8_t *cell)
{
    if (from == &ends[NEAR]) {
        towards_far(now, cell);
    } else {
        towards_near(now, cell);
    }
}

/* ---- The transmitter ---------------------------------------------------- */

/* A data cell: its header, and its number as payload. */
static void write_data(uint8_t *cell, uint32_t vpi, uint32_t vci, uint64_t number)
{
    memset(cell, 0, ABR_CELL_OCTETS);
    write_header(cell, vpi, vci, 0);
    memcpy(cell + 5, &number, sizeof number);
}

/* In an idle slot, a connection whose rate is 0 asks for one. */
static void ask_for_a_rate(station *end, uint64_t now)
{
    for (int which = 0; which < CONNECTIONS; which++) {
        connection *it = &end->connections[which];
        uint8_t cell[ABR_CELL_OCTETS];
        if (!it->open) {
            continue;
        }
        abr_allowed allowed = abr_acr(&end->table, it->vpi, it->vci);
        accepted("acr", allowed.refusal);
        if (allowed.acr == 0) {
            uint32_t refusal = abr_out_of_rate(&end->table, it->vpi, it->vci, end->passed, cell, sizeof cell);
            if (refusal == ABR_OK) {
                it->outside++;
                send(end, now, cell);
                return; /* the slot is used */
            }
            must(refusal == ABR_REFUSED_OUT_OF_RATE_TOO_SOON, "an out-of-rate cell");
        }
    }
}

/* One slot of the link. */
static void transmit(station *end, uint64_t now)
{
    uint8_t cell[ABR_CELL_OCTETS];
    end->passed = abr_slot_time(&end->table, now, lag);
    abr_sent sent = abr_slot(&end->table, end->passed, cell, sizeof cell);
    accepted("slot", sent.refusal);
    if (sent.kind == ABR_SENT_IDLE) {
        end->idle++;
        ask_for_a_rate(end, now);
        return;
    }
    connection *it = end->in_leaf[sent.leaf];
    it->sent[sent.kind]++;
    if (sent.kind == ABR_SENT_DATA) {
        write_data(cell, sent.vpi, sent.vci, it->next_out++);
    }
    send(end, now, cell);
}

/* A data cell arrived: none was lost before it. */
static void take_data(connection *it, const uint8_t *cell)
{
    uint64_t number;
    memcpy(&number, cell + 5, sizeof number);
    must(number == it->next_in, "data in order");
    it->next_in++;
}

/* All cells that have arrived. Those of a connection that was closed are refused. */
static void receive(station *end, uint64_t now)
{
    const uint8_t *cell;
    while ((cell = arrived(&end->in, now)) != NULL) {
        abr_received received = abr_receive(&end->table, cell, ABR_CELL_OCTETS);
        if (received.refusal == ABR_REFUSED_NOT_OPEN) {
            end->unknown++;
        } else {
            accepted("receive", received.refusal);
            connection *it = end->in_leaf[received.leaf];
            must(it->open && it->vpi == received.vpi && it->vci == received.vci, "the leaf is the connection's");
            if (received.kind == ABR_RECEIVED_DATA) {
                take_data(it, cell);
            }
        }
    }
}

/* ---- What happens when -------------------------------------------------- */

/* Rates in cells per second; Nrm 32, Trm 6.25 ms, ADTF 50 ms, CRM 8. */
static abr_params contract(uint64_t peak, uint64_t minimum, uint64_t initial)
{
    abr_params params = abr_house(code_up(peak * ABR_RATE_ONE), code_up(minimum * ABR_RATE_ONE),
                                  code_up(initial * ABR_RATE_ONE));
    params.tbe = 256;
    params.frtt = 10000;
    params.adtf = 5;
    params.trm = 3;
    return params;
}

static void open_both(uint64_t now, int which, uint32_t vpi, uint32_t vci, abr_params params)
{
    for (int end = NEAR; end <= FAR; end++) {
        connection *it = &ends[end].connections[which];
        it->vpi = vpi;
        it->vci = vci;
        it->open = 1;
        abr_opened opened = abr_open(&ends[end].table, vpi, vci, ends[end].passed, params);
        accepted("open", opened.refusal);
        ends[end].in_leaf[opened.leaf] = it;
    }
    printf("%5.1f ms  %u/%u is opened\n", (double)now / 1e6, (unsigned)vpi, (unsigned)vci);
}

static void close_one(uint64_t now, int end, int which)
{
    connection *it = &ends[end].connections[which];
    abr_closed closed = abr_close(&ends[end].table, it->vpi, it->vci);
    accepted("close", closed.refusal);
    it->open = 0;
    it->closed += closed.cells;
    printf("%5.1f ms  %u/%u is closed at the %s end; %" PRIu64 " data cells waited\n", (double)now / 1e6,
           (unsigned)it->vpi, (unsigned)it->vci, ends[end].name, closed.cells);
}

static void offer(int end, int which, uint64_t cells)
{
    connection *it = &ends[end].connections[which];
    accepted("offer", abr_offer(&ends[end].table, it->vpi, it->vci, cells).refusal);
    it->offered += cells;
}

static void burst(uint64_t now, int end, int which, uint64_t cells)
{
    connection *it = &ends[end].connections[which];
    offer(end, which, cells);
    printf("%5.1f ms  %" PRIu64 " cells for %u/%u at the %s end\n", (double)now / 1e6, cells, (unsigned)it->vpi,
           (unsigned)it->vci, ends[end].name);
}

/* The far end's memory. At level 2 it does not wait for forward cells, and makes a backward one on each connection. */
static void set_level(uint64_t now, uint32_t level)
{
    station *far = &ends[FAR];
    accepted("level", abr_set_level(&far->table, level));
    printf("%5.1f ms  the far end's memory: level %u\n", (double)now / 1e6, (unsigned)level);
    for (int which = 0; level == 2 && which < CONNECTIONS; which++) {
        connection *it = &far->connections[which];
        accepted("make", abr_make(&far->table, it->vpi, it->vci, far->passed).refusal);
    }
}

static void connections_at(uint64_t now)
{
    if (now == 0) {
        open_both(now, LEASED, 0, 99, contract(LEASED_RATE, LEASED_RATE, LEASED_RATE));
        open_both(now, STEADY, 0, 100, contract(PEAK, 100, 1000));
        open_both(now, BURSTS, 0, 101, contract(PEAK, 100, 1000));
        offer(NEAR, LEASED, 2000);
    } else if (now == 100 * MS) {
        open_both(now, LATE, 1, 100, contract(PEAK, 0, 1000));
        burst(now, NEAR, LATE, 1500);
    } else if (now == 570 * MS) {
        close_one(now, NEAR, LATE);
    } else if (now == 590 * MS) {
        close_one(now, FAR, LATE);
    }
}

static void events_at(uint64_t now)
{
    connections_at(now);
    if (now % MS == 0) {
        offer(NEAR, STEADY, 3);
    }
    if (now % (50 * MS) == 0) {
        offer(FAR, STEADY, 20);
    }
    if (now % (170 * MS) == 30 * MS) {
        burst(now, NEAR, BURSTS, 150);
    }
    if (now == phases[SHORT_MEMORY].from) {
        set_level(now, 1);
    } else if (now == phases[SHORT_MEMORY].from + 20 * MS) {
        set_level(now, 2);
    } else if (now == phases[SHORT_MEMORY].to) {
        set_level(now, 0);
    }
    for (int phase = 0; phase < PHASES; phase++) {
        if (now == phases[phase].from || now == phases[phase].to) {
            printf("%5.1f ms  %s %s\n", (double)now / 1e6, now == phases[phase].from ? "begins:" : "ends:",
                   phases[phase].name);
        }
    }
}

/* ---- What is shown ------------------------------------------------------ */

/* The allowed rate of a connection of the near end, 0 if it is closed. */
static uint64_t allowed(int which)
{
    connection *it = &ends[NEAR].connections[which];
    if (!it->open) {
        return 0;
    }
    abr_allowed found = abr_acr(&ends[NEAR].table, it->vpi, it->vci);
    accepted("acr", found.refusal);
    return found.acr;
}

/* The cells that the leased circuit has sent, and those that its contract has promised by now. */
static uint64_t delivered(void)
{
    const uint64_t *sent = ends[NEAR].connections[LEASED].sent;
    return sent[ABR_SENT_FORWARD] + sent[ABR_SENT_TURNED] + sent[ABR_SENT_DATA];
}
static uint64_t promised(uint64_t now) { return now / LEASED_GAP + 1; }

static void show(uint64_t now)
{
    printf("%5.1f ms  allowed", (double)now / 1e6);
    for (int which = 0; which < CONNECTIONS; which++) {
        printf(" %6.1f", (double)allowed(which) / ABR_RATE_ONE);
    }
    printf("   leased %4" PRIu64 " of %4" PRIu64 "   queue %3" PRIu64 "   marked %3" PRIu64 "\n", delivered(), promised(now),
           queue_length(now), marked);
}

/* For the picture: the phases, and at each millisecond the allowed rates and the queue. */
static void write_numbers(FILE *numbers, uint64_t now)
{
    for (int phase = 0; now == 0 && phase < PHASES; phase++) {
        fprintf(numbers, "phase %" PRIu64 " %" PRIu64 " %s\n", phases[phase].from, phases[phase].to, phases[phase].name);
    }
    if (now % MS == 0) {
        fprintf(numbers, "%" PRIu64 " %" PRIu64 " %" PRIu64 " %" PRIu64 " %" PRIu64 " %" PRIu64 " %" PRIu64 "\n", now,
                allowed(STEADY), allowed(BURSTS), allowed(LATE), queue_length(now), delivered(), promised(now));
    }
}

/* What each connection sent. No data cell is unaccounted for. */
static void accounts(void)
{
    printf("\n               offered    data  closed  forward  turned  out of rate\n");
    for (int end = NEAR; end <= FAR; end++) {
        for (int which = 0; which < CONNECTIONS; which++) {
            connection *it = &ends[end].connections[which];
            const uint64_t *sent = it->sent;
            printf("%-4s %u/%u     %7" PRIu64 " %7" PRIu64 " %7" PRIu64 "  %7" PRIu64 " %7" PRIu64 "  %11" PRIu64 "\n",
                   ends[end].name, (unsigned)it->vpi, (unsigned)it->vci, it->offered, sent[ABR_SENT_DATA], it->closed,
                   sent[ABR_SENT_FORWARD], sent[ABR_SENT_TURNED], it->outside);
            must(it->offered == sent[ABR_SENT_DATA] + it->closed, "every data cell is accounted for");
            must(it->next_out == sent[ABR_SENT_DATA], "a data cell for each data slot");
        }
        printf("%-4s had %" PRIu64 " idle slots, and %" PRIu64 " cells of closed connections\n", ends[end].name,
               ends[end].idle, ends[end].unknown);
    }
}

int main(int argc, char **argv)
{
    FILE *numbers = argc > 1 ? fopen(argv[1], "w") : NULL;
    must(argc < 2 || numbers != NULL, "the file for the picture");
    lag = argc > 2 ? strtoul(argv[2], NULL, 10) * SLOT : lag;
    must(abr_matches(), "header and archive belong together");
    for (uint64_t now = 0; now < END; now += SLOT) {
        events_at(now);
        for (int end = NEAR; end <= FAR; end++) {
            receive(&ends[end], now);
            transmit(&ends[end], now);
        }
        must(lag == 0 || now <= (delivered() + 1) * LEASED_GAP + lag, "the leased circuit has its minimum");
        if (now % (20 * MS) == 0) {
            show(now);
        }
        if (numbers != NULL) {
            write_numbers(numbers, now);
        }
    }
    for (int end = NEAR; end <= FAR; end++) {
        close_one(END, end, LEASED);
        close_one(END, end, STEADY);
        close_one(END, end, BURSTS);
    }
    accounts();
    must(numbers == NULL || fclose(numbers) == 0, "the file for the picture");
    return 0;
}
