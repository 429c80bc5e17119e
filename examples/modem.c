/*
 * An ADSL modem as a whole, and the network's end of its line. Five connections, at both ends: a leased channel, whose
 * minimum is its peak, two best-effort channels without a minimum, each with the line's rate as its peak, a path with
 * three members, and telemetry. All of them send frames of AAL 5, which the far end puts together and checks. Sections
 * are those of docs/MANUAL.md.
 *
 * The line has a cell every 0.5 ms to the network and every 0.125 ms to the modem, give or take some jitter. The peaks
 * do not fit it, so that each end is a port of its own line (section 20). On the way:
 *
 *   0.5 s  the second best-effort channel is opened, as soon as the first has made room for it
 *   1 s    for two seconds the modem's host takes 800 cells per second only: the receive memory fills (section 7)
 *   3.5 s  the line retrains: 0.3 s without a cell, then three quarters of its rate (section 15)
 *   4.5 s  the modem's clock jumps forward by 5 s, and at 5 s back by 2 s (`steady`, section 15)
 *   5.5 s  the modem's processor fails, and a standby goes on with a copy of the table (section 16)
 *
 * The scene is run twice, once with congestion levels alone, once with the explicit rate of turned cells lowered too.
 *
 *   modem          prints what happened, and what each connection had of its contract
 *   modem FILE     and draws it, as an SVG
 *   modem FILE LOG and writes what the modem sent in the second run, for abr-trace --log (section 18)
 *
 * Every answer is checked. A refusal that should not be ends the program.
 */
#include <inttypes.h>

#include "aal5.h"
#include "common.h"
#include "manual.h"
#include "svg.h"

#define DELAY (10 * MS) /* from one end to the other */
#define MEMORY 1024u    /* cells of the modem's receive memory */
#define SAMPLE (20 * MS)
#define SAMPLES 325u
#define END (SAMPLES * SAMPLE)
#define TRACE 65536u /* octets, more than the leased channel's cells need */
#define COPIES (10 * MS) /* from one copy for the standby to the next */

enum { MODEM, NETWORK, ENDS };
enum { LEVELS, LIMITED, RUNS };
enum { LEASED, FIRST, SECOND, PATH, TELEMETRY, CONNECTIONS };
enum { SLOW_HOST, RETRAIN, FORWARD_JUMP, BACKWARD_JUMP, SWITCH_OVER, EVENTS };

static const uint64_t begins[EVENTS] = {1000 * MS, 3500 * MS, 4500 * MS, 5000 * MS, 5500 * MS};
static const uint64_t lasts[EVENTS] = {[SLOW_HOST] = 2000 * MS, [RETRAIN] = 300 * MS};

/* What was sold, by the end that sends, in cells per second. */
static const struct {
    const char *name;
    uint32_t vpi, vci;
    uint64_t opened;
    struct {
        uint64_t least, peak, initial;
    } sold[ENDS];
} contracts[CONNECTIONS] = {
    [LEASED] = {"leased", 0, 40, 0, {{300, 300, 300}, {300, 300, 300}}},
    [FIRST] = {"best effort", 0, 50, 0, {{0, 2000, 100}, {0, 8000, 400}}},
    [SECOND] = {"best effort", 0, 51, 500 * MS, {{0, 2000, 100}, {0, 8000, 400}}},
    [PATH] = {"path", 1, ABR_PATH_VCI, 0, {{200, 600, 200}, {200, 2000, 200}}},
    [TELEMETRY] = {"telemetry", 0, 70, 0, {{10, 40, 10}, {10, 40, 10}}},
};

/* The rates of their codes, in units: the minimum up, the peak down, since it is policed (section 3). */
static uint64_t least_of(int end, int which)
{
    return rate_of(code_up(contracts[which].sold[end].least * ABR_RATE_ONE));
}
static uint64_t peak_of(int end, int which)
{
    return rate_of(code_down(contracts[which].sold[end].peak * ABR_RATE_ONE));
}
static uint64_t initial_of(int end, int which)
{
    return rate_of(code_up(contracts[which].sold[end].initial * ABR_RATE_ONE));
}

/* The least time from one cell to the next at a rate in cells per second. */
static uint64_t gap_of(uint64_t cells) { return (1000 * MS + cells - 1) / cells; }

/* Who sends frames: a channel, or a member of the path. A frame has up to so many octets; `every` is the time from one
 * to the next, 0 where data always waits. */
enum { FLOWS = 7 };
static const struct {
    int connection;
    uint32_t vci;
    size_t octets;
    uint64_t every;
} flows[FLOWS] = {
    {LEASED, 40, 160, 0},
    {FIRST, 50, 1500, 0},
    {SECOND, 51, 1500, 0},
    {PATH, 60, 1500, 0},
    {PATH, 61, 400, 50 * MS},
    {PATH, 62, 576, 0},
    {TELEMETRY, 70, 40, 100 * MS},
};

/* ---- State -------------------------------------------------------------- */

/* What is sent of a flow: frames and cells that were offered, cells that were sent, and the frame that is under way. */
typedef struct {
    uint64_t frames, offered, sent, number;
    size_t next, length;
    uint8_t frame[AAL5_MOST];
} sender;

/* What a processor has, and a standby is given a copy of: the table, and beside it own line, clock, queues and trace.
 * No address is in it (section 16). */
typedef struct {
    abr_table table;
    own_line line;
    steady_clock clock;
    uint64_t lag, passed; /* how far behind its own time a slot may be passed, and the time of the last one */
    uint32_t open, leaf[CONNECTIONS]; /* how many are open, which are never closed here, and the leaf of each */
    int is_open[CONNECTIONS], in_leaf[CONNECTIONS];
    sender senders[FLOWS];
    uint8_t trace[TRACE]; /* of the leased channel */
    size_t recorded;
    uint64_t judged, last;
    long logged; /* octets of the log */
} processor;

/* What a flow has received: the frame that is being put together; frames that were right, damaged, or came twice. */
typedef struct {
    uint8_t frame[AAL5_MOST];
    size_t length;
    uint64_t expected, right, damaged, twice, cells, lost;
} receiver;

/* What stays when the processor fails: the line card with its receive memory, and what is counted at it. */
typedef struct {
    uint64_t slot, jitter, number, start, next; /* the line: its slots, the number of the next and its time */
    uint64_t clock; /* what the reading of the modem's clock is ahead of the true time */
    wire in;
    uint8_t memory[MEMORY][ABR_CELL_OCTETS]; /* data cells for the host, each with its flow */
    int flow[MEMORY];
    size_t first, count, most;
    uint64_t host; /* when it takes its next cell */
    receiver receivers[FLOWS];
    uint64_t sent[CONNECTIONS], received[CONNECTIONS]; /* all cells, RM cells too */
    uint64_t due[CONNECTIONS], early[CONNECTIONS]; /* the policer of what this end sends */
} card;

typedef struct {
    uint64_t allowed[ENDS][CONNECTIONS], sent[ENDS][CONNECTIONS], memory, missing;
} sample;

static processor processors[ENDS], standby;
static card cards[ENDS];
static sample samples[RUNS][SAMPLES];
static int run, shown;
static FILE *log_file; /* NULL, if none is wanted */

static int during(int event, uint64_t now)
{
    return now >= begins[event] && now < begins[event] + lasts[event];
}

static void stamp(uint64_t now)
{
    printf("%u.%03u s  ", (unsigned)(now / (1000 * MS)), (unsigned)(now / MS % 1000));
}

static void tell(uint64_t now, const char *what)
{
    if (shown) {
        stamp(now);
        printf("%s\n", what);
    }
}

/* ---- Frames ------------------------------------------------------------- */

/* Frame number n of a flow: a few octets shorter than the longest, its number, and octets that follow from it. */
static size_t frame_octets(int flow, uint64_t number) { return flows[flow].octets - number % 8; }

static void write_frame(uint8_t *frame, int flow, uint64_t number)
{
    size_t octets = frame_octets(flow, number);
    for (size_t octet = 0; octet < octets; octet++) {
        frame[octet] = (uint8_t)(octet < 4 ? number >> (24 - 8 * octet) : number * 31 + octet + (uint64_t)flow);
    }
}

/* A frame is queued: its cells are offered, to the channel or to the member. The queue itself is not kept, since frames
 * follow from their numbers. */
static void offer_frame(processor *it, int flow)
{
    sender *from = &it->senders[flow];
    uint64_t cells = aal5_cells(frame_octets(flow, from->frames));
    uint32_t vpi = contracts[flows[flow].connection].vpi, vci = flows[flow].vci;
    abr_answer answer = flows[flow].connection == PATH ? abr_offer_member(&it->table, vpi, vci, cells)
                                                       : abr_offer(&it->table, vpi, vci, cells);
    accepted("offer", answer.refusal);
    from->frames++;
    from->offered += cells;
}

/* Data that always waits is kept at two frames; other frames come in their time, from the open on. */
static void offer_frames(processor *it, uint64_t now)
{
    for (int flow = 0; flow < FLOWS; flow++) {
        int connection = flows[flow].connection;
        if (!it->is_open[connection]) {
            continue;
        }
        abr_connection status = abr_status(&it->table, contracts[connection].vpi, flows[flow].vci);
        accepted("status", status.refusal);
        uint64_t every = flows[flow].every, age = now - contracts[connection].opened;
        if (every == 0 ? status.waiting < 64 : it->senders[flow].frames * every <= age) {
            offer_frame(it, flow);
        }
    }
}

/* The next cell of a flow: payload type 1 in the last of a frame (section 8). */
static void write_data(sender *from, int flow, uint8_t *cell)
{
    if (from->next == from->length) {
        write_frame(from->frame, flow, from->number);
        from->length = aal5_complete(from->frame, frame_octets(flow, from->number++));
        from->next = 0;
    }
    memcpy(cell + 5, from->frame + from->next, AAL5_PAYLOAD);
    from->next += AAL5_PAYLOAD;
    from->sent++;
    write_header(cell, contracts[flows[flow].connection].vpi, flows[flow].vci, from->next == from->length);
}

/* A frame has ended: it is checked, by its trailer and octet by octet. */
static void take_frame(receiver *to, int flow)
{
    uint8_t expected[AAL5_MOST];
    size_t octets = aal5_octets(to->frame, to->length);
    uint64_t number = 0;
    for (size_t octet = 0; octet < 4; octet++) {
        number = number << 8 | to->frame[octet];
    }
    if (octets == 0) {
        to->damaged++;
        return;
    }
    write_frame(expected, flow, number);
    int right = octets == frame_octets(flow, number) && memcmp(to->frame, expected, octets) == 0;
    must(right, "a frame with a right CRC is the one that was sent");
    if (number < to->expected) {
        to->twice++;
    } else {
        to->right++;
        to->expected = number + 1;
    }
}

static void take_cell(receiver *to, int flow, const uint8_t *cell)
{
    to->cells++;
    if (to->length == AAL5_MOST) { /* no frame is longer: a last cell was lost, and frames run into one another */
        to->length = 0;
        to->damaged++;
    }
    memcpy(to->frame + to->length, cell + 5, AAL5_PAYLOAD);
    to->length += AAL5_PAYLOAD;
    if (cell[3] >> 1 & 1) {
        take_frame(to, flow);
        to->length = 0;
    }
}

/* ---- Receive memory (section 7) ----------------------------------------- */

/* How many cells per second the host takes. */
static uint64_t host_rate(int end, uint64_t now)
{
    return end == NETWORK ? 1000000 : during(SLOW_HOST, now) ? 800 : 10000;
}

static void serve_host(int end, uint64_t now)
{
    card *at = &cards[end];
    while (at->count > 0 && at->host <= now) {
        take_cell(&at->receivers[at->flow[at->first]], at->flow[at->first], at->memory[at->first]);
        at->first = (at->first + 1) % MEMORY;
        at->count--;
        at->host += 1000 * MS / host_rate(end, now);
    }
    at->host = at->host > now ? at->host : now;
}

static void store(int end, int flow, const uint8_t *cell)
{
    card *at = &cards[end];
    if (at->count == MEMORY) {
        at->receivers[flow].lost++;
        return;
    }
    size_t place = (at->first + at->count++) % MEMORY;
    memcpy(at->memory[place], cell, ABR_CELL_OCTETS);
    at->flow[place] = flow;
    at->most = at->count > at->most ? at->count : at->most;
}

/* NI from half of the memory on, CI from three quarters on. */
static void set_level(int end)
{
    abr_table *table = &processors[end].table;
    size_t count = cards[end].count;
    uint32_t level = count >= MEMORY * 3 / 4 ? 2 : count >= MEMORY / 2 ? 1 : 0;
    if (level != abr_link(table).level) {
        accepted("level", abr_set_level(table, level));
    }
}

/* ---- Shares (sections 18 and 20) ---------------------------------------- */

/* What a connection may have of a capacity: its minimum, and its share of what all minimums leave. Who is to be opened
 * counts too. */
static uint64_t share_of(int end, uint64_t now, uint64_t capacity, int which)
{
    uint64_t demands[CONNECTIONS], least = 0;
    size_t count = 0;
    for (int each = 0; each < CONNECTIONS; each++) {
        if (now >= contracts[each].opened) {
            least += least_of(end, each);
            demands[count++] = peak_of(end, each) - least_of(end, each);
        }
    }
    abr_share above = abr_fair_share(capacity > least ? capacity - least : 0, demands, count);
    accepted("share", above.refusal);
    return least_of(end, which) + above.rate;
}

/* The receiver's limit: the far end may send what the host takes, less an eighth, so that the memory empties. A
 * destination may lower the explicit rate of a cell that it turns round. */
static void limit_turned(int end, uint64_t now, int which, uint8_t *cell)
{
    uint64_t capacity = host_rate(end, now) * 7 / 8 * ABR_RATE_ONE;
    accepted("limit", abr_limit(share_of(!end, now, capacity, which), cell, ABR_CELL_OCTETS));
}

/* ---- The line ----------------------------------------------------------- */

/* A slot comes at its time or up to a jitter later; the longest distance is a slot and the jitter. */
static void next_slot(card *at)
{
    uint64_t drawn = (at->number * UINT64_C(6364136223846793005) + UINT64_C(1442695040888963407)) >> 33;
    at->next = at->start + at->number++ * at->slot + drawn % at->jitter;
}

/* Of a line with so many cells per second: S, the longest slot, and G, a 64th more, which decides the capacity. */
static uint64_t jitter_of(uint64_t cells) { return 1000 * MS / cells / 25; }
static uint64_t longest_slot(uint64_t cells) { return 1000 * MS / cells + jitter_of(cells); }
static uint64_t needed_slot(uint64_t cells) { return longest_slot(cells) * 65 / 64; }
static uint64_t capacity_of(uint64_t cells) { return 1000 * MS * ABR_RATE_ONE / needed_slot(cells); }

/* A line from a time on. The bucket holds eight slots, and the lag is that of section 20, N * G + A. */
static void set_line(int end, uint64_t start, uint64_t cells)
{
    processor *it = &processors[end];
    card *at = &cards[end];
    at->slot = 1000 * MS / cells;
    at->jitter = jitter_of(cells);
    at->start = start;
    at->number = 0;
    it->clock.slot = at->slot - at->jitter; /* the shortest */
    it->line.s = longest_slot(cells);
    it->line.g = needed_slot(cells);
    it->line.capacity = capacity_of(cells);
    it->line.depth = 8 * it->line.g;
    it->lag = CONNECTIONS * it->line.g + it->line.depth;
    next_slot(at);
}

/* The policer of the line: GCRA(gap of PCR, lag) of ITU-T I.371 (section 20). It counts and drops nothing. */
static void police(int end, uint64_t now, int which)
{
    card *at = &cards[end];
    if (now + processors[end].lag < at->due[which]) {
        at->early[which]++;
    } else {
        at->due[which] = (now > at->due[which] ? now : at->due[which]) + gap_of(contracts[which].sold[end].peak);
    }
}

static void send(int end, uint64_t now, int which, const uint8_t *cell)
{
    cards[end].sent[which]++;
    police(end, now, which);
    put(&cards[!end].in, now + DELAY, cell);
}

/* ---- The transmitter ---------------------------------------------------- */

/* The time to pass to a slot. A jump of the clock counts as a slot, so that no cell goes early. */
static uint64_t time_to_pass(int end, uint64_t now)
{
    processor *it = &processors[end];
    return abr_slot_time(&it->table, steady(&it->clock, now + cards[end].clock), it->lag);
}

/* The trace has the times that slots were passed (section 18). */
static void record(processor *it, abr_sent sent)
{
    if (it->recorded == 0) {
        it->recorded = put_number(it->trace, ABR_HOUSE_N);
        it->recorded += put_number(it->trace + it->recorded, ABR_HOUSE_TRM);
        it->last = it->passed;
    }
    must(it->recorded + 16 <= TRACE, "the trace has room");
    it->recorded += put_cell(it->trace + it->recorded, it->passed - it->last, sent);
    it->last = it->passed;
    it->judged++;
}

/* Lines for abr-trace --log, of the modem, with the times that slots were passed. */
static int is_logged(int end) { return log_file != NULL && shown && end == MODEM; }

static void log_open(uint32_t vpi, uint32_t vci, abr_params params)
{
    fprintf(log_file, "abr-trace open %u/%u %u %u\n", (unsigned)vpi, (unsigned)vci, (unsigned)params.n,
            (unsigned)params.trm);
}

static void log_cell(uint64_t time, abr_sent sent)
{
    fprintf(log_file, "abr-trace cell %u/%u %" PRIu64 " %u %" PRIu64 "\n", (unsigned)sent.vpi, (unsigned)sent.vci,
            time, (unsigned)sent.kind, sent.acr_before);
}

static int flow_of(int which, uint32_t vci)
{
    int flow = 0;
    while (flows[flow].connection != which || flows[flow].vci != vci) {
        must(++flow < FLOWS, "a known flow");
    }
    return flow;
}

/* One slot of the line. */
static void transmit(int end, uint64_t now)
{
    processor *it = &processors[end];
    uint8_t cell[ABR_CELL_OCTETS];
    line_slot(&it->line);
    it->passed = time_to_pass(end, now);
    abr_sent sent = abr_slot(&it->table, it->passed, cell, sizeof cell);
    accepted("slot", sent.refusal);
    if (sent.kind == ABR_SENT_IDLE) {
        return; /* an idle cell; no rate falls to 0 here (section 9), which transmitter.c shows */
    }
    int which = it->in_leaf[sent.leaf];
    if (sent.kind == ABR_SENT_DATA) {
        int flow = flow_of(which, sent.vci);
        write_data(&it->senders[flow], flow, cell);
    } else if (sent.kind == ABR_SENT_TURNED && run == LIMITED) {
        limit_turned(end, now, which, cell);
    }
    if (which == LEASED) {
        record(it, sent);
    }
    if (is_logged(end)) {
        log_cell(it->passed, sent);
    }
    send(end, now, which, cell);
}

/* The connection of an RM cell, by its address. */
static int connection_of(uint32_t vpi, uint32_t vci)
{
    int which = 0;
    while (contracts[which].vpi != vpi || contracts[which].vci != vci) {
        must(++which < CONNECTIONS, "a known connection");
    }
    return which;
}

/* A backward cell is held to what the own line has room for, any other is received as it is. */
static void receive(int end, uint64_t now, uint8_t *cell)
{
    processor *it = &processors[end];
    abr_cell read = abr_read(cell, ABR_CELL_OCTETS);
    accepted("read", read.refusal);
    if (read.kind == ABR_CELL_RM && read.rm.dir == 1) {
        int which = connection_of(read.rm.vpi, read.rm.vci);
        uint64_t share = share_of(end, now, it->line.capacity, which);
        accepted("backward", line_receive(&it->line, &it->table, it->leaf[which], share, cell));
        cards[end].received[which]++;
        return;
    }
    abr_received received = abr_receive(&it->table, cell, ABR_CELL_OCTETS);
    accepted("receive", received.refusal);
    int which = it->in_leaf[received.leaf];
    cards[end].received[which]++;
    if (received.kind == ABR_RECEIVED_DATA) {
        store(end, flow_of(which, received.vci), cell);
    }
}

/* Behind the slot: what has arrived, the host, the level, and new frames (section 12: after a pause the slot comes
 * first). */
static void between_slots(int end, uint64_t now)
{
    uint8_t *cell;
    while ((cell = arrived(&cards[end].in, now)) != NULL) {
        serve_host(end, now);
        receive(end, now, cell);
    }
    serve_host(end, now);
    set_level(end);
    offer_frames(&processors[end], now);
}

/* ---- Opens -------------------------------------------------------------- */

static void open_one(int end, int which)
{
    processor *it = &processors[end];
    uint32_t vpi = contracts[which].vpi;
    uint32_t peak = code_down(peak_of(end, which)), least = code_down(least_of(end, which));
    abr_params params = abr_house(peak, least, code_down(initial_of(end, which)));
    abr_opened opened = which == PATH ? abr_open_path(&it->table, vpi, it->passed, params)
                                      : abr_open(&it->table, vpi, contracts[which].vci, it->passed, params);
    accepted("open", opened.refusal);
    if (is_logged(end)) {
        log_open(vpi, contracts[which].vci, params);
    }
    must(opened.leaf == it->open, "an open takes the lowest free leaf");
    it->line.least[opened.leaf] = least_of(end, which);
    it->line.peak[opened.leaf] = peak_of(end, which);
    it->leaf[which] = it->open++;
    it->in_leaf[opened.leaf] = which;
    it->is_open[which] = 1;
    for (int flow = 0; which == PATH && flow < FLOWS; flow++) {
        if (flows[flow].connection == PATH) {
            accepted("member", abr_add_member(&it->table, vpi, flows[flow].vci).refusal);
        }
    }
}

/* Whether a line has room for the initial rate of a connection, and its bucket for an open. */
static int has_room(int end, int which)
{
    const processor *it = &processors[end];
    return initial_of(end, which) <= line_room(&it->line, it->open) &&
           it->line.filled + it->line.g <= it->line.depth;
}

/* Opens at both ends what is wanted by now, when both lines have room for it. */
static void open_wanted(uint64_t now)
{
    for (int which = 0; which < CONNECTIONS; which++) {
        int wanted = now >= contracts[which].opened && !processors[MODEM].is_open[which];
        if (wanted && has_room(MODEM, which) && has_room(NETWORK, which)) {
            for (int end = 0; end < ENDS; end++) {
                own_line *line = &processors[end].line;
                uint64_t initial = initial_of(end, which);
                must(line_open(line, processors[end].open, initial), "a line has the room that it had");
                open_one(end, which);
            }
            if (shown) {
                stamp(now);
                printf("%u/%u is opened, %s\n", (unsigned)contracts[which].vpi, (unsigned)contracts[which].vci,
                       contracts[which].name);
            }
        }
    }
}

/* ---- What happens ------------------------------------------------------- */

/* Before a line is slower, its own port tells each connection its new share, by a backward cell that this end writes
 * and receives itself: BN 1, since no source made it, NI 1, since no rate is to rise. So the caps fit the new line. */
static void lower(int end, uint64_t now, uint64_t cells)
{
    processor *it = &processors[end];
    uint64_t capacity = capacity_of(cells);
    for (uint32_t leaf = 0; leaf < it->open; leaf++) {
        int which = it->in_leaf[leaf];
        uint64_t share = share_of(end, now, capacity, which), cap = it->line.cap[leaf];
        abr_rm rm = {.vpi = contracts[which].vpi, .vci = contracts[which].vci, .dir = 1, .bn = 1, .ni = 1};
        uint8_t cell[ABR_CELL_OCTETS];
        rm.er = code_down(peak_of(end, which));
        accepted("write", abr_write_rm(rm, cell, sizeof cell));
        accepted("lower", line_receive(&it->line, &it->table, leaf, share < cap ? share : cap, cell));
    }
    must(it->line.total <= capacity, "the caps fit the new line");
}

/* The line goes down, the cells on it are gone, and it comes up with three quarters of its rate. No slot is asked for
 * meanwhile; `steady` counts the pause as a slot, so that rates stay what they are. */
static void retrain(uint64_t now)
{
    static const uint64_t cells[ENDS] = {1500, 6000};
    tell(now, "the line retrains");
    for (int end = 0; end < ENDS; end++) {
        cards[end].in.count = 0;
        lower(end, now, cells[end]);
        set_line(end, now + lasts[RETRAIN], cells[end]);
    }
}

/* The standby is given a copy, and how long the log is by then. */
static void copy(void)
{
    if (log_file != NULL) {
        processors[MODEM].logged = ftell(log_file);
    }
    standby = processors[MODEM];
}

/* The standby goes on with its copy. Its own clock shows another time: the engine's goes on with the last time that the
 * copy accepted (section 16). The log goes on from the copy too, and is soon longer than what it overwrites. */
static void switch_over(uint64_t now)
{
    processors[MODEM] = standby;
    must(log_file == NULL || fseek(log_file, standby.logged, SEEK_SET) == 0, "the log goes back");
    cards[MODEM].clock = 77000 * MS;
    processors[MODEM].clock.raw = now + cards[MODEM].clock;
    processors[MODEM].clock.engine = abr_link(&standby.table).last;
    tell(now, "the standby goes on with a copy that is 10 ms old");
}

/* Whether an instant lies behind the last slot of the modem and not behind this one. */
static int comes(uint64_t instant, uint64_t before, uint64_t now) { return before < instant && instant <= now; }

static void events(uint64_t before, uint64_t now)
{
    if (comes(begins[SLOW_HOST], before, now)) {
        tell(now, "the host takes 800 cells per second");
    }
    if (comes(begins[SLOW_HOST] + lasts[SLOW_HOST], before, now)) {
        tell(now, "the host takes 10,000 cells per second again");
    }
    if (comes(begins[RETRAIN], before, now)) {
        retrain(now);
    }
    if (comes(begins[FORWARD_JUMP], before, now)) {
        cards[MODEM].clock += 5000 * MS;
        tell(now, "the modem's clock jumps forward by 5 s");
    }
    if (comes(begins[BACKWARD_JUMP], before, now)) {
        cards[MODEM].clock -= 2000 * MS;
        tell(now, "the modem's clock jumps back by 2 s");
    }
    if (comes(begins[SWITCH_OVER], before, now)) {
        switch_over(now);
    }
    if (now / COPIES != before / COPIES) {
        copy();
    }
}

/* ---- What is shown ------------------------------------------------------ */

static uint64_t allowed(int end, int which)
{
    if (!processors[end].is_open[which]) {
        return 0;
    }
    abr_allowed found = abr_acr(&processors[end].table, contracts[which].vpi, contracts[which].vci);
    accepted("acr", found.refusal);
    return found.acr;
}

/* How long the line was up. */
static uint64_t up_time(uint64_t now)
{
    uint64_t end = begins[RETRAIN] + lasts[RETRAIN];
    return now < begins[RETRAIN] ? now : now < end ? begins[RETRAIN] : now - lasts[RETRAIN];
}

/* The cells that a minimum has promised by now, opened at the beginning, and a cell and the lag being under way. */
static uint64_t promised(int end, int which, uint64_t now)
{
    return up_time(now) / MS * contracts[which].sold[end].least / 1000;
}

/* Section 20: now <= start + (n + 1) * gap(MCR) + lag, after n cells. */
static void check_minimum(int end, uint64_t now)
{
    uint64_t gap = gap_of(contracts[LEASED].sold[end].least), cells = cards[end].sent[LEASED] + 1;
    must(up_time(now) <= cells * gap + processors[end].lag, "the leased channel has its minimum");
}

/* What the leased channel to the modem has less in the host than was promised, cells on their way not counted. */
static uint64_t missing(uint64_t now)
{
    uint64_t by_now = promised(NETWORK, LEASED, now), lost = cards[MODEM].receivers[0].lost;
    uint64_t had = cards[NETWORK].sent[LEASED] - lost;
    return by_now > had ? by_now - had : 0;
}

static uint64_t lost_cells(void)
{
    uint64_t sum = 0;
    for (int flow = 0; flow < FLOWS; flow++) {
        sum += cards[MODEM].receivers[flow].lost;
    }
    return sum;
}

static void take_sample(uint64_t place)
{
    sample *to = &samples[run][place];
    for (int end = 0; end < ENDS; end++) {
        for (int which = 0; which < CONNECTIONS; which++) {
            to->allowed[end][which] = allowed(end, which);
            to->sent[end][which] = cards[end].sent[which];
        }
    }
    to->memory = cards[MODEM].count;
    to->missing = missing(place * SAMPLE);
}

static void show(uint64_t now)
{
    stamp(now);
    printf("allowed");
    for (int end = 0; end < ENDS; end++) {
        printf(end == MODEM ? "  up" : "   down");
        for (int which = 0; which < CONNECTIONS; which++) {
            printf(" %4" PRIu64, allowed(end, which) / ABR_RATE_ONE);
        }
    }
    printf("   memory %4zu   lost %" PRIu64 "\n", cards[MODEM].count, lost_cells());
}

/* Each connection's cells against its contract. Data waits on all but telemetry. */
static void contracts_kept(int end)
{
    printf("\n%-24sminimum  promised    sent  arrived   early\n", end == MODEM ? "to the network" : "to the modem");
    for (int which = 0; which < CONNECTIONS; which++) {
        uint64_t sent = cards[end].sent[which];
        printf("%u/%-3u %-16s %8" PRIu64 "  %8" PRIu64 " %7" PRIu64 " %8" PRIu64 " %7" PRIu64 "\n",
               (unsigned)contracts[which].vpi, (unsigned)contracts[which].vci, contracts[which].name,
               contracts[which].sold[end].least, promised(end, which, END), sent, cards[!end].received[which],
               cards[end].early[which]);
    }
}

static void frames_kept(int end)
{
    printf("\n%-24s offered   right  damaged   twice    cells    lost\n",
           end == MODEM ? "frames to the network" : "frames to the modem");
    for (int flow = 0; flow < FLOWS; flow++) {
        const receiver *to = &cards[!end].receivers[flow];
        const sender *from = &processors[end].senders[flow];
        uint32_t vpi = contracts[flows[flow].connection].vpi, vci = flows[flow].vci;
        printf("%u/%-22u %7" PRIu64 " %7" PRIu64 "  %7" PRIu64 " %7" PRIu64 "  %7" PRIu64 " %7" PRIu64 "\n",
               (unsigned)vpi, (unsigned)vci, from->frames, to->right, to->damaged, to->twice, to->cells, to->lost);
        abr_connection status = abr_status(&processors[end].table, vpi, vci);
        accepted("status", status.refusal);
        must(from->offered == from->sent + status.waiting, "every data cell is accounted for (section 11)");
    }
}

/* The trace of the leased channel is the processor's: after the switch-over it goes on from the copy. */
static void judge(void)
{
    const processor *it = &processors[MODEM];
    abr_verdict verdict = abr_judge(it->trace, it->recorded);
    accepted("judge", verdict.refusal);
    printf("\nthe trace of 0/40, %" PRIu64 " cells: rule %u, cell %" PRIu64 "\n", it->judged, (unsigned)verdict.rule,
           verdict.cell);
    must(verdict.rule == ABR_RULE_NONE, "the trace passes");
}

/* ---- The scene ---------------------------------------------------------- */

static void begin(void)
{
    static const uint64_t cells[ENDS] = {2000, 8000};
    memset(processors, 0, sizeof processors); /* tables of zeros are empty ones */
    memset(cards, 0, sizeof cards);
    for (int end = 0; end < ENDS; end++) {
        set_line(end, 0, cells[end]);
        cards[end].clock = end == MODEM ? 1000000 * MS : 0;
        processors[end].clock.raw = processors[end].clock.engine = cards[end].clock;
        processors[end].passed = cards[end].clock;
    }
    open_wanted(0);
    copy();
}

static void scene(void)
{
    uint64_t last = 0, before = 0;
    begin();
    if (shown) {
        printf("         cells per second for 0/40, 0/50, 0/51, 1/6 and 0/70: up to the network, down to the modem\n");
    }
    for (;;) {
        int end = cards[MODEM].next <= cards[NETWORK].next ? MODEM : NETWORK;
        uint64_t now = cards[end].next;
        if (now >= END) {
            return;
        }
        for (uint64_t place = (last + SAMPLE - 1) / SAMPLE; place * SAMPLE < now; place++) {
            take_sample(place);
        }
        if (shown && now / (250 * MS) != last / (250 * MS)) {
            show(now);
        }
        last = now;
        next_slot(&cards[end]);
        transmit(end, now);
        check_minimum(end, now);
        between_slots(end, now);
        open_wanted(now);
        if (end == MODEM) {
            events(before, now);
            before = now;
        }
    }
}

/* What the receive memory lost. Frames that are not whole are counted up to the last one that was whole; those that the
 * retrained line lost are among them. */
typedef struct {
    size_t most;
    uint64_t lost, leased, broken, allowed; /* and what 0/50 to the modem is allowed when the host is fast again */
} kept;

static kept memory_kept(void)
{
    const sample *at = &samples[run][(begins[SLOW_HOST] + lasts[SLOW_HOST]) / SAMPLE];
    kept found = {cards[MODEM].most, lost_cells(), cards[MODEM].receivers[0].lost, 0, at->allowed[NETWORK][FIRST]};
    for (int flow = 0; flow < FLOWS; flow++) {
        found.broken += cards[MODEM].receivers[flow].expected - cards[MODEM].receivers[flow].right;
    }
    return found;
}

static void show_memory(const kept *found)
{
    static const char *const names[RUNS] = {"levels alone", "levels and explicit rates"};
    printf("\n%-29s most  lost  of 0/40  frames not whole  0/50 after 2 s\n", "receive memory, 1,024 cells");
    for (int each = 0; each < RUNS; each++) {
        const kept *it = &found[each];
        printf("%-29s %4zu  %4" PRIu64 "  %7" PRIu64 "  %16" PRIu64 "  %14" PRIu64 "\n", names[each], it->most,
               it->lost, it->leased, it->broken, it->allowed / ABR_RATE_ONE);
    }
    must(found[LIMITED].lost == 0 && found[LEVELS].lost > 0, "limited rates keep every cell, levels alone do not");
}

/* ---- The picture -------------------------------------------------------- */

static const char *const colours[CONNECTIONS] = {"#b3261e", "#1f5fa8", "#c4511a", "#2f7d3b", "#76578d"};

static void draw_allowed(FILE *to, const svg_plot *plot, int end)
{
    const char *words = end == MODEM ? "allowed to the network, cells/s" : "allowed to the modem, cells/s";
    svg_grid(to, plot, plot->most / 4, words);
    for (int which = 0; which < CONNECTIONS; which++) {
        for (uint64_t place = 0; place < SAMPLES; place++) {
            svg_step(to, plot, place * SAMPLE, samples[LIMITED][place].allowed[end][which] / ABR_RATE_ONE);
        }
        svg_end(to, colours[which], "");
    }
}

/* The cells that each connection has sent, and dashed those that its minimum promises. */
static void draw_sent(FILE *to, const svg_plot *plot, int end)
{
    const char *words = end == MODEM ? "cells sent to the network; dashed: promised" : "cells sent to the modem";
    svg_grid(to, plot, plot->most / 4, words);
    for (int which = 0; which < CONNECTIONS; which++) {
        for (uint64_t place = 0; place < SAMPLES; place++) {
            svg_step(to, plot, place * SAMPLE, samples[LIMITED][place].sent[end][which]);
        }
        svg_end(to, colours[which], "");
        for (uint64_t place = 0; place < SAMPLES && contracts[which].sold[end].least > 0; place++) {
            svg_step(to, plot, place * SAMPLE, promised(end, which, place * SAMPLE));
        }
        if (contracts[which].sold[end].least > 0) {
            svg_end(to, colours[which], " stroke-dasharray=\"5 3\"");
        }
    }
}

/* The memory, or the cells that the leased channel misses, in both runs. */
static void draw_runs(FILE *to, const svg_plot *plot, int of_memory)
{
    const char *words = of_memory ? "cells in the modem's receive memory" : "cells that 0/40 to the modem misses";
    svg_grid(to, plot, plot->most / 2, words);
    for (int each = 0; each < RUNS; each++) {
        for (uint64_t place = 0; place < SAMPLES; place++) {
            const sample *at = &samples[each][place];
            svg_step(to, plot, place * SAMPLE, of_memory ? at->memory : at->missing);
        }
        svg_end(to, colours[each], "");
    }
    svg_name(to, SVG_RIGHT - 2400, plot->top + 400, colours[LEVELS], "levels alone");
    svg_name(to, SVG_RIGHT - 2400, plot->top + 580, colours[LIMITED], "and explicit rates");
}

static void draw(FILE *to)
{
    static const char *const names[EVENTS] = {"slow host", "retrain", "clock + 5 s", "clock - 2 s", "standby"};
    const svg_plot up = {1040, 2640, END, 1000}, down = {3060, 4660, END, 5000};
    const svg_plot sent_up = {5080, 6280, END, 4000}, sent_down = {6700, 7900, END, 10000};
    const svg_plot memory = {8320, 9320, END, MEMORY}, misses = {9740, 10540, END, 500};
    svg_begin(to, 960, 1110);
    svg_text(to, SVG_LEFT, 280, "text-anchor=\"start\" font-size=\"17\" font-weight=\"bold\"",
             "A modem: allowed rates and cells sent, receive memory, a leased channel");
    for (int event = 0; event < EVENTS; event++) {
        svg_band(to, &up, &misses, begins[event], begins[event] + lasts[event]);
        uint64_t middle = svg_x(&up, begins[event] + lasts[event] / 2);
        svg_text(to, middle, event % 2 ? 960 : 800, "text-anchor=\"middle\"", names[event]);
    }
    draw_allowed(to, &up, MODEM);
    draw_allowed(to, &down, NETWORK);
    draw_sent(to, &sent_up, MODEM);
    draw_sent(to, &sent_down, NETWORK);
    draw_runs(to, &memory, 1);
    draw_runs(to, &misses, 0);
    for (int which = 0; which < CONNECTIONS; which++) {
        char words[48];
        snprintf(words, sizeof words, "%u/%u %s", (unsigned)contracts[which].vpi, (unsigned)contracts[which].vci,
                 contracts[which].name);
        svg_name(to, SVG_LEFT + 1550 * (uint64_t)which, 560, colours[which], words);
    }
    for (uint64_t second = 0; second * 1000 * MS <= END; second++) {
        char words[8];
        snprintf(words, sizeof words, "%u s", (unsigned)second);
        svg_text(to, svg_x(&misses, second * 1000 * MS), misses.floor + 240, "text-anchor=\"middle\"", words);
    }
    fprintf(to, "</svg>\n");
}

/* Both ends use the same functions for frames, so that a fault in them would not be seen: two published examples of
 * ITU-T I.363.5, 40 octets of zeros and 40 that count from 1. */
static void check_frames(void)
{
    static const uint8_t zeros[8] = {0, 0, 0, 40, 0x86, 0x4D, 0x7F, 0x99};
    static const uint8_t counted[8] = {0, 0, 0, 40, 0xBF, 0x67, 0x1E, 0xD0};
    uint8_t frame[AAL5_PAYLOAD] = {0};
    must(aal5_complete(frame, 40) == sizeof frame && memcmp(frame + 40, zeros, 8) == 0, "a frame of zeros");
    for (size_t octet = 0; octet < 40; octet++) {
        frame[octet] = (uint8_t)(octet + 1);
    }
    must(aal5_complete(frame, 40) == sizeof frame && memcmp(frame + 40, counted, 8) == 0, "a frame that counts");
}

int main(int argc, char **argv)
{
    kept found[RUNS];
    must(abr_matches(), "header and archive belong together");
    check_frames();
    if (argc > 2) {
        log_file = fopen(argv[2], "w");
        must(log_file != NULL, "the file for the log");
    }
    for (run = 0; run < RUNS; run++) {
        shown = run == LIMITED;
        scene();
        found[run] = memory_kept();
    }
    for (int end = 0; end < ENDS; end++) {
        contracts_kept(end);
        frames_kept(end);
    }
    show_memory(found);
    judge();
    must(log_file == NULL || fclose(log_file) == 0, "the file for the log");
    if (argc > 1) {
        FILE *picture = fopen(argv[1], "w");
        must(picture != NULL, "the file for the picture");
        draw(picture);
        must(fclose(picture) == 0, "the file for the picture");
    }
    return 0;
}
