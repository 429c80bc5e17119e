/*
 * A scene of the page through the C library: scene CODE MILLISECONDS STEPS. CODE is the scene's as the address of the
 * page has it. The link and the network are those that page/network.js describes, written anew from that description.
 * Prints the numbers that the page answers (Network.numbers) at so many equal steps up to the time, each step's in a
 * line, with | between network and connections. With STEPS 0 it prints what each slot sends, as the example of two
 * connections does.
 */
#include <inttypes.h>
#include <stdio.h>
#include <stdlib.h>
#include <string.h>

#include "abr.h"

#define SECOND UINT64_C(1000000000)
#define MS UINT64_C(1000000)
#define CONNECTIONS 8
#define MEMBERS 8
#define CHANGES 256
#define LINE 65536u
#define FIRST_VCI 32u

enum { NO_DATA, GREEDY, BURSTS, TRICKLE };
enum { NET_LINE, NET_LAG, NET_TRIP, NET_PORT, NET_BUFFER, NET_SHARE, NET_EFCI, NET_LEVEL, NET_LOSS, NET_CDVT, NET_SPAN,
       NET_SEED, NET_VALUES };
enum { OPEN, MEMBERS_OF, PCR, MCR, ICR, N, R, D, C, TBE, FRTT, ADTF, TRM, DATA, BURST, EVERY, RATE, ZERO, ER, VALUES };

typedef struct {
    const char *name;
    uint64_t value;
} field;

static const field network_fields[NET_VALUES] = {
    {"line", 10000}, {"lag", 4}, {"trip", 10000}, {"port", 6000}, {"buffer", 1000}, {"share", 95},
    {"efci", 0}, {"level", 0}, {"loss", 0}, {"cdvt", 4}, {"span", 600}, {"seed", 1},
};
static const field connection_fields[VALUES] = {
    {"open", 0}, {"members", 0}, {"pcr", 2500}, {"mcr", 100}, {"icr", 1000}, {"n", 5}, {"r", 4}, {"d", 4}, {"c", 4},
    {"tbe", 16777215}, {"frtt", 0}, {"adtf", 50}, {"trm", 7}, {"data", 1}, {"burst", 100}, {"every", 100},
    {"rate", 200}, {"zero", 0}, {"er", 0},
};

typedef struct {
    uint64_t value[VALUES];
    abr_params params;
    uint64_t pcr, mcr, acr;            /* units */
    uint64_t opened, next, turn;
    uint64_t sent[4], outside, arrived, delivered, dropped;
    uint64_t opening;                  /* how often it was opened */
    uint64_t waiting[MEMBERS];
    uint64_t last_data, scheduled;     /* ABR_NEVER before the first cell */
    int open;
} connection;

typedef struct {
    uint64_t time;
    int which;
    uint8_t octets[ABR_CELL_OCTETS];
    int data;
    uint64_t opening; /* of its connection; 0 if it was sent out of rate, or by the far end */
} cell;

typedef struct {
    cell cells[LINE];
    size_t first, count;
    uint64_t latest;
} line;

typedef struct {
    uint64_t time; /* microseconds */
    int which, name;
    uint64_t value;
} change;

static uint64_t net[NET_VALUES];
static connection connections[CONNECTIONS];
static change changes[CHANGES];
static size_t change_count, next_change;
static abr_table near, far;
static uint64_t near_passed, far_passed, near_idle, far_idle;
static line to_port, queue, to_far, to_port_back, to_near;
static uint64_t now, last_slot, slots, port_free, buffer_full, marked, lost;
static uint32_t generator, digest = UINT32_C(0x811c9dc5);

static void fail(const char *what, const char *why)
{
    fprintf(stderr, "%s: %s\n", what, why);
    exit(1);
}

static void accepted(const char *what, uint32_t refusal)
{
    if (refusal != ABR_OK) {
        fail(what, abr_refusal_text(refusal));
    }
}

/* ---- Settings ----------------------------------------------------------- */

static int find(const field *fields, int count, const char *name, size_t length)
{
    for (int place = 0; place < count; place++) {
        if (strlen(fields[place].name) == length && strncmp(fields[place].name, name, length) == 0) {
            return place;
        }
    }
    fail(name, "no setting");
    return -1;
}

/* One assignment, from its start to its end. */
static void assign(const char *text)
{
    change it = {.time = ABR_NEVER, .which = -1};
    size_t digits = strspn(text, "0123456789");
    if (digits > 0 && text[digits] == '!') {
        it.time = strtoull(text, NULL, 10);
        text += digits + 1;
    }
    if (text[0] >= '1' && text[0] <= '8' && text[1] == '.') {
        it.which = text[0] - '1';
        text += 2;
    }
    const char *equals = strchr(text, '=');
    if (equals == NULL) {
        fail(text, "no assignment");
    }
    int network = it.which < 0;
    size_t length = (size_t)(equals - text);
    it.name = network ? find(network_fields, NET_VALUES, text, length) : find(connection_fields, VALUES, text, length);
    it.value = strtoull(equals + 1, NULL, 10);
    if (it.time != ABR_NEVER) {
        if (change_count == CHANGES) {
            fail(text, "too many changes");
        }
        changes[change_count++] = it;
    } else if (network) {
        net[it.name] = it.value;
    } else {
        connections[it.which].value[it.name] = it.value;
    }
}

/* Changes of one time stay in their order. */
static void sort_changes(void)
{
    for (size_t end = 1; end < change_count; end++) {
        change it = changes[end];
        size_t place = end;
        for (; place > 0 && changes[place - 1].time > it.time; place--) {
            changes[place] = changes[place - 1];
        }
        changes[place] = it;
    }
}

static void read_settings(char *code)
{
    for (int name = 0; name < NET_VALUES; name++) {
        net[name] = network_fields[name].value;
    }
    for (int which = 0; which < CONNECTIONS; which++) {
        for (int name = 0; name < VALUES; name++) {
            connections[which].value[name] = connection_fields[name].value;
        }
        connections[which].last_data = connections[which].scheduled = ABR_NEVER;
    }
    for (char *text = strtok(code, "&"); text != NULL; text = strtok(NULL, "&")) {
        assign(text);
    }
    sort_changes();
}

/* ---- Rates and octets --------------------------------------------------- */

static uint32_t code_of(uint64_t cells)
{
    abr_coded coded = abr_code(cells * ABR_RATE_ONE);
    accepted("code", coded.refusal);
    return coded.code;
}

static uint64_t rate_of(uint32_t code)
{
    abr_rated rated = abr_rate(code);
    accepted("rate", rated.refusal);
    return rated.rate;
}

static uint64_t gap_of(uint64_t rate) { return (ABR_RATE_ONE * SECOND + rate - 1) / rate; }
static uint64_t slot_time(void) { return SECOND / net[NET_LINE]; }
static uint64_t leg(void) { return net[NET_TRIP] * 1000 / 4; }

static void data_octets(uint8_t *octets, uint32_t vpi, uint32_t vci, int efci)
{
    uint32_t remainder = 0;
    memset(octets, 0, ABR_CELL_OCTETS);
    octets[0] = (uint8_t)(vpi >> 4);
    octets[1] = (uint8_t)(vpi << 4 | vci >> 12);
    octets[2] = (uint8_t)(vci >> 4);
    octets[3] = (uint8_t)(vci << 4 | (uint32_t)efci << 2);
    for (int bit = 31; bit >= -8; bit--) { /* the four octets times x^8, divided bit by bit */
        uint32_t next = bit >= 0 ? octets[3 - bit / 8] >> bit % 8 & 1u : 0;
        remainder = (remainder << 1 | next) ^ (remainder & 0x80 ? 0x107u : 0);
    }
    octets[4] = (uint8_t)(remainder ^ 0x55);
}

/* ---- Cells under way ---------------------------------------------------- */

static void put(line *to, uint64_t time, const cell *it)
{
    if (to->count == LINE) {
        fail("line", "full");
    }
    cell *place = &to->cells[(to->first + to->count++) % LINE];
    *place = *it;
    to->latest = time > to->latest ? time : to->latest;
    place->time = to->latest;
}

static int due(const line *from, uint64_t time)
{
    return from->count > 0 && from->cells[from->first].time <= time;
}

static cell *take(line *from)
{
    cell *it = &from->cells[from->first];
    from->first = (from->first + 1) % LINE;
    from->count--;
    return it;
}

/* ---- Connections -------------------------------------------------------- */

static int is_path(const connection *it) { return it->value[MEMBERS_OF] > 0; }
static uint64_t places(const connection *it) { return is_path(it) ? it->value[MEMBERS_OF] : 1; }
static uint32_t vpi_of(const connection *it) { return (uint32_t)(it - connections); }
static uint32_t vci_of(const connection *it) { return is_path(it) ? ABR_PATH_VCI : FIRST_VCI; }

static void set_contract(connection *it)
{
    const uint64_t *value = it->value;
    abr_params params = {
        .pcr = code_of(value[PCR]), .mcr = code_of(value[MCR]), .icr = code_of(value[ICR]),
        .n = (uint32_t)value[N], .r = (uint32_t)value[R], .d = (uint32_t)value[D], .c = (uint32_t)value[C],
        .tbe = (uint32_t)value[TBE], .frtt = (uint32_t)value[FRTT], .adtf = (uint32_t)value[ADTF],
        .trm = (uint32_t)value[TRM],
    };
    it->params = params;
    it->pcr = rate_of(params.pcr);
    it->mcr = rate_of(params.mcr);
    memset(it->waiting, 0, sizeof it->waiting);
}

static void open_at(abr_table *table, uint64_t time, const connection *it, abr_params params)
{
    uint32_t vpi = vpi_of(it);
    if (!is_path(it)) {
        accepted("open", abr_open(table, vpi, FIRST_VCI, time, params).refusal);
        return;
    }
    accepted("open", abr_open_path(table, vpi, time, params).refusal);
    for (uint32_t member = 0; member < it->value[MEMBERS_OF]; member++) {
        accepted("member", abr_add_member(table, vpi, FIRST_VCI + member).refusal);
    }
}

static void open_both(connection *it)
{
    abr_params back = it->params;
    back.mcr = 0;
    back.icr = back.pcr;
    back.tbe = ABR_HOUSE_TBE;
    back.frtt = 0;
    open_at(&near, near_passed, it, it->params);
    open_at(&far, far_passed, it, back);
    abr_allowed allowed = abr_acr(&near, vpi_of(it), vci_of(it));
    accepted("acr", allowed.refusal);
    it->open = 1;
    it->acr = allowed.acr;
    it->opened = near_passed;
    it->next = now;
    it->outside = it->arrived = it->delivered = it->dropped = 0;
    it->opening++;
    memset(it->sent, 0, sizeof it->sent);
}

static void close_both(connection *it)
{
    accepted("close", abr_close(&near, vpi_of(it), vci_of(it)).refusal);
    accepted("close", abr_close(&far, vpi_of(it), vci_of(it)).refusal);
    it->open = 0;
    it->acr = 0;
    memset(it->waiting, 0, sizeof it->waiting);
}

/* ---- The near end receives ---------------------------------------------- */

static void near_receives(const cell *it)
{
    abr_received received = abr_receive(&near, it->octets, ABR_CELL_OCTETS);
    if (received.refusal != ABR_REFUSED_NOT_OPEN) {
        accepted("receive", received.refusal);
        connections[it->which].acr = received.acr;
    }
}

static void explicit_rate(connection *it, uint64_t cells)
{
    if (it->open) {
        cell backward = {.which = (int)vpi_of(it)};
        abr_rm rm = {.vpi = vpi_of(it), .vci = vci_of(it), .dir = 1, .er = code_of(cells)};
        accepted("write", abr_write_rm(rm, backward.octets, ABR_CELL_OCTETS));
        near_receives(&backward);
    }
}

/* ---- 1. Changes --------------------------------------------------------- */

static void set_connection(connection *it, int name, uint64_t value)
{
    int contract = name >= MEMBERS_OF && name <= TRM;
    if (name == ER) {
        explicit_rate(it, value);
        return;
    }
    if (it->value[name] == value) {
        return;
    }
    if (it->open && (contract || name == OPEN)) {
        close_both(it);
    }
    it->value[name] = value;
    if (contract) {
        set_contract(it);
    }
    if (it->value[OPEN] && !it->open) {
        open_both(it);
    }
    if (name == DATA || name == EVERY || name == RATE) {
        it->next = now;
    }
}

static void make_changes(void)
{
    for (; next_change < change_count && changes[next_change].time * 1000 <= now; next_change++) {
        const change *it = &changes[next_change];
        if (it->which >= 0) {
            set_connection(&connections[it->which], it->name, it->value);
            continue;
        }
        net[it->name] = it->value;
        if (it->name == NET_LEVEL) {
            accepted("level", abr_set_level(&far, (uint32_t)it->value));
        } else if (it->name == NET_SEED) {
            generator = (uint32_t)it->value;
        }
    }
}

/* ---- 2. Data ------------------------------------------------------------ */

static void offer(connection *it, uint64_t place, uint64_t cells)
{
    uint32_t vpi = vpi_of(it), vci = FIRST_VCI + (uint32_t)place;
    uint64_t room = ABR_WAITING_MAX - it->waiting[place];
    cells = cells < room ? cells : room;
    abr_answer answer = is_path(it) ? abr_offer_member(&near, vpi, vci, cells) : abr_offer(&near, vpi, vci, cells);
    accepted("offer", answer.refusal);
    it->waiting[place] += cells;
}

static void offers(connection *it)
{
    switch (it->value[DATA]) {
    case GREEDY:
        for (uint64_t place = 0; place < places(it); place++) {
            if (it->waiting[place] < 2) {
                offer(it, place, 2 - it->waiting[place]);
            }
        }
        break;
    case BURSTS:
        for (; it->next <= now; it->next += it->value[EVERY] * MS) {
            for (uint64_t place = 0; place < places(it); place++) {
                offer(it, place, it->value[BURST]);
            }
        }
        break;
    case TRICKLE:
        for (; it->next <= now; it->next += SECOND / it->value[RATE]) {
            offer(it, it->turn++ % places(it), 1);
        }
        break;
    default:
        break;
    }
}

/* ---- 3. The port, towards the far end ----------------------------------- */

static int loses(void)
{
    if (net[NET_LOSS] == 0) {
        return 0;
    }
    generator ^= generator << 13;
    generator ^= generator >> 17;
    generator ^= generator << 5;
    int gone = generator % 1000 < net[NET_LOSS];
    lost += (uint64_t)gone;
    return gone;
}

static void serve(uint64_t time)
{
    while (queue.count > 0) {
        uint64_t from = queue.cells[queue.first].time;
        uint64_t gone = (from > port_free ? from : port_free) + SECOND / net[NET_PORT];
        if (gone > time) {
            return;
        }
        port_free = gone;
        put(&to_far, gone + leg(), take(&queue));
    }
}

static void joins_queue(cell *it)
{
    if (!it->data && loses()) {
        return;
    }
    if (it->data) {
        connections[it->which].last_data = it->time;
    }
    if (queue.count >= net[NET_BUFFER]) {
        buffer_full++;
        return;
    }
    if (it->data && net[NET_EFCI] > 0 && queue.count >= net[NET_EFCI]) {
        abr_cell read = abr_read(it->octets, ABR_CELL_OCTETS);
        accepted("read", read.refusal);
        data_octets(it->octets, read.rm.vpi, read.rm.vci, 1);
        marked++;
    }
    put(&queue, it->time, it);
}

static void port_forward(void)
{
    while (due(&to_port, now)) {
        serve(to_port.cells[to_port.first].time);
        joins_queue(take(&to_port));
    }
    serve(now);
}

/* ---- 4. The far end ----------------------------------------------------- */

static void far_end(void)
{
    while (due(&to_far, now)) {
        const cell *it = take(&to_far);
        abr_received received = abr_receive(&far, it->octets, ABR_CELL_OCTETS);
        if (received.refusal != ABR_REFUSED_NOT_OPEN) {
            accepted("receive", received.refusal);
            connection *to = &connections[it->which];
            to->arrived += it->opening == to->opening;
            to->delivered += it->opening == to->opening && it->data;
        }
    }
    cell back = {.which = -1};
    far_passed = abr_slot_time(&far, now, net[NET_LAG] * slot_time());
    abr_sent sent = abr_slot(&far, far_passed, back.octets, ABR_CELL_OCTETS);
    accepted("slot", sent.refusal);
    if (sent.kind == ABR_SENT_IDLE) {
        far_idle++;
    } else {
        back.which = (int)sent.vpi;
        put(&to_port_back, now + leg(), &back);
    }
}

/* ---- 5. The port, on the way back --------------------------------------- */

static uint64_t demand(const connection *it)
{
    uint64_t asked = it->value[DATA] == TRICKLE ? it->value[RATE] * 17 / 16 * ABR_RATE_ONE : it->pcr;
    asked = asked < it->pcr ? asked : it->pcr;
    return asked > it->mcr ? asked - it->mcr : 0;
}

static uint64_t share(uint64_t time)
{
    uint64_t demands[CONNECTIONS], minimums = 0, room = net[NET_PORT] * net[NET_SHARE] / 100 * ABR_RATE_ONE;
    size_t count = 0;
    for (int which = 0; which < CONNECTIONS; which++) {
        const connection *it = &connections[which];
        if (!it->open) {
            continue;
        }
        minimums += it->mcr;
        if (it->last_data != ABR_NEVER && (time < it->last_data || time - it->last_data < 20 * MS)) {
            demands[count++] = demand(it);
        }
    }
    abr_share found = abr_fair_share(room > minimums ? room - minimums : 0, demands, count);
    accepted("share", found.refusal);
    return found.rate;
}

static uint64_t limit(uint64_t time, const connection *it)
{
    if (it->value[ZERO]) {
        return 0;
    }
    return net[NET_SHARE] == 0 ? ABR_RATE_MAX : it->mcr + share(time); /* one above the largest limits nothing either */
}

static void way_back(void)
{
    while (due(&to_port_back, now)) {
        cell *it = take(&to_port_back);
        if (!loses()) {
            accepted("limit", abr_limit(limit(it->time, &connections[it->which]), it->octets, ABR_CELL_OCTETS));
            put(&to_near, it->time + leg(), it);
        }
    }
    while (due(&to_near, now)) {
        near_receives(take(&to_near));
    }
}

/* ---- 6. The near end ---------------------------------------------------- */

static void polices(connection *it, uint64_t rate)
{
    uint64_t expected = it->scheduled == ABR_NEVER ? now : it->scheduled + gap_of(rate);
    if (now + net[NET_CDVT] * slot_time() < expected) {
        it->dropped++;
    } else {
        it->scheduled = now > expected ? now : expected;
    }
}

static void ask_for_a_rate(void)
{
    for (int which = 0; which < CONNECTIONS; which++) {
        connection *it = &connections[which];
        cell outside = {.which = which};
        if (!it->open || it->acr > 0) {
            continue;
        }
        uint32_t refusal = abr_out_of_rate(&near, vpi_of(it), vci_of(it), near_passed, outside.octets, ABR_CELL_OCTETS);
        if (refusal != ABR_REFUSED_OUT_OF_RATE_TOO_SOON) {
            accepted("out of rate", refusal);
            it->outside++;
            put(&to_port, now + leg(), &outside);
            return;
        }
    }
}

static abr_sent near_slot(void)
{
    cell it = {.which = -1};
    near_passed = abr_slot_time(&near, now, net[NET_LAG] * slot_time());
    abr_sent sent = abr_slot(&near, near_passed, it.octets, ABR_CELL_OCTETS);
    accepted("slot", sent.refusal);
    if (sent.kind == ABR_SENT_IDLE) {
        near_idle++;
        ask_for_a_rate();
        return sent;
    }
    connection *from = &connections[sent.vpi];
    from->sent[sent.kind]++;
    from->acr = sent.acr;
    polices(from, sent.acr_before);
    it.which = (int)sent.vpi;
    it.opening = from->opening;
    if (sent.kind == ABR_SENT_DATA) {
        it.data = 1;
        data_octets(it.octets, sent.vpi, sent.vci, 0);
        from->waiting[sent.vci - FIRST_VCI]--;
    }
    put(&to_port, now + leg(), &it);
    return sent;
}

/* ---- What is printed ---------------------------------------------------- */

static void digest_number(uint32_t number) { digest = (digest ^ number) * UINT32_C(0x01000193); }

static void print_slot(const abr_sent *sent)
{
    static const char *const kinds[] = {"idle", "forward", "turned", "data"};
    printf("%5.2f ms  %3u/%-5u%-7s  %7u\n", (double)now / 1e6, (unsigned)sent->vpi, (unsigned)sent->vci,
           kinds[sent->kind], (unsigned)(sent->acr / ABR_RATE_ONE));
}

/* The least n with time <= opened + (n + 1) * gap + lag, for the time of the last slot less so many nanoseconds. */
static uint64_t promised(const connection *it, uint64_t ago)
{
    uint64_t n = 0, lag = net[NET_LAG] * slot_time();
    if (it->mcr > 0) {
        uint64_t gap = gap_of(it->mcr), from = it->opened + lag + gap + ago;
        n = last_slot > from ? (last_slot - from + gap - 1) / gap : 0;
    }
    return n;
}

/* Numbers in a row, with a space between. */
static void print_row(const uint64_t *numbers, size_t count)
{
    for (size_t place = 0; place < count; place++) {
        printf(place == 0 ? "%" PRIu64 : " %" PRIu64, numbers[place]);
    }
}

static void print_connection(const connection *it)
{
    uint64_t waiting = 0;
    for (uint64_t place = 0; place < places(it); place++) {
        waiting += it->waiting[place];
    }
    uint64_t numbers[] = {it->acr, it->sent[ABR_SENT_FORWARD], it->sent[ABR_SENT_TURNED], it->sent[ABR_SENT_DATA],
                          it->outside, it->delivered, promised(it, 0), it->dropped, waiting, it->arrived,
                          promised(it, net[NET_TRIP] * 1000)};
    printf("|");
    print_row(numbers, sizeof numbers / sizeof *numbers);
}

static void print_numbers(void)
{
    uint64_t numbers[] = {now, slots, near_idle, far_idle, queue.count, buffer_full, marked, lost, share(now), digest};
    print_row(numbers, sizeof numbers / sizeof *numbers);
    for (int which = 0; which < CONNECTIONS; which++) {
        if (connections[which].open) {
            print_connection(&connections[which]);
        }
    }
    printf("\n");
}

static void slot(int print)
{
    make_changes();
    for (int which = 0; which < CONNECTIONS; which++) {
        if (connections[which].open) {
            offers(&connections[which]);
        }
    }
    port_forward();
    far_end();
    way_back();
    abr_sent sent = near_slot();
    digest_number(sent.kind);
    digest_number(sent.vpi);
    digest_number(sent.vci);
    digest_number((uint32_t)sent.acr);
    if (print) {
        print_slot(&sent);
    }
    slots++;
    last_slot = now;
    now += slot_time();
}

int main(int argc, char **argv)
{
    if (argc != 4 || !abr_matches()) {
        fail("scene", argc != 4 ? "CODE MILLISECONDS STEPS" : "abr.h and the archive do not belong together");
    }
    uint64_t end = strtoull(argv[2], NULL, 10) * MS, steps = strtoull(argv[3], NULL, 10);
    read_settings(argv[1]);
    generator = (uint32_t)net[NET_SEED];
    accepted("level", abr_set_level(&far, (uint32_t)net[NET_LEVEL]));
    for (int which = 0; which < CONNECTIONS; which++) {
        set_contract(&connections[which]);
        if (connections[which].value[OPEN]) {
            open_both(&connections[which]);
        }
    }
    for (uint64_t step = 1; step <= steps || (steps == 0 && step == 1); step++) {
        while (now < (steps == 0 ? end : end / steps * step)) {
            slot(steps == 0);
        }
        if (steps > 0) {
            print_numbers();
        }
    }
    return 0;
}
