/*
 * Every call in its costliest known case, accepted: a search over random states found none costlier. As many
 * connections are open as there can be, and the one concerned wins all matches of its leaf before the call. Where it is
 * ready again, all others are ready at that instant too and it has the lowest name, which decides between equals: VPI
 * 0, and VCI 32 or the path's. Nothing waits then where that can be, since Trm is looked at only if nothing waits.
 * Where the directory moves, it has the highest name, VPI 255, and VCI 65,535 or the path's, with all other words
 * behind its own, and the others are never ready. A forward cell makes both of its moves, and a received one replaces
 * another. A path has all 256 members, or all but one. What is read is read of the last leaf and of the lowest member.
 * A port has 1,024 demands. A trace has 1,000 cells of fifteen octets.
 * bench/worst.c counts the instructions of these calls, bench/cold.c measures their time with table and cell in the
 * caches and with both flushed from them, tests/c/stack.c their stack. With ABR_NO_DOUBLES they are those of a kernel's
 * archive, which has no abr_export and no abr_import.
 */
#ifndef CASES_H
#define CASES_H

#include <string.h>

#include "abr.h"

#define SECOND UINT64_C(1000000000)
#define OTHERS (ABR_CONNECTIONS_MAX - 1)
#define MEMBER_VCI 1000u /* of the lowest member; the others follow it */
#define LAST_MEMBER_VCI (MEMBER_VCI + ABR_MEMBERS_MAX - 1)
#define RATE_256 0x5000u          /* the code of 256 cells per second */
#define GAP UINT64_C(3906250)     /* from one cell to the next at that rate */
#define TRM UINT64_C(100000000)   /* of Trm number 7 */
#define FORWARD_AT (SECOND - TRM) /* the forward cell of the one concerned */
#define CALL_AT (SECOND - GAP)    /* the slot that is measured */
#define TRACE_CELLS 1000u
#define TRACE_CELL 15u /* octets of one of its cells */

/* What a case needs beside the connections. */
enum need {
    NOTHING, DATA_WAITS, FORWARD_DUE, TURNED_WAITS, TURNED_REPLACED, MADE_WAITS, MADE_REPLACED, OUTSIDE, FORWARD_CELL,
    BACKWARD_CELL, DATA_CELL, CLOSED, DEMANDS, TRACE,
    /* The one concerned is a path, whose highest member was served last; one cell waits on the lowest, whose turn is
     * next; or only on the highest itself; or a member is missing; or a data cell of a member is needed; or the path is
     * closed. */
    MEMBERS, NEXT_MEMBER, SAME_MEMBER, MISSING_MEMBER, MEMBER_CELL, CLOSED_PATH
};

/* The connection concerned. */
enum name { LOWEST, HIGHEST };

/* A VPI and a VCI. */
typedef struct {
    uint32_t vpi, vci;
} address;

typedef struct {
    const char *name;
    enum need need;
    enum name at;
    void (*call)(void);
    uint32_t kind; /* of a slot, of a cell that is received or read, of a pair that is read; else 0 */
} abr_case;

/* The table, with room for one of another layout: bench/compare links two archives with one header. */
static abr_table room[2], *const table = room;
static uint8_t cell[ABR_CELL_OCTETS];
static abr_rm rm = {0, 0, 0, 0, 0, 0, 0, 0x53E8, 0x5000, 0x4000, 7, 9};
static abr_params params;
static address at; /* of the one concerned, which is the last opened: the others have the leaves before its own */
static uint32_t read_vci; /* of the pair that is read */
static uint64_t demands[ABR_DEMANDS_MAX], capacity;
static uint8_t trace[2 + TRACE_CELLS * TRACE_CELL];
static size_t trace_len;

/* The answers of the calls. */
static uint32_t refusal;
static abr_opened opened;
static abr_answer answer;
static abr_received received;
static abr_closed closed;
static abr_sent sent;
static abr_connection connection;
static abr_member listed;
static abr_totals totals;
static abr_cell content;
static abr_allowed allowed;
static abr_coded coded;
static abr_rated rated;
static abr_share share;
static abr_verdict verdict;
static uint64_t next, passed;

static void call_slot(void) { sent = abr_slot(table, CALL_AT, cell, sizeof cell); }
static void call_receive(void) { received = abr_receive(table, cell, sizeof cell); }
static void call_open(void) { opened = abr_open(table, at.vpi, at.vci, 3 * SECOND, params); }
static void call_close(void) { closed = abr_close(table, at.vpi, at.vci); }
static void call_offer(void) { answer = abr_offer(table, at.vpi, at.vci, 0); }
static void call_open_path(void) { opened = abr_open_path(table, at.vpi, 3 * SECOND, params); }
static void call_add_member(void) { answer = abr_add_member(table, at.vpi, MEMBER_VCI); }
static void call_offer_member(void) { answer = abr_offer_member(table, at.vpi, MEMBER_VCI, 0); }
static void call_remove_member(void) { closed = abr_remove_member(table, at.vpi, MEMBER_VCI); }
static void call_set_level(void) { refusal = abr_set_level(table, 2); }
static void call_make(void) { answer = abr_make(table, at.vpi, at.vci, 3 * SECOND); }
static void call_out_of_rate(void)
{
    refusal = abr_out_of_rate(table, at.vpi, at.vci, 3 * SECOND, cell, sizeof cell);
}
static void call_acr(void) { allowed = abr_acr(table, at.vpi, at.vci); }
static void call_status(void) { connection = abr_status(table, at.vpi, read_vci); }
static void call_at(void) { connection = abr_at(table, OTHERS); }
static void call_member_at(void) { listed = abr_member_at(table, 0); }
static void call_link(void) { totals = abr_link(table); }
static void call_next_ready(void) { next = abr_next_ready(table); }
static void call_slot_time(void) { passed = abr_slot_time(table, 2 * SECOND, 2 * SECOND); }
static void call_write_rm(void) { refusal = abr_write_rm(rm, cell, sizeof cell); }
static void call_read(void) { content = abr_read(cell, sizeof cell); }
static void call_code(void) { coded = abr_code(ABR_RATE_MAX); }
static void call_rate(void) { rated = abr_rate(ABR_CODE_MAX); }
static void call_fair_share(void) { share = abr_fair_share(capacity, demands, ABR_DEMANDS_MAX); }
static void call_limit(void) { refusal = abr_limit(ABR_RATE_ONE, cell, sizeof cell); }
static void call_port(void) { refusal = abr_port(capacity, demands, ABR_DEMANDS_MAX, cell, sizeof cell); }
static void call_judge(void) { verdict = abr_judge(trace, trace_len); }
static void call_house(void) { params = abr_house(ABR_CODE_MAX, 0x4000, 0x53E8); }

#ifndef ABR_NO_DOUBLES
static abr_contract contract;
static abr_imported imported;
static void call_export(void) { contract = abr_export(table, at.vpi, at.vci, &refusal); }
static void call_import(void) { imported = abr_import(1000.7); }
#endif

static const abr_case cases[] = {
    {"slot, forward cell", FORWARD_DUE, LOWEST, call_slot, ABR_SENT_FORWARD},
    {"slot, turned cell", TURNED_WAITS, LOWEST, call_slot, ABR_SENT_TURNED},
    {"slot, made cell", MADE_WAITS, LOWEST, call_slot, ABR_SENT_TURNED},
    {"slot, data", DATA_WAITS, LOWEST, call_slot, ABR_SENT_DATA},
    {"slot, idle", NOTHING, LOWEST, call_slot, ABR_SENT_IDLE},
    {"receive, forward cell", TURNED_REPLACED, LOWEST, call_receive, ABR_RECEIVED_FORWARD},
    {"receive, backward cell", BACKWARD_CELL, LOWEST, call_receive, ABR_RECEIVED_BACKWARD},
    {"receive, data", DATA_CELL, LOWEST, call_receive, ABR_RECEIVED_DATA},
    {"open", CLOSED, HIGHEST, call_open, 0},
    {"close", NOTHING, HIGHEST, call_close, 0},
    {"offer", NOTHING, LOWEST, call_offer, 0},
    {"slot, next member's data", NEXT_MEMBER, LOWEST, call_slot, ABR_SENT_DATA},
    {"slot, same member's data", SAME_MEMBER, LOWEST, call_slot, ABR_SENT_DATA},
    {"receive, member's data", MEMBER_CELL, LOWEST, call_receive, ABR_RECEIVED_DATA},
    {"open path", CLOSED_PATH, HIGHEST, call_open_path, 0},
    {"close path", MEMBERS, HIGHEST, call_close, 0},
    {"add member", MISSING_MEMBER, LOWEST, call_add_member, 0},
    {"offer to a member", MEMBERS, LOWEST, call_offer_member, 0},
    {"remove member", MEMBERS, LOWEST, call_remove_member, 0},
    {"set level", NOTHING, LOWEST, call_set_level, 0},
    {"make", MADE_REPLACED, LOWEST, call_make, 0},
    {"out-of-rate cell", OUTSIDE, LOWEST, call_out_of_rate, 0},
    {"acr", NOTHING, LOWEST, call_acr, 0},
    {"status, channel", NOTHING, LOWEST, call_status, ABR_CHANNEL},
    {"status, path", MEMBERS, LOWEST, call_status, ABR_PATH},
    {"status, member", MEMBERS, LOWEST, call_status, ABR_MEMBER},
    {"at, channel", NOTHING, LOWEST, call_at, ABR_CHANNEL},
    {"at, path", MEMBERS, LOWEST, call_at, ABR_PATH},
    {"member at", MEMBERS, LOWEST, call_member_at, 0},
    {"link", MEMBERS, LOWEST, call_link, 0},
#ifndef ABR_NO_DOUBLES
    {"export", NOTHING, LOWEST, call_export, 0},
#endif
    {"next", NOTHING, LOWEST, call_next_ready, 0},
    {"slot time", NOTHING, LOWEST, call_slot_time, 0},
    {"write", NOTHING, LOWEST, call_write_rm, 0},
    {"read, RM cell", FORWARD_CELL, LOWEST, call_read, ABR_CELL_RM},
    {"read, data", DATA_CELL, LOWEST, call_read, ABR_CELL_DATA},
    {"code", NOTHING, LOWEST, call_code, 0},
    {"rate", NOTHING, LOWEST, call_rate, 0},
    {"fair share", DEMANDS, LOWEST, call_fair_share, 0},
    {"limit, backward cell", BACKWARD_CELL, LOWEST, call_limit, 0},
    {"port, backward cell", DEMANDS, LOWEST, call_port, 0},
    {"judge, 1,000 cells", TRACE, LOWEST, call_judge, 0},
    {"house", NOTHING, LOWEST, call_house, 0},
#ifndef ABR_NO_DOUBLES
    {"import", NOTHING, LOWEST, call_import, 0},
#endif
};

#define CASES (sizeof cases / sizeof cases[0])

/* A slot that must send a cell of this kind; 0 if it does. */
static int slot_sends(uint64_t time, uint32_t kind)
{
    sent = abr_slot(table, time, cell, sizeof cell);
    return sent.refusal != ABR_OK || sent.kind != kind;
}

/* At one cell per second, on VPIs between the two ends. Beside the lowest name each has sent its first cell at 0 and is
 * ready at one second. */
static int open_others(enum name end)
{
    int wrong = 0, busy = end == LOWEST;
    params = abr_house(ABR_CODE_MAX, 0, 0x4000);
    for (uint32_t i = 0; i < OTHERS; i++) {
        address other = {1 + i / 5, ABR_VCI_MIN + i % 5};
        wrong |= abr_open(table, other.vpi, other.vci, 0, params).refusal != ABR_OK;
        wrong |= abr_offer(table, other.vpi, other.vci, busy).refusal != ABR_OK;
    }
    for (uint32_t i = 0; busy && i < OTHERS; i++) {
        wrong |= slot_sends(0, ABR_SENT_FORWARD);
    }
    return wrong;
}

/* One is missing where it is to be added, and where a turn goes round: looking at a free word costs more. */
static uint32_t lowest_member(const abr_case *which)
{
    return MEMBER_VCI + (which->need == MISSING_MEMBER || which->call == call_slot);
}

/* Its forward cells leave the rate as it is; one unanswered cell and 10 ms are enough for their moves. */
static int open_concerned(const abr_case *which)
{
    int wrong;
    params = abr_house(ABR_CODE_MAX, RATE_256, RATE_256);
    params.tbe = params.frtt = params.adtf = 1;
    params.trm = which->need == FORWARD_DUE ? 5 : 7;
    if (at.vci != ABR_PATH_VCI) {
        return abr_open(table, at.vpi, at.vci, 0, params).refusal != ABR_OK;
    }
    wrong = abr_open_path(table, at.vpi, 0, params).refusal != ABR_OK;
    for (uint32_t vci = lowest_member(which); vci <= LAST_MEMBER_VCI; vci++) {
        wrong |= abr_add_member(table, at.vpi, vci).refusal != ABR_OK;
    }
    return wrong;
}

/* Data for the one concerned, of a path for this member. */
static int offer_to(uint32_t member, uint64_t cells)
{
    abr_answer offered = at.vci == ABR_PATH_VCI ? abr_offer_member(table, at.vpi, member, cells)
                                                : abr_offer(table, at.vpi, at.vci, cells);
    return offered.refusal != ABR_OK;
}

/* A data cell for a VCI on the VPI of the connection concerned, its octet 5 found by trying all. */
static int make_data_cell(uint32_t vci)
{
    cell[0] = (uint8_t)(at.vpi >> 4);
    cell[1] = (uint8_t)((at.vpi & 0xF) << 4 | vci >> 12);
    cell[2] = vci >> 4 & 0xFF;
    cell[3] = (uint8_t)((vci & 0xF) << 4);
    for (unsigned octet = 0; octet < 256; octet++) {
        cell[4] = (uint8_t)octet;
        if (abr_read(cell, sizeof cell).refusal == ABR_OK) {
            return 0;
        }
    }
    return 1;
}

static int make_rm_cell(uint32_t dir)
{
    rm.dir = dir;
    return abr_write_rm(rm, cell, sizeof cell) != ABR_OK;
}

static int receive_forward(void)
{
    return make_rm_cell(0) || abr_receive(table, cell, sizeof cell).refusal != ABR_OK;
}

static int make_backward(uint64_t time)
{
    return abr_set_level(table, 2) != ABR_OK || abr_make(table, at.vpi, at.vci, time).refusal != ABR_OK;
}

/* A forward cell, two data cells and a turned one. Nothing waits then: Trm makes the ready instant, one second. */
static int send_four(void)
{
    return offer_to(LAST_MEMBER_VCI, 2) || slot_sends(FORWARD_AT, ABR_SENT_FORWARD) ||
           slot_sends(FORWARD_AT + GAP, ABR_SENT_DATA) || slot_sends(FORWARD_AT + 2 * GAP, ABR_SENT_DATA) ||
           receive_forward() || slot_sends(FORWARD_AT + 3 * GAP, ABR_SENT_TURNED);
}

/* One data cell more, a gap before one second: it is ready at one second whatever waits. */
static int send_fifth(void)
{
    return offer_to(LAST_MEMBER_VCI, 1) || slot_sends(CALL_AT, ABR_SENT_DATA);
}

/*
 * As many demands as there may be, and the capacity for which sharing goes through them most often: each pass finds
 * some of them met that the pass before left one unit short. The counts are of those that are not met yet.
 */
static void make_demands(void)
{
    static const unsigned above[] = {1024, 789, 608, 468, 360, 277, 213, 164, 126, 97, 75, 58, 45,
                                     35,   27,  21,  16,  12,  9,   7,   5,   4,   3,  2,  1};
    const unsigned passes = sizeof above / sizeof above[0];
    uint64_t share = 0, left;
    unsigned made = 0;
    capacity = left = UINT64_C(1463780477780833);
    for (unsigned i = 0; i + 1 < passes; i++) {
        uint64_t step = left / above[i] + 1;
        for (; made < ABR_DEMANDS_MAX - above[i + 1]; made++) {
            demands[made] = share + 1;
        }
        left -= step * above[i + 1] + (above[i] - above[i + 1]);
        share += step;
    }
    demands[made] = ABR_RATE_MAX;
}

/*
 * A trace that passes: 1,000 cells, 2^50 nanoseconds apart, at the largest rate. Trm has always passed, so that every
 * third cell is forward. The time of the first one is 0.
 */
static void make_trace(void)
{
    static const uint8_t head[] = {8, 7, 0}, time[] = {0x80, 0x80, 0x80, 0x80, 0x80, 0x80, 0x80, 0x02};
    static const uint8_t rate[] = {0x80, 0x80, 0x80, 0x80, 0xF8, 0x3F};
    uint8_t *to = trace;
    memcpy(to, head, sizeof head);
    to += sizeof head;
    for (unsigned i = 0; i < TRACE_CELLS; i++) {
        if (i > 0) {
            memcpy(to, time, sizeof time);
            to += sizeof time;
        }
        *to++ = i % 3 ? ABR_SENT_DATA : ABR_SENT_FORWARD;
        memcpy(to, rate, sizeof rate);
        to += sizeof rate;
    }
    trace_len = (size_t)(to - trace);
}

/* Prepares table and cell for a case; 0 if every call of it was accepted. */
static int prepare(const abr_case *which)
{
    at.vpi = which->at == LOWEST ? 0 : ABR_VPI_MAX;
    at.vci = which->need >= MEMBERS ? ABR_PATH_VCI : which->at == LOWEST ? ABR_VCI_MIN : ABR_VCI_MAX;
    read_vci = which->call == call_status && which->kind == ABR_MEMBER ? MEMBER_VCI : at.vci;
    rm.vpi = at.vpi;
    rm.vci = at.vci;
    memset(room, 0, sizeof room);
    if (open_others(which->at) || open_concerned(which) || send_four()) {
        return 1;
    }
    switch (which->need) {
    case DATA_WAITS:
    case SAME_MEMBER:
    case FORWARD_DUE: return offer_to(LAST_MEMBER_VCI, 1);
    case NEXT_MEMBER: return offer_to(lowest_member(which), 1);
    case TURNED_WAITS: return receive_forward();
    case TURNED_REPLACED: return send_fifth() || receive_forward();
    case MADE_WAITS: return make_backward(FORWARD_AT + 3 * GAP);
    case MADE_REPLACED: return send_fifth() || make_backward(CALL_AT);
    case OUTSIDE: /* the last one before */
        return abr_out_of_rate(table, at.vpi, at.vci, CALL_AT, cell, sizeof cell) != ABR_OK;
    case FORWARD_CELL: return make_rm_cell(0);
    case BACKWARD_CELL: return make_rm_cell(1);
    case DATA_CELL: return make_data_cell(at.vci);
    case MEMBER_CELL: return make_data_cell(MEMBER_VCI);
    case DEMANDS: make_demands(); return make_rm_cell(1);
    case TRACE: make_trace(); return 0;
    case CLOSED:
    case CLOSED_PATH: return abr_close(table, at.vpi, at.vci).refusal != ABR_OK;
    default: return 0;
    }
}

/* Whether a slot went to the one concerned, of a path to the right member, with a cell of the right kind. */
static int accepted_slot(const abr_case *which)
{
    uint32_t turn = which->need == NEXT_MEMBER ? lowest_member(which) : LAST_MEMBER_VCI;
    uint32_t vci = which->kind == ABR_SENT_IDLE ? 0 : at.vci == ABR_PATH_VCI ? turn : at.vci;
    return sent.refusal == ABR_OK && sent.kind == which->kind && sent.vpi == at.vpi && sent.vci == vci &&
           sent.made == (which->need == MADE_WAITS) && sent.leaf == (which->kind == ABR_SENT_IDLE ? 0 : OTHERS);
}

/* Whether the call of a case was accepted, with an answer of the right kind. */
static int accepted(const abr_case *which)
{
    if (which->call == call_slot) {
        return accepted_slot(which);
    }
    if (which->call == call_receive) {
        return received.refusal == ABR_OK && received.kind == which->kind && received.leaf == OTHERS;
    }
    if (which->call == call_status || which->call == call_at) {
        return connection.refusal == ABR_OK && connection.kind == which->kind && connection.leaf == OTHERS;
    }
    if (which->call == call_link) {
        return totals.connections == ABR_CONNECTIONS_MAX && totals.members == ABR_MEMBERS_MAX;
    }
    if (which->call == call_read) {
        return content.refusal == ABR_OK && content.kind == which->kind;
    }
    if (which->call == call_fair_share) {
        return share.refusal == ABR_OK && share.limited == 1;
    }
#ifndef ABR_NO_DOUBLES
    if (which->call == call_export) {
        return refusal == ABR_OK && contract.pcr > 0;
    }
    if (which->call == call_import) {
        return imported.refusal == ABR_OK;
    }
#endif
    if (which->call == call_next_ready) {
        return next == SECOND;
    }
    if (which->call == call_slot_time) {
        return passed == SECOND;
    }
    return (refusal | opened.refusal | answer.refusal | closed.refusal | allowed.refusal | listed.refusal |
            coded.refusal | rated.refusal | verdict.refusal | verdict.rule) == ABR_OK;
}

#endif
