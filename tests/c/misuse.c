/*
 * Tables that no call made, through every call: misuse ROUNDS GUARD [SEED].
 * Each call must end, and may write nothing but the table and the buffer. GUARD
 * octets on both sides of each are compared octet by octet; with GUARD 0 both
 * are heap blocks of their own size, so that memcheck sees a read outside as
 * well. An alarm ends a call that does not end. A refused call answers zeros
 * beside the refusal, a reading made twice the same octets, and every leaf is in
 * range. On tables that calls made the readings agree with each other.
 */
#include <stdio.h>
#include <stdlib.h>
#include <unistd.h>

#include "abr.h"
#include "arbitrary.h"
#include "filled.h"

enum { TABLE, CELL, REFUSAL, DEMANDS, TRACE, OBJECTS };
enum { TRACE_OCTETS = 48 };
enum {
    OPEN, CLOSE, RECEIVE, OFFER, SET_LEVEL, MAKE, SLOT, OUT_OF_RATE, OPEN_PATH, ADD, OFFER_MEMBER, REMOVE, ACR, EXPORT,
    NEXT, SLOT_TIME, STATUS, AT, MEMBER_AT, LINK, WRITE_RM, READ, CODE, RATE, IMPORT, FAIR_SHARE, LIMIT, PORT, JUDGE,
    HOUSE, CALLS
};

typedef struct {
    uint8_t *block, *copy;
    size_t size;
} object;

static const size_t sizes[OBJECTS] = {sizeof(abr_table), ABR_CELL_OCTETS, sizeof(uint32_t),
                                      (ABR_DEMANDS_MAX + 2) * sizeof(uint64_t), TRACE_OCTETS};
static object objects[OBJECTS];
static size_t guard;

static void *at(int which)
{
    return objects[which].block + guard;
}

static void make_objects(void)
{
    for (int i = 0; i < OBJECTS; i++) {
        objects[i].size = sizes[i] + 2 * guard;
        objects[i].block = malloc(objects[i].size);
        objects[i].copy = malloc(objects[i].size);
        if (!objects[i].block || !objects[i].copy) {
            abort();
        }
        memset(objects[i].block, 0xA5, objects[i].size);
    }
}

/* One of the table's addresses, sometimes with a number out of its range, the path of its VPI, or any numbers. */
static address any_address(void)
{
    address at = address_of((uint32_t)(next() % (next() % 4 ? 70 : 1040)));
    address any = {(uint32_t)edge_word(), (uint32_t)edge_word()};
    switch (next() % 8) {
    case 0: return any;
    case 1: at.vpi += 256; return at;
    case 2: at.vpi -= 1; at.vci += 65536; return at;
    case 3: at.vci = ABR_PATH_VCI; return at;
    default: return at;
    }
}

static uint64_t any_time(void)
{
    return next() % 3 ? next() >> 2 : edge_word();
}

static size_t any_length(void)
{
    return next() % 8 ? ABR_CELL_OCTETS : (size_t)(next() % ABR_CELL_OCTETS);
}

/* Random words, half of them 0 or 1. */
static void any_words(void *words, size_t size)
{
    uint32_t word;
    for (size_t i = 0; i < size; i += sizeof word) {
        word = next() % 2 ? (uint32_t)next() & 1 : (uint32_t)edge_word();
        memcpy((uint8_t *)words + i, &word, sizeof word);
    }
}

static abr_params any_params(void)
{
    abr_params params;
    any_words(&params, sizeof params);
    return next() % 4 ? abr_house(0x7FFF, next() % 2 ? 0x4000 : 0, 0x53E8) : params;
}

static abr_rm any_rm(void)
{
    abr_rm rm;
    any_words(&rm, sizeof rm);
    return rm;
}

/* A cell with right checks, or random octets. */
static void any_cell(void)
{
    address to = any_address();
    abr_rm rm = {to.vpi & 0xFF, to.vci & 0xFFFF, (uint32_t)next() & 1, (uint32_t)next() & 1, (uint32_t)next() & 1,
                 (uint32_t)next() & 1, 0, (uint32_t)next() & 0x7FFF, 0, 0, 0, 0};
    uint8_t *cell = at(CELL);
    if (next() % 4 && abr_write_rm(rm, cell, ABR_CELL_OCTETS) == ABR_OK) {
        return;
    }
    for (unsigned i = 0; i < ABR_CELL_OCTETS; i++) {
        cell[i] = (uint8_t)next();
    }
}

/* A double from 1 up to 2^32, or one with any bits. */
static double any_double(void)
{
    const uint64_t one = UINT64_C(1023) << 52;
    uint64_t bits = next() % 2 ? one + next() % (UINT64_C(32) << 52) : edge_word();
    double number;
    memcpy(&number, &bits, sizeof number);
    return number;
}

static size_t demand_count; /* of the demands that a call is given */

/* Draws demands, mostly few and mostly in range; before a call, since it may not write them. */
static void any_demands(void)
{
    uint64_t *demands = at(DEMANDS), most = ABR_RATE_MAX >> (next() % 42);
    demand_count = (size_t)(next() % (next() % 16 ? 8 : ABR_DEMANDS_MAX + 3));
    for (size_t i = 0; i < demand_count; i++) {
        demands[i] = next() % 64 ? next() % (most + 1) : edge_word();
    }
}

/* Octets that may be a trace: mostly small numbers behind a right beginning; the last one may say that more follow. */
static void any_trace(void)
{
    static const uint8_t head[] = {5, 7, 0, 1, 0};
    uint8_t *trace = at(TRACE), mask = next() % 4 ? 0x83 : 0xFF;
    for (unsigned i = 0; i < TRACE_OCTETS; i++) {
        trace[i] = (uint8_t)next() & mask;
    }
    memcpy(trace, head, (size_t)(next() % (sizeof head + 1)));
}

/* The refusal of the judge, given octets that end where their object ends; ~0 if what is beside it is wrong. */
static uint32_t judge_call(void)
{
    size_t len = (size_t)(next() % (TRACE_OCTETS + 1));
    abr_verdict verdict = abr_judge((uint8_t *)at(TRACE) + TRACE_OCTETS - len, len);
    int none = verdict.refusal || !verdict.rule;
    return verdict.rule > 3 || (verdict.refusal && verdict.rule) || none != !verdict.cell ? ~0u : verdict.refusal;
}

/* The refusal of an answer, which stands first in it, with zeros in all octets behind it; ~0 if not. */
static uint32_t zeros_beside(const void *answer, size_t size)
{
    static const uint8_t zeros[sizeof(abr_connection)];
    uint32_t refusal;
    memcpy(&refusal, answer, sizeof refusal);
    return refusal && memcmp((const uint8_t *)answer + sizeof refusal, zeros, size - sizeof refusal) ? ~0u : refusal;
}

#define ZEROS_BESIDE(answer) zeros_beside(&(answer), sizeof(answer))

/* The same of an answer with a leaf, which is an index for callers, whatever the table. */
#define LEAF_BESIDE(answer) ((answer).leaf < LEAVES ? ZEROS_BESIDE(answer) : ~0u)

/* The refusal of a share; where there is no limit its rate is the largest; ~0 if not. */
static uint32_t share_call(void)
{
    abr_share share = abr_fair_share(edge_word(), at(DEMANDS), demand_count);
    int none = share.refusal == ABR_OK && !share.limited;
    return share.limited > 1 || (none && share.rate != ABR_RATE_MAX) ? ~0u : ZEROS_BESIDE(share);
}

/* The refusal of an export, which is written in every case; ~0 if it is not, or has rates beside it. */
static uint32_t export_call(address to)
{
    uint32_t *refusal = at(REFUSAL);
    *refusal = ~0u;
    abr_contract contract = abr_export(at(TABLE), to.vpi, to.vci, refusal);
    return *refusal && (contract.pcr != 0 || contract.mcr != 0 || contract.icr != 0) ? ~0u : *refusal;
}

/* The refusal of a call without a table, all of whose other fields must then be 0; ~0 if one is not. */
static uint32_t without_table(int call)
{
    abr_cell read;
    abr_coded coded;
    abr_rated rated;
    abr_imported imported;
    switch (call) {
    case WRITE_RM: return abr_write_rm(any_rm(), at(CELL), any_length());
    case READ: read = abr_read(at(CELL), any_length()); return ZEROS_BESIDE(read);
    case CODE: coded = abr_code(edge_word()); return ZEROS_BESIDE(coded);
    case RATE: rated = abr_rate((uint32_t)edge_word()); return rated.reserved ? ~0u : ZEROS_BESIDE(rated);
    case IMPORT: imported = abr_import(any_double()); return ZEROS_BESIDE(imported);
    case FAIR_SHARE: return share_call();
    case LIMIT: return abr_limit(edge_word(), at(CELL), any_length());
    case PORT: return abr_port(edge_word(), at(DEMANDS), demand_count, at(CELL), any_length());
    case JUDGE: return judge_call();
    default: return abr_house((uint32_t)next(), 1, 2).n == ABR_HOUSE_N ? ABR_OK : ~0u;
    }
}

/* What a reading answers, the pair or the number being asked for. */
typedef union {
    abr_connection connection;
    abr_member member;
    abr_totals link;
    abr_allowed allowed;
} answer_read;

/* Reads once. What the call leaves unwritten is what this function's stack had before. */
__attribute__((noinline)) static size_t read_once(answer_read *into, int call, address to, uint32_t number)
{
    answer_read read;
    switch (call) {
    case STATUS: read.connection = abr_status(at(TABLE), to.vpi, to.vci); break;
    case AT: read.connection = abr_at(at(TABLE), number); break;
    case MEMBER_AT: read.member = abr_member_at(at(TABLE), number); break;
    case LINK: read.link = abr_link(at(TABLE)); break;
    default: read.allowed = abr_acr(at(TABLE), to.vpi, to.vci); break;
    }
    *into = read;
    return call == STATUS || call == AT ? sizeof read.connection : call == MEMBER_AT ? sizeof read.member :
           call == LINK ? sizeof read.link : sizeof read.allowed;
}

/* The refusal of a reading, which made twice gives the same octets, every one of them written; ~0 if not. */
static uint32_t reading(int call, address to)
{
    answer_read first, again;
    uint32_t number = next() % 4 ? (uint32_t)(next() % (call == AT ? LEAVES : MEMBER_WORDS)) : (uint32_t)edge_word();
    fill_stack(0xA5);
    size_t size = read_once(&first, call, to, number);
    fill_stack(0x5A);
    if (read_once(&again, call, to, number) != size || memcmp(&first, &again, size) != 0) {
        return ~0u;
    }
    switch (call) {
    case STATUS:
    case AT:
        return first.connection.reserved || first.connection.kind > ABR_MEMBER ? ~0u : LEAF_BESIDE(first.connection);
    case LINK: return first.link.connections_max == ABR_CONNECTIONS_MAX ? ABR_OK : ~0u;
    case MEMBER_AT: return ZEROS_BESIDE(first.member);
    default: return first.allowed.reserved ? ~0u : ZEROS_BESIDE(first.allowed);
    }
}

static volatile uint64_t next_instant; /* of a table that no call made it may be any */

/* The time to pass to a slot, never after the slot's own; ~0 if it is. */
static uint32_t slot_time_call(void)
{
    uint64_t now = edge_word();
    return abr_slot_time(at(TABLE), now, edge_word()) > now ? ~0u : ABR_OK;
}

/* Makes one call; its refusal. The comparisons of a table that no call made may be any. */
static uint32_t one_call(int call)
{
    address to = any_address();
    abr_opened opened;
    abr_received received;
    abr_sent sent;
    abr_closed closed;
    abr_answer answer;
    switch (call) {
    case OPEN: opened = abr_open(at(TABLE), to.vpi, to.vci, any_time(), any_params()); return LEAF_BESIDE(opened);
    case OPEN_PATH: opened = abr_open_path(at(TABLE), to.vpi, any_time(), any_params()); return LEAF_BESIDE(opened);
    case RECEIVE: received = abr_receive(at(TABLE), at(CELL), any_length()); return LEAF_BESIDE(received);
    case SLOT:
        sent = abr_slot(at(TABLE), any_time(), at(CELL), any_length());
        return sent.made > 1 || sent.reserved ? ~0u : LEAF_BESIDE(sent);
    case CLOSE: closed = abr_close(at(TABLE), to.vpi, to.vci); return ZEROS_BESIDE(closed);
    case REMOVE: closed = abr_remove_member(at(TABLE), to.vpi, to.vci); return ZEROS_BESIDE(closed);
    case OFFER: answer = abr_offer(at(TABLE), to.vpi, to.vci, edge_word()); return ZEROS_BESIDE(answer);
    case ADD: answer = abr_add_member(at(TABLE), to.vpi, to.vci); return ZEROS_BESIDE(answer);
    case OFFER_MEMBER: answer = abr_offer_member(at(TABLE), to.vpi, to.vci, edge_word()); return ZEROS_BESIDE(answer);
    case MAKE: answer = abr_make(at(TABLE), to.vpi, to.vci, any_time()); return ZEROS_BESIDE(answer);
    case SET_LEVEL: return abr_set_level(at(TABLE), (uint32_t)(next() % 4));
    case OUT_OF_RATE: return abr_out_of_rate(at(TABLE), to.vpi, to.vci, any_time(), at(CELL), any_length());
    case EXPORT: return export_call(to);
    case NEXT: next_instant = abr_next_ready(at(TABLE)); return ABR_OK;
    case SLOT_TIME: return slot_time_call();
    case ACR: case STATUS: case AT: case MEMBER_AT: case LINK: return reading(call, to);
    default: return without_table(call);
    }
}

/* Whether a call only reads the table that it is given. */
static int only_reads(int call)
{
    switch (call) {
    case ACR: case EXPORT: case NEXT: case SLOT_TIME: case STATUS: case AT: case MEMBER_AT: case LINK: return 1;
    default: return 0;
    }
}

/*
 * Whether a call may write an object. On a table that no call made a refusal may
 * write it. A call that is given no table cannot, and it is not compared then: a
 * table is long.
 */
static int may_write(int which, int call, uint32_t refusal)
{
    if (which == TABLE) {
        return !only_reads(call);
    }
    if (which == REFUSAL) {
        return call == EXPORT;
    }
    if (which == DEMANDS || which == TRACE) {
        return 0;
    }
    return call == SLOT ||
           ((call == WRITE_RM || call == OUT_OF_RATE || call == LIMIT || call == PORT) && refusal == ABR_OK);
}

/*
 * Whether an object is compared whole: one that a call may not write. The demands are long
 * too, and are compared after the calls that are given them.
 */
static int compared(int which, int call, uint32_t refusal)
{
    return !may_write(which, call, refusal) && (which != DEMANDS || call == FAIR_SHARE || call == PORT);
}

/* Copies what a call may not write: always the octets before and behind an object. */
static void copy(int call)
{
    for (int i = 0; i < OBJECTS; i++) {
        const object *o = &objects[i];
        size_t back = guard + sizes[i];
        if ((i == TABLE || i == DEMANDS) && !compared(i, call, ABR_OK)) {
            memcpy(o->copy, o->block, guard);
            memcpy(o->copy + back, o->block + back, guard);
        } else {
            memcpy(o->copy, o->block, o->size);
        }
    }
}

/* Everything that the call may not write must be unchanged. */
static int unchanged(int call, uint32_t refusal)
{
    for (int i = 0; i < OBJECTS; i++) {
        const object *o = &objects[i];
        size_t back = guard + sizes[i];
        int outside = memcmp(o->block, o->copy, guard) == 0 &&
                      memcmp(o->block + back, o->copy + back, guard) == 0;
        if (!outside || (compared(i, call, refusal) && memcmp(o->block, o->copy, o->size) != 0)) {
            printf("object %d: octets changed that the call may not write\n", i);
            return 0;
        }
    }
    return 1;
}

/*
 * The places that arbitrary.h names are those of the archive: else the wrong
 * parts would be others than meant. The leaf that an open answers is the one in
 * whose words the connection stands.
 */
static int places_are_right(void)
{
    const uint64_t *words = ((abr_table *)at(TABLE))->words;
    uint64_t won = (UINT64_C(0xFFFFFF) << 32) + 2 * (1 + 1); /* leaf 1, at 255/65535 */
    abr_params params = abr_house(0x7FFF, 0x4000, 0x53E8);
    uint32_t refused = 0;
    memset(at(TABLE), 0, sizes[TABLE]);
    refused |= abr_open(at(TABLE), 2, 40, 7, params).leaf != 0;
    refused |= abr_open(at(TABLE), 2, 50, 8, params).leaf != 1;
    refused |= abr_open(at(TABLE), 3, 33, 9, params).leaf != 2;
    refused |= abr_close(at(TABLE), 2, 50).refusal;
    refused |= abr_open(at(TABLE), 255, 65535, 9, params).leaf != 1;
    refused |= abr_offer(at(TABLE), 255, 65535, 1).refusal;
    return refused == ABR_OK && words[USED] == 7 && words[DIRECTORY] == UINT64_C(65536) * 256 * LEAVES + 1 &&
           words[DIRECTORY + 1] == (3 * 65536 + 34) * LEAVES + 2 && words[DIRECTORY + 2] == (2 * 65536 + 41) * LEAVES &&
           words[DIRECTORY + 3] == 0 && words[NODES + 2] == won && words[NODES + 3] == ~UINT64_C(9) &&
           words[NODES + LEAVES] == won && words[NODES + LEAVES + 2] == 0 && words[RECORDS] == 0 &&
           words[RECORDS + RECORD_WORDS] == ~UINT64_C(9) && abr_next_ready(at(TABLE)) == 9 &&
           (words[RECORDS + IDENTITY] & 0xFFFFFF) == 2 * 65536 + 40 &&
           (words[RECORDS + RECORD_WORDS + IDENTITY] & 0xFFFFFF) == (1 << 24) - 1;
}

/* An out-of-rate cell on leaf 1, at the time of the last call, changes one word: the last of its record. */
static int one_word_changes(void)
{
    static abr_table before;
    const uint64_t *words = ((abr_table *)at(TABLE))->words;
    memcpy(&before, words, sizeof before);
    if (abr_out_of_rate(at(TABLE), 255, 65535, 9, at(CELL), ABR_CELL_OCTETS) != ABR_OK) {
        return 0;
    }
    for (unsigned i = 0; i < ABR_TABLE_WORDS; i++) {
        if ((words[i] != before.words[i]) != (i == RECORDS + RECORD_WORDS + LAST_OUT_OF_RATE)) {
            return 0;
        }
    }
    return 1;
}

/* The rates before and after a backward cell stand in two words of its record: here 512,000 less a sixteenth. */
static int change_is_stored(void)
{
    const uint64_t *change = ((abr_table *)at(TABLE))->words + RECORDS + RECORD_WORDS + CHANGE;
    abr_rm rm = {255, 65535, 1, 0, 1, 0, 0, ABR_CODE_MAX, 0, 0, 0, 0};
    return change[0] == 512000 && change[1] == 512000 && abr_write_rm(rm, at(CELL), ABR_CELL_OCTETS) == ABR_OK &&
           abr_receive(at(TABLE), at(CELL), ABR_CELL_OCTETS).refusal == ABR_OK &&
           change[0] == 512000 && change[1] == 480000;
}

/* The members of a table that calls made rise, and each has its path's leaf; their number. */
static uint32_t members_listed(uint64_t *waiting)
{
    uint64_t before = 0;
    uint32_t number = 0;
    for (;; number++) {
        abr_member member = abr_member_at(at(TABLE), number);
        address own = {member.vpi, member.vci};
        if (member.refusal) {
            return number;
        }
        abr_connection path = abr_status(at(TABLE), member.vpi, ABR_PATH_VCI);
        abr_connection status = abr_status(at(TABLE), member.vpi, member.vci);
        if (name_of(own) <= before || status.kind != ABR_MEMBER || status.waiting != member.waiting ||
            path.kind != ABR_PATH || status.leaf != path.leaf || status.acr != path.acr) {
            return ~0u;
        }
        before = name_of(own);
        *waiting += member.waiting;
    }
}

/* On a table that calls made: leaf and pair give the same octets, and the link counts what can be listed. */
static int readings_agree(void)
{
    uint32_t count = 0;
    uint64_t waiting = 0, on_paths = 0, earliest = ABR_NEVER;
    abr_totals link = abr_link(at(TABLE));
    for (uint32_t leaf = 0; leaf < LEAVES; leaf++) {
        abr_connection there = abr_at(at(TABLE), leaf);
        if (there.refusal) {
            continue;
        }
        abr_connection status = abr_status(at(TABLE), there.vpi, there.vci);
        abr_allowed allowed = abr_acr(at(TABLE), there.vpi, there.vci);
        if (memcmp(&there, &status, sizeof status) != 0 || there.leaf != leaf || there.acr != allowed.acr ||
            there.change != allowed.change || there.opened > link.last) {
            return 0;
        }
        on_paths += there.kind == ABR_PATH ? there.waiting : 0;
        earliest = there.ready < earliest ? there.ready : earliest;
        count++;
    }
    return count == link.connections && members_listed(&waiting) == link.members && waiting == on_paths &&
           earliest == abr_next_ready(at(TABLE));
}

/* In every 64th round the table is first one that calls made, whose readings agree. */
static int round_of_calls(unsigned long round)
{
    if (round % 64 == 0) {
        reached_table(at(TABLE));
        alarm(60);
        if (!readings_agree()) {
            printf("round %lu: readings of a reached table differ\n", round);
            return 1;
        }
    }
    arbitrary_table(at(TABLE));
    for (int i = 0; i < 48; i++) {
        int call = (int)(next() % CALLS);
        any_cell();
        any_demands();
        any_trace();
        copy(call);
        alarm(20);
        uint32_t refusal = one_call(call);
        alarm(0);
        if (refusal == ~0u || !unchanged(call, refusal)) {
            printf("round %lu, call %d, number %d: refusal %u\n", round, i, call, (unsigned)refusal);
            return 1;
        }
    }
    return 0;
}

int main(int argc, char **argv)
{
    if (argc < 3) {
        fprintf(stderr, "usage: misuse ROUNDS GUARD [SEED]\n");
        return 2;
    }
    unsigned long rounds = strtoul(argv[1], NULL, 10);
    guard = strtoul(argv[2], NULL, 10);
    unsigned long seed = argc > 3 ? strtoul(argv[3], NULL, 10) : 1;
    state = seed * UINT64_C(0x9E3779B97F4A7C15) | 1;
    step = paths = 1;
    make_objects();
    if (!places_are_right() || !one_word_changes() || !change_is_stored()) {
        printf("misuse: the words of a table stand elsewhere than arbitrary.h says\n");
        return 1;
    }
    for (unsigned long round = 0; round < rounds; round++) {
        if (round_of_calls(round)) {
            printf("misuse, seed %lu: FAILED\n", seed);
            return 1;
        }
    }
    for (int i = 0; i < OBJECTS; i++) {
        free(objects[i].block);
        free(objects[i].copy);
    }
    printf("misuse, seed %lu, %lu rounds, guard %zu: ok\n", seed, rounds, guard);
    return 0;
}
