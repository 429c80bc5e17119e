/*
 * abr.h: the ABR end-system rate engine.
 *
 * A transmitter asks once per cell slot which of up to ABR_CONNECTIONS connections of
 * one link sends, what kind of cell, and what rate it is allowed afterwards. Sections
 * named below are those of the manual, MANUAL.md, which says what the engine does;
 * beside it a caller needs nothing but this header.
 *
 * Editions. The library is built for 16, 64, 256 or 1,024 connections (section 24).
 * Before this header, or for the compiler, ABR_CONNECTIONS is defined as the number of
 * the edition that is linked; any other number is an error here, and abr_matches() says
 * whether it is that of the library.
 *
 * Addresses. A connection is named by its VPI and its VCI together, as VPI * 65,536
 * + VCI (section 2): the same VCI on another VPI is another connection. Every
 * cell written carries both. A VPI over 255 or a VCI over 65,535 is refused with 7
 * where it would be opened or written; in every other call such a pair is that of
 * no connection and is refused with 11, but a member's offer and removal on an open
 * path, which a VCI over 65,535 meets with 28. Neither is ever cut to the address of
 * another.
 *
 * Paths. One rate loop may serve many channels (section 10): abr_open_path opens
 * a connection for a whole VPI, which is named VPI * 65,536 + 6 and whose RM cells have
 * VCI 6. VCIs on that VPI are made its members by abr_add_member; each has data of
 * its own, offered by abr_offer_member, and no rate. The other calls for an open connection
 * take a path by its VPI and ABR_PATH_VCI as they take a channel, but for abr_offer
 * (28). abr_status takes a member's pair too; to the others that is no connection (11),
 * and none that abr_open could open (27). A received data cell of a member is one of its
 * path. Channels that are no members may be open on the same VPI.
 *
 * Leaves. An open takes the lowest free leaf of the tournament (sections 13 and 21), a
 * number from 0 to ABR_CONNECTIONS - 1, and keeps it until its close. The answers of the
 * open, of each slot that sends its cells and of each cell received for it carry that
 * number: an index for arrays of the caller's own. No two open connections share one. A
 * member's cells carry its path's.
 *
 * Language. C99 or later, C++11 or later, or C++98 with <stdint.h>.
 *
 * Memory. The library has no heap, no globals and no start-up call. All state
 * is in an abr_table that the caller lends. A table of zeros is the empty one,
 * so `static abr_table table;` is ready for use. It has 8 * ABR_TABLE_WORDS octets, too
 * many for most stacks (section 24). Only these calls may write a table that is in use. One
 * table is used by one thread at a time; different tables are independent of each
 * other. A table may be moved or copied as a whole, octet by octet, between
 * calls. Its size is a part of the interface, what its words mean is not: only a library
 * with the same abr_version(), all three numbers, and the same abr_table_words() as the
 * one that made a table may go on with it.
 *
 * Versions. In all versions with the major number of this one no call, struct, number or
 * refusal changes; calls may be added (section 28).
 *
 * Pointers. The only ones are to tables, to octets and to demanded rates, and in
 * abr_export to the number that takes the refusal. None may be null, also if the
 * length or count beside it is 0. The length given with a pointer to octets is that
 * of the memory there, and the count given with one to demands is how many are there.
 * The memory of two pointers of one call must not overlap. Octets need no alignment;
 * tables and demands are aligned as C aligns uint64_t, a refusal as it aligns uint32_t.
 *
 * Answers. Parameters and fields are passed by value, and so is every answer: a
 * number, or a struct whose first field is the refusal. Only the answer of abr_export
 * is three doubles, beside which it writes the refusal, and those of abr_link and
 * abr_house have none. The refusal is ABR_OK (0) or the first one that applies in the
 * order given at the call. A refused call has written nothing else, and every other
 * field of its answer is 0. An answer with a refusal must not be ignored; compilers that
 * can warn of it do. No answer has padding, and a field named reserved is 0: two answers
 * are the same exactly if their octets are.
 *
 * Comparisons. The ready instants of the connections play a tournament of
 * ABR_COMPARISONS_MAX rounds, neighbours paired in each (section 13). An accepted open,
 * close, receive, offer or make, and a slot that sends, replays the matches of its own
 * connection upwards, as far as their winners may have changed; a member's offer,
 * removal and received data cell replay those of its path. It answers how many matches
 * that replay has, one comparison each: 1 to ABR_COMPARISONS_MAX. A received data cell
 * moves no ready instant, so that its matches need only be counted. Refused calls, idle
 * slots and all other calls replay none.
 *
 * Units. Rates are whole numbers of 1/512 cell per second, but for the doubles of abr_export
 * and abr_import, which are in cells per second; times are nanoseconds
 * (sections 2 and 3). Where floating point may not be used, as in a kernel, define
 * ABR_NO_DOUBLES before this header: these two calls are then left out. The archives for
 * kernels do not have them.
 *
 * Rate codes. Bit 15 of a code is reserved. A call that reads a code with that bit
 * set is refused with 19: abr_open, abr_open_path, abr_receive, abr_read, abr_rate,
 * abr_limit, abr_port (section 3). No code that abr_code or abr_import gives and no
 * cell that the library writes has it.
 */
#ifndef ABR_H
#define ABR_H

#if defined(__cplusplus) && __cplusplus < 201103L && !defined(__STDC_CONSTANT_MACROS)
#define __STDC_CONSTANT_MACROS /* C++98 asks for it to define UINT64_C */
#endif

#include <stddef.h>
#include <stdint.h>

#if !defined(__cplusplus) && !(defined(__STDC_VERSION__) && __STDC_VERSION__ >= 199901L)
#error "abr.h needs C99 or later"
#endif
#ifndef UINT64_C
#error "abr.h needs UINT64_C: define __STDC_CONSTANT_MACROS before the first <stdint.h>"
#endif

#ifdef __GNUC__
#define ABR_MUST_USE __attribute__((warn_unused_result))
#else
#define ABR_MUST_USE
#endif

#ifdef __cplusplus
extern "C" {
#endif

/* ---- Edition (section 24) ----------------------------------------------- */

/* How many connections the library was built for. */
#ifndef ABR_CONNECTIONS
#define ABR_CONNECTIONS 1024
#endif

/* The most comparisons of a call: the rounds of a tournament of so many leaves. */
#if ABR_CONNECTIONS == 16
#define ABR_COMPARISONS_MAX 4u
#elif ABR_CONNECTIONS == 64
#define ABR_COMPARISONS_MAX 6u
#elif ABR_CONNECTIONS == 256
#define ABR_COMPARISONS_MAX 8u
#elif ABR_CONNECTIONS == 1024
#define ABR_COMPARISONS_MAX 10u
#else
#error "ABR_CONNECTIONS must be 16, 64, 256 or 1024, as the library was built for"
#endif

/* The connections that may be open at once, channels and paths: unsigned, as the other limits are. */
#define ABR_CONNECTIONS_MAX (ABR_CONNECTIONS + 0u)

/*
 * The words of a table: a header with a bit for each connection and samples of the directory of names, 27 words for
 * each connection, and the members of paths. A record of a connection has three lines of 64 octets if the table is
 * aligned to them.
 */
#define ABR_TABLE_GROUPS ((ABR_CONNECTIONS_MAX + 63u) / 64u)
#define ABR_TABLE_HEADER ((ABR_TABLE_GROUPS * 2u + 17u) / 16u * 16u + ABR_TABLE_GROUPS * 8u)
#define ABR_TABLE_WORDS (ABR_TABLE_HEADER + ABR_CONNECTIONS_MAX * 27u + 256u)

/* ---- Version ------------------------------------------------------------ */

/* 1.0.0: major, minor and patch number, eight bits each. */
#define ABR_VERSION 0x010000u

/* ---- Limits ------------------------------------------------------------- */

/* The octets of a cell, the only length that any buffer for a cell may have. */
#define ABR_CELL_OCTETS 53u

/* The members that all paths may have together. */
#define ABR_MEMBERS_MAX 256u

/* The greatest VPI. A VPI has eight bits here. */
#define ABR_VPI_MAX 255u

/* The least and the greatest VCI that can be opened or made a member, on any VPI. */
#define ABR_VCI_MIN 32u
#define ABR_VCI_MAX 65535u

/* The VCI in the name of a path, and in its RM cells. */
#define ABR_PATH_VCI 6u

/* The latest time, 2^62 nanoseconds. */
#define ABR_TIME_MAX UINT64_C(4611686018427387904)

/* An instant that does not come, as that of abr_next_ready if no connection is ever ready as
 * things stand, or that never was (abr_connection); later than every time. */
#define ABR_NEVER UINT64_C(18446744073709551615)

/* The most data cells that wait on one channel, and on one member of a path. */
#define ABR_WAITING_MAX 65535u

/* The least time from one made cell of a connection to the next, 100 ms. */
#define ABR_MAKE_INTERVAL UINT64_C(100000000)

/* The least time from one out-of-rate cell of a connection to the next, 100 ms. */
#define ABR_OUT_OF_RATE_INTERVAL UINT64_C(100000000)

/* The highest congestion level. */
#define ABR_LEVEL_MAX 2u

/* The most demands that a capacity is shared among. */
#define ABR_DEMANDS_MAX 1024u

/* One cell per second, which is also the least peak rate of a connection. */
#define ABR_RATE_ONE 512u

/* The largest rate that has a code. */
#define ABR_RATE_MAX UINT64_C(2196875771904)

/* The largest rate code; its rate is ABR_RATE_MAX. */
#define ABR_CODE_MAX 0x7FFFu

/* ---- Parameters of an open (section 4) ---------------------------------- */

/* The value of c that means a CDF of zero. */
#define ABR_CDF_ZERO 7u

/* The largest TBE, in cells. */
#define ABR_TBE_MAX 16777215u

/* The largest FRTT, in microseconds. */
#define ABR_FRTT_MAX 16700000u

/* The largest ADTF, in steps of 10 ms. */
#define ABR_ADTF_MAX 1023u

/* The house set: what abr_house adds to the three rates. */
#define ABR_HOUSE_N 5u
#define ABR_HOUSE_R 4u
#define ABR_HOUSE_D 4u
#define ABR_HOUSE_C 4u
#define ABR_HOUSE_TBE 16777215u
#define ABR_HOUSE_FRTT 0u
#define ABR_HOUSE_ADTF 50u
#define ABR_HOUSE_TRM 7u

/* ---- Kinds -------------------------------------------------------------- */

/* What a slot sends (abr_sent.kind). A made cell counts as a turned one. A trace has the
 * same numbers, but for idle (abr_judge). */
#define ABR_SENT_IDLE 0u
#define ABR_SENT_FORWARD 1u
#define ABR_SENT_TURNED 2u
#define ABR_SENT_DATA 3u

/* What was received (abr_received.kind), with the numbers of what a slot sends. */
#define ABR_RECEIVED_FORWARD 1u
#define ABR_RECEIVED_BACKWARD 2u
#define ABR_RECEIVED_DATA 3u

/* What a pair stands for (abr_connection.kind). */
#define ABR_CHANNEL 1u
#define ABR_PATH 2u
#define ABR_MEMBER 3u

/* What a cell is (abr_cell.kind): other numbers than those of abr_received.kind. */
#define ABR_CELL_DATA 1u
#define ABR_CELL_RM 2u

/* The rule that a cell of a trace breaks (abr_verdict.rule). */
#define ABR_RULE_NONE 0u    /* the trace passes */
#define ABR_RULE_FIRST 1u   /* the first cell is forward */
#define ABR_RULE_GAP 2u     /* a later cell is a gap or more after the one before */
#define ABR_RULE_FORWARD 3u /* a later cell is forward exactly when a forward cell is due */

/* ---- Refusals ----------------------------------------------------------- */

#define ABR_OK 0u /* accepted */

/* Because of the input. */
#define ABR_REFUSED_LENGTH 1u       /* cell or buffer is not 53 octets */
#define ABR_REFUSED_HEADER_CHECK 2u /* octet 5 is wrong */
/* 3 was a VPI other than 0, which is no refusal any more; its number stays unused. */
#define ABR_REFUSED_PAYLOAD_TYPE 4u /* payload type is 4, 5 or 7 */
#define ABR_REFUSED_CRC 5u          /* CRC-10 is wrong */
#define ABR_REFUSED_PROTOCOL 6u     /* protocol is not 1 */
#define ABR_REFUSED_RANGE 7u        /* parameter, field, address or rate code is out of range */
#define ABR_REFUSED_TIME 8u         /* time is over 2^62 */
#define ABR_REFUSED_TOO_LARGE 9u    /* level is over 2 or rate is above the largest */
#define ABR_REFUSED_LOW_VCI 10u     /* VCI is under 32 */

/* Because of the state. */
#define ABR_REFUSED_NOT_OPEN 11u      /* connection is not open */
#define ABR_REFUSED_ALREADY_OPEN 12u  /* connection is already open */
#define ABR_REFUSED_FULL 13u          /* as many connections are open as there can be */
#define ABR_REFUSED_TIME_BACKWARD 14u /* time is before the last accepted open, slot, made or out-of-rate cell */
#define ABR_REFUSED_TOO_MUCH_DATA 15u /* waiting data would pass 65,535 cells */
#define ABR_REFUSED_NOT_CONGESTED 16u /* congestion level is 0 */
#define ABR_REFUSED_MADE_TOO_SOON 17u /* less than 100 ms since the last cell made on this connection */
#define ABR_REFUSED_OUT_OF_RATE_TOO_SOON 18u /* less than 100 ms since the last out-of-rate cell on this connection */

/* Because of the input, added later. */
#define ABR_REFUSED_RESERVED_BIT 19u /* reserved bit of a rate code is set */
#define ABR_REFUSED_DOUBLE 20u /* not a rate: not a number, infinite, below 0, between 0 and 1, or 2^32 and more */
#define ABR_REFUSED_TOO_MANY_DEMANDS 21u /* over 1,024 demands */
#define ABR_REFUSED_DEMAND_TOO_LARGE 22u /* a demand is above the largest rate */
#define ABR_REFUSED_TRACE_NUMBER 23u /* a number of a trace is not in shortest form or over 64 bits */
#define ABR_REFUSED_TRACE_END 24u    /* trace is empty or ends inside a record */
#define ABR_REFUSED_TRACE_RANGE 25u  /* n, Trm number, kind, rate or summed time of a trace is out of range */

/* Because of the state, added later. */
#define ABR_REFUSED_MEMBERS_FULL 26u   /* 256 members are in the engine */
#define ABR_REFUSED_ALREADY_MEMBER 27u /* pair is already a member of its path */
#define ABR_REFUSED_NOT_A_MEMBER 28u   /* path is open, but the VCI is no member of it */

/* Because of the input, added last. */
#define ABR_REFUSED_TBE 29u  /* TBE is 0 or over 16,777,215 */
#define ABR_REFUSED_FRTT 30u /* FRTT is over 16,700,000 */

/* ---- Types -------------------------------------------------------------- */

/* The state of an engine. Its words have no meaning outside the library. */
typedef struct {
    uint64_t words[ABR_TABLE_WORDS];
} abr_table;

/* The parameters of an open. pcr, mcr and icr are rate codes of at most 15
 * bits. */
typedef struct {
    uint32_t pcr;  /* peak rate, at least one cell per second */
    uint32_t mcr;  /* minimum rate, 0 for none */
    uint32_t icr;  /* initial rate, from mcr to pcr; tbe and frtt may lower the one that is used */
    uint32_t n;    /* Nrm = 2^n, n 1 to 8 */
    uint32_t r;    /* RIF = 1/2^r, r 0 to 15 */
    uint32_t d;    /* RDF = 1/2^d, d 0 to 15 */
    uint32_t c;    /* CDF = 1/2^c, c 0 to 6; 7 means zero */
    uint32_t tbe;  /* TBE, the cells allowed before feedback, 1 to 16,777,215; CRM is TBE / Nrm, rounded up */
    uint32_t frtt; /* FRTT, the round trip in microseconds, 0 to 16,700,000; 0 lowers nothing */
    uint32_t adtf; /* ADTF in steps of 10 ms, 1 to 1,023 */
    uint32_t trm;  /* Trm number, 0 to 7: 100/2^(7-trm) ms */
} abr_params;

/* The fields of an RM cell. */
typedef struct {
    uint32_t vpi; /* at most 8 bits */
    uint32_t vci; /* at most 16 bits */
    uint32_t dir; /* 1 backward; this and the next four are 0 or 1 */
    uint32_t bn;  /* 1: not made by a source */
    uint32_t ci;  /* congestion */
    uint32_t ni;  /* no increase */
    uint32_t ra;  /* carried only */
    uint32_t er;  /* code of the explicit rate; these three at most 15 bits */
    uint32_t ccr; /* code of the current rate */
    uint32_t mcr; /* code of the minimum rate */
    uint32_t ql;  /* carried only */
    uint32_t sn;  /* carried only */
} abr_rm;

/* The answer of an open. */
typedef struct {
    uint32_t refusal;
    uint32_t comparisons; /* 1; 0 if it is refused */
    uint32_t leaf;        /* the connection's, until its close; 0 if it is refused */
} abr_opened;

/* The answer of an offer and of a made cell, and of adding a member. */
typedef struct {
    uint32_t refusal;
    uint32_t comparisons; /* 1 to ABR_COMPARISONS_MAX; 0 if it is refused, and of adding a member */
} abr_answer;

/* The answer of a received cell. If it is refused, all others are 0. */
typedef struct {
    uint32_t refusal;
    uint32_t comparisons; /* 1 to ABR_COMPARISONS_MAX */
    uint32_t kind;        /* ABR_RECEIVED_... */
    uint32_t vpi;         /* the cell's own, this and the next; of a member's data cell the member's */
    uint32_t vci;
    uint32_t leaf;        /* its connection's; for a member's data cell its path's */
    uint64_t acr;         /* the allowed rate of that connection afterwards */
} abr_received;

/* The answer of a close and of removing a member. */
typedef struct {
    uint32_t refusal;
    uint32_t comparisons; /* 1 to ABR_COMPARISONS_MAX; 0 if it is refused */
    uint64_t cells;       /* the data cells that waited, of a path those of all members; 0 if it is refused */
} abr_closed;

/* The answer of a slot. An idle slot has 0 in all. */
typedef struct {
    uint32_t refusal;
    uint32_t comparisons; /* ABR_COMPARISONS_MAX if a cell is sent */
    uint32_t kind;        /* ABR_SENT_... */
    uint32_t vpi;         /* the connection that sends, this and the next; for data of a path its member */
    uint32_t vci;
    uint32_t leaf;        /* of the connection that sends; for data of a path, the path's */
    uint64_t acr;         /* its allowed rate afterwards */
    uint64_t acr_before;  /* and before the cell: the rate that a trace wants (abr_judge) */
    uint32_t made;        /* 1: the turned cell is one that abr_make made */
    uint32_t reserved;
} abr_sent;

/* The answer of abr_acr. */
typedef struct {
    uint32_t refusal;
    uint32_t reserved;
    uint64_t acr;   /* the allowed rate; 0 is possible if the minimum is 0 */
    int64_t change; /* by its last accepted backward cell: new minus old, below 0 if it fell, 0 before the first */
} abr_allowed;

/* The answer of abr_status and of abr_at. Of a member everything but kind, vpi, vci and waiting is
 * its path's. A cell from a slot is one that abr_slot answered; out-of-rate cells are none.
 * Rates are in units; those in params are codes. */
typedef struct {
    uint32_t refusal;
    uint32_t kind;             /* ABR_CHANNEL, ABR_PATH or ABR_MEMBER */
    uint32_t vpi;
    uint32_t vci;
    uint32_t leaf;
    uint32_t waiting;          /* data cells that wait: of a path those of all members, of a member its own */
    abr_params params;         /* as its open gave them */
    uint32_t crm;              /* CRM: TBE / Nrm, rounded up */
    uint64_t icr_used;         /* the initial rate that is used; params has the one that was given */
    uint64_t acr;              /* the allowed rate, and its last change: as abr_acr answers them */
    int64_t change;
    uint64_t opened;           /* the time of its open */
    uint64_t last_sent;        /* the time of its last cell from a slot; ABR_NEVER before the first */
    uint64_t last_forward;     /* the time of its last forward cell from a slot; ABR_NEVER before the first */
    uint64_t ready;            /* its ready instant; ABR_NEVER if it is never ready as things stand */
    uint64_t last_made;        /* the time of its last accepted abr_make; ABR_NEVER before the first */
    uint64_t last_out_of_rate; /* the time of its last out-of-rate cell; ABR_NEVER before the first */
    uint32_t k;                /* its cells from slots since the last forward one */
    uint32_t unanswered;       /* Y: forward cells from slots since the last backward cell with BN 0, up to 8,388,608 */
    uint32_t backward_sent;    /* 1: a turned or made cell is among those k */
    uint32_t efci;             /* the saved congestion mark, 0 or 1 */
    uint32_t turned;           /* 1: a turned cell waits */
    uint32_t made_level;       /* the level at which the made cell that waits was made; 0: none waits */
    uint32_t served;           /* of a path: the VCI of the last member whose data went, removed or not; 0 before any */
    uint32_t reserved;
} abr_connection;

/* The answer of abr_member_at. */
typedef struct {
    uint32_t refusal;
    uint32_t vpi;
    uint32_t vci;
    uint32_t waiting; /* its data cells that wait */
} abr_member;

/* The answer of abr_link. */
typedef struct {
    uint32_t connections;     /* how many are open, channels and paths */
    uint32_t connections_max; /* how many can be: ABR_CONNECTIONS_MAX */
    uint32_t members;         /* how many all paths have together */
    uint32_t level;           /* the congestion level */
    uint64_t last;            /* the last accepted time, that of refusal 14; 0 before any, a time like others */
} abr_totals;

/* The answer of abr_read. */
typedef struct {
    uint32_t refusal;
    uint32_t kind; /* ABR_CELL_DATA or ABR_CELL_RM */
    uint32_t efci; /* the congestion mark of a data cell, 0 in an RM cell */
    abr_rm rm;     /* of a data cell only vpi and vci, the rest 0 */
} abr_cell;

/* The answer of abr_code. */
typedef struct {
    uint32_t refusal;
    uint32_t code;
} abr_coded;

/* The answer of abr_rate. */
typedef struct {
    uint32_t refusal;
    uint32_t reserved;
    uint64_t rate;
} abr_rated;

#ifndef ABR_NO_DOUBLES
/* The answer of abr_export: rates in cells per second. Three zeros if it is refused. */
typedef struct {
    double pcr; /* peak rate */
    double mcr; /* minimum rate */
    double icr; /* initial rate */
} abr_contract;

/* The answer of abr_import. */
typedef struct {
    uint32_t refusal;
    uint32_t code;    /* of the greatest code rate not above the double */
    double remainder; /* what the double has more than that rate, in cells per second; 0.0 if nothing */
} abr_imported;
#endif

/* The answer of abr_fair_share. */
typedef struct {
    uint32_t refusal;
    uint32_t limited; /* 1: rate is the share; 0: there is no limit */
    uint64_t rate;    /* the share; ABR_RATE_MAX, which limits nothing, if there is no limit */
} abr_share;

/* The answer of abr_judge. */
typedef struct {
    uint32_t refusal;
    uint32_t rule; /* ABR_RULE_...: the lowest that the cell breaks; 0: the trace passes */
    uint64_t cell; /* the first cell that breaks a rule, counted from 1; 0 if none does */
} abr_verdict;

/* ---- Header and archive ------------------------------------------------- */

/* ABR_VERSION and ABR_TABLE_WORDS of the header that the library was made with. */
uint32_t abr_version(void);
uint32_t abr_table_words(void);

/* Whether this header and the linked library belong together: the same major number, no
 * earlier minor number than the header's, since calls may have been added, any patch
 * number, and one edition, since no two editions have tables of one size. Ask it first:
 * with another library a table may be too short for its calls. */
static inline int abr_matches(void)
{
    return abr_version() >> 16 == ABR_VERSION >> 16 && abr_version() >> 8 >= ABR_VERSION >> 8 &&
           abr_table_words() == ABR_TABLE_WORDS;
}

/* ---- Connections -------------------------------------------------------- */

/*
 * Opens a channel at a time (section 4): that which the last slot was passed, before the
 * first slot the clock's. The initial rate that is used is the given
 * one, lowered to 512,000,000 * TBE / FRTT, rounded down, if that is less, but never
 * under MCR; with FRTT 0 it is the given one. The first cell of a connection, and a
 * forward cell more than ADTF after the last, bring the allowed rate down to it. The
 * connection starts at that rate with nothing sent and nothing waiting, also if its
 * address was open before, and takes the lowest free leaf of the tournament, which it
 * answers. Nothing waits yet, so that the winners stay and 1 comparison is made.
 * Refusals in order:
 *   10  vci under 32, whatever vpi is
 *   19  bit 15 set in pcr, mcr or icr, if that code has no bit above it
 *    7  vpi over 255, vci over 65,535, or a parameter out of its range: a rate code
 *       over 16 bits, MCR <= ICR <= PCR broken, PCR under 512, or any other but tbe and frtt;
 *       MCR may be 0, and with it ICR (section 9); of ICR the given one counts
 *   29  TBE 0 or over 16,777,215
 *   30  FRTT over 16,700,000
 *    8  time over 2^62
 *   12  the connection is open
 *   27  the pair is a member of a path
 *   13  ABR_CONNECTIONS connections are open
 *   14  time before that of the last accepted open, slot, made or out-of-rate
 *       cell
 */
ABR_MUST_USE abr_opened abr_open(abr_table *table, uint32_t vpi, uint32_t vci, uint64_t time, abr_params params);

/*
 * Closes a connection and drops all that waits on it. It answers how
 * many data cells that were (section 11); turned and made cells that waited
 * are not counted. So no data cell is unaccounted: at any time, for each VPI and VCI,
 * the cells of all accepted offers are as many as the slots with ABR_SENT_DATA, the
 * cells that its closes answered and those that wait together, however often it was
 * closed and opened anew. A path loses all its members with it and answers the sum of
 * what waited on them; its data is counted for the path, offers and slots being those of
 * its members, and removals of members as closes.
 * Comparisons: 1 to ABR_COMPARISONS_MAX.
 * Refusal: 11 the connection is not open, vpi over 255 or vci over 65,535.
 */
ABR_MUST_USE abr_closed abr_close(abr_table *table, uint32_t vpi, uint32_t vci);

/*
 * Adds data cells to those that wait on a channel (section 2).
 * The cells themselves stay with the caller. Offering 0 is accepted.
 * Comparisons: 1 to ABR_COMPARISONS_MAX.
 * Refusals in order:
 *   11  the connection is not open, vpi over 255 or vci over 65,535
 *   28  it is a path, by its own name: abr_offer_member offers to its members
 *   15  more than 65,535 cells would wait
 */
ABR_MUST_USE abr_answer abr_offer(abr_table *table, uint32_t vpi, uint32_t vci, uint64_t cells);

/*
 * Reads the allowed rate of a connection, and the change that its last accepted
 * backward cell made (section 6): the rate after
 * that cell less the rate before it, from MCR - PCR to PCR - MCR. It is 0 if that cell
 * left the rate as it was, and before the first one since the open. Every backward cell
 * counts, one with BN 1 too. Moves before a forward cell and all other calls leave it, so
 * that acr may have moved since.
 * Refusal: 11 the connection is not open, vpi over 255 or vci over 65,535.
 */
ABR_MUST_USE abr_allowed abr_acr(const abr_table *table, uint32_t vpi, uint32_t vci);

/*
 * Reads everything of a channel, of a path, or of a member with its path, but the octets of
 * a turned cell that waits (section 21).
 * Refusal: 11 the pair is neither an open connection nor a member, vpi over 255 or vci
 * over 65,535.
 */
ABR_MUST_USE abr_connection abr_status(const abr_table *table, uint32_t vpi, uint32_t vci);

/*
 * Reads everything of the connection in a leaf, a channel or a path, as abr_status does
 * (section 21). So a loop from 0 to ABR_CONNECTIONS_MAX - 1 lists all that are open.
 * Refusal: 11 no connection is open in that leaf, or leaf over ABR_CONNECTIONS - 1.
 */
ABR_MUST_USE abr_connection abr_at(const abr_table *table, uint32_t leaf);

/*
 * Reads the member with this number, counted from 0 in ascending order of VPI and VCI over
 * all paths (section 21). So a loop from 0 until the first refusal lists them. A member's
 * number changes as others are added and removed.
 * Refusal: 11 no member has that number.
 */
ABR_MUST_USE abr_member abr_member_at(const abr_table *table, uint32_t number);

/*
 * Reads what belongs to no single connection: how many connections and members there are,
 * the congestion level and the last accepted time (section 21). Nothing is refused.
 */
abr_totals abr_link(const abr_table *table);

#ifndef ABR_NO_DOUBLES
/*
 * The peak, minimum and initial rate of a connection as doubles in cells per second,
 * for a planning tool (section 18): the rates of the codes that its open gave,
 * each over 512 and exact; the initial rate too is the given one and not the one used
 * (section 4). The allowed rate does not matter. The refusal is written in
 * every case.
 * Refusal: 11 the connection is not open, vpi over 255 or vci over 65,535.
 */
ABR_MUST_USE abr_contract abr_export(const abr_table *table, uint32_t vpi, uint32_t vci, uint32_t *refusal);
#endif

/* ---- Paths and their members (section 10) ------------------------------- */

/*
 * Opens a path at a time: a connection for a whole VPI, named VPI * 65,536 +
 * ABR_PATH_VCI, without members. All else is as in abr_open; there is no VCI that
 * could be too low. 1 comparison is made.
 * Refusals in order:
 *   19  bit 15 set in pcr, mcr or icr, if that code has no bit above it
 *    7  vpi over 255, or a parameter out of its range, as in abr_open
 *   29  TBE 0 or over 16,777,215
 *   30  FRTT over 16,700,000
 *    8  time over 2^62
 *   12  the path is open
 *   13  ABR_CONNECTIONS connections are open
 *   14  time before that of the last accepted open, slot, made or out-of-rate
 *       cell
 */
ABR_MUST_USE abr_opened abr_open_path(abr_table *table, uint32_t vpi, uint64_t time, abr_params params);

/*
 * Makes a VCI a member of the path of its VPI, with no data waiting. The path's ready
 * instant stays, and no comparison is made.
 * Refusals in order:
 *   10  vci under 32, whatever vpi is
 *   11  the path is not open, vpi over 255 or vci over 65,535
 *   12  the pair is an open channel
 *   27  the pair is a member already
 *   26  the paths of this table have 256 members already
 */
ABR_MUST_USE abr_answer abr_add_member(abr_table *table, uint32_t vpi, uint32_t vci);

/*
 * Adds data cells to those that wait on a member of a path, as abr_offer does on a
 * channel. The limit of 65,535 cells is each member's own.
 * Comparisons: 1 to ABR_COMPARISONS_MAX.
 * Refusals in order:
 *   11  the path is not open, or vpi over 255
 *   28  the VCI is no member of the path, as none over 65,535 is
 *   15  more than 65,535 cells would wait on the member
 */
ABR_MUST_USE abr_answer abr_offer_member(abr_table *table, uint32_t vpi, uint32_t vci, uint64_t cells);

/*
 * Removes a member from its path, drops the data that waits on it and answers how many
 * cells that were. The turns of the others stay as they are. Removing it counts for the
 * path as a close does (see abr_close).
 * Comparisons: 1 to ABR_COMPARISONS_MAX.
 * Refusals in order:
 *   11  the path is not open, or vpi over 255
 *   28  the VCI is no member of the path, as none over 65,535 is
 */
ABR_MUST_USE abr_closed abr_remove_member(abr_table *table, uint32_t vpi, uint32_t vci);

/* ---- The receive path --------------------------------------------------- */

/*
 * Receives a cell (sections 6 and 7). A backward RM cell moves the allowed rate of its connection; a
 * forward RM cell is turned round and waits to be sent back, in place of any
 * turned one that waited, and has CI 1 also if that one had;
 * of a data cell the congestion mark is saved and the payload not used. A data cell of
 * a member saves its mark as that of the path, whichever member it is of
 * (section 10). The answer says what was received: kind, address, the leaf of its
 * connection and that connection's allowed rate afterwards.
 * Kinds: ABR_RECEIVED_FORWARD 1, ABR_RECEIVED_BACKWARD 2, ABR_RECEIVED_DATA 3.
 * Comparisons: 1 to ABR_COMPARISONS_MAX, for a data cell too.
 * Refusals in order:
 *    1  len is not 53
 *    2  octet 5 is wrong
 *    4  payload type 4, 5 or 7
 *    5  an RM cell with a wrong CRC-10
 *    6  an RM cell with a protocol other than 1
 *   19  an RM cell with bit 15 set in ER, CCR or MCR
 *   11  no connection with its VPI and VCI is open; an RM cell of a member, and a data
 *       cell with the name of a path itself, are cells of none
 */
ABR_MUST_USE abr_received abr_receive(abr_table *table, const uint8_t *cell, size_t len);

/*
 * Sets the congestion level of the whole engine, which marks the cells that
 * are turned or made from now on (section 7): 0 none, 1 NI,
 * 2 CI.
 * Refusal: 9 level over 2.
 */
ABR_MUST_USE uint32_t abr_set_level(abr_table *table, uint32_t level);

/*
 * Makes a backward RM cell on a connection at a time (section 7), for a
 * receiver that is congested while no forward cell arrives that it could turn
 * round. The cell has BN 1 and the mark of the level, NI at 1 and CI at 2, as ER the
 * code of PCR, and CCR and MCR 0; a later level does not change it. It waits beside the
 * turned cell and is sent after it, replaces an earlier made cell that still
 * waits, and neither takes nor clears a saved congestion mark. A slot sends it by
 * the rules for a turned cell and answers ABR_SENT_TURNED, with made 1. Where the far
 * source's peak is above PCR, raise ER in what that slot wrote (section 7). The time is
 * that which the last slot was passed, and counts for refusal 14 as a slot's does.
 * Comparisons: 1 to ABR_COMPARISONS_MAX.
 * Refusals in order:
 *    8  time over 2^62
 *   11  the connection is not open, vpi over 255 or vci over 65,535
 *   14  time before that of the last accepted open, slot, made or out-of-rate
 *       cell
 *   16  the level is 0
 *   17  less than 100 ms since the last cell made on this connection, sent or
 *       not; one that is opened anew starts without
 */
ABR_MUST_USE abr_answer abr_make(abr_table *table, uint32_t vpi, uint32_t vci, uint64_t time);

/* ---- The slot ----------------------------------------------------------- */

/*
 * Gives the slot at a time to the connection with the earliest ready instant
 * (section 5), of several with the same one to that with the lowest VPI *
 * 65,536 + VCI, and says which it is, its leaf, what kind of cell it sends and its
 * allowed rate afterwards and before. The 53 octets of a forward, a turned or a made cell
 * are written to the buffer. For data the buffer is unchanged and the caller sends
 * a data cell of that address. Data of a path is that of one of its members, which the
 * answer names: the first with data above the one served last, in rising VCI and round
 * to the lowest; before any was served the lowest with data (section 10). If no
 * connection is ready, the answer is all 0 and the buffer unchanged; the slot counts
 * as accepted at its time. A connection with an allowed rate of 0 is never ready,
 * whatever waits on it (section 9).
 * A forward cell carries a minimum of 0 as 0x0000, whatever code the open gave.
 * The time is that of abr_slot_time; with the slot's own time in its place what the slot
 * comes late is lost, and a minimum may not be delivered (section 20).
 * Kinds: ABR_SENT_IDLE 0, ABR_SENT_FORWARD 1, ABR_SENT_TURNED 2, of a made cell too,
 * ABR_SENT_DATA 3.
 * Comparisons: ABR_COMPARISONS_MAX if a cell is sent, since the connection that sends
 * wins every round; 0 if the slot is idle.
 * Refusals in order:
 *    1  len is not 53
 *    8  time over 2^62
 *   14  time before that of the last accepted open, slot, made or out-of-rate
 *       cell
 */
ABR_MUST_USE abr_sent abr_slot(abr_table *table, uint64_t time, uint8_t *cell, size_t len);

/*
 * The earliest ready instant of all open connections (section 12), in nanoseconds:
 * an accepted slot is idle exactly when its time is before it. So a caller with nothing
 * else to send can sleep until then. It is ABR_NEVER if no connection is ever ready as
 * things stand: none is open, or each one waits for data, a cell or feedback. It may have
 * passed already, if a connection is due and was not served, and it may be after
 * ABR_TIME_MAX, where no slot is accepted.
 * An accepted offer, received RM cell, made cell, close or removal of a member, and a
 * slot that sends may make it earlier or later: ask again after each. No other call does.
 * Nothing is refused, the table is only read, and no comparison is made.
 */
uint64_t abr_next_ready(const abr_table *table);

/*
 * The time to pass to abr_slot in a slot whose own time is now (section 20):
 *
 *     min(now, max(abr_next_ready(table), last, now - lag))
 *
 * with last the time of the last accepted open, slot, made or out-of-rate cell, and 0 for
 * now - lag if lag is greater. A connection is due a gap after the time that was passed
 * with its last cell, so that a caller who passes now loses each time what the slot came
 * late; with this time the next gap counts from the instant at which the cell was ready.
 * lag is how far behind now it may be: the tolerance that the policer on the line grants
 * (CDVT). With lag 0 it is now.
 * Where now is not before last, the time is from now - lag to now and not before last, so
 * that a slot accepts it if it accepts now; and a slot at it is idle exactly if one at now
 * is. Where now is before last, it is now, and the slot refuses it with 14. Pass to
 * abr_open, abr_make and abr_out_of_rate the time that the last slot was passed: with a
 * later one last would move on, and what lags would lose its lag.
 * Nothing is refused, the table is only read, and no comparison is made.
 */
uint64_t abr_slot_time(const abr_table *table, uint64_t now, uint64_t lag);

/*
 * Writes an out-of-rate forward RM cell of a connection (section 9; source
 * rule 11) to the buffer, complete, for the caller to send beside the slots: with
 * CLP 1, CCR the code of the allowed rate as it stands, and all else as in a forward
 * cell from a slot. A source whose allowed rate is 0 learns in this way when it may
 * rise; any other may call it too, also before its first cell. The cell counts for
 * nothing: the allowed rate, the unanswered cells and the ready instant stay, and
 * no comparison is made. Its time then counts for refusal 14 as a slot's does.
 * Refusals in order:
 *    1  len is not 53
 *    8  time over 2^62
 *   11  the connection is not open, vpi over 255 or vci over 65,535
 *   14  time before that of the last accepted open, slot, made or out-of-rate
 *       cell
 *   18  less than 100 ms since the connection's last accepted call of this sort; one
 *       that is opened anew starts without
 */
ABR_MUST_USE uint32_t abr_out_of_rate(abr_table *table, uint32_t vpi, uint32_t vci, uint64_t time, uint8_t *cell, size_t len);

/* ---- Cells and rate codes, without a table ------------------------------ */

/*
 * Writes an RM cell (section 8): GFC and CLP 0, reserved bits
 * and octets as the section gives them, both checks made.
 * Refusals in order:
 *    1  len is not 53
 *    7  a field out of its range (see abr_rm), a rate code over 15 bits too
 */
ABR_MUST_USE uint32_t abr_write_rm(abr_rm rm, uint8_t *cell, size_t len);

/*
 * Reads a cell (section 8).
 * Refusals in order: 1, 2, 4, 5, 6, 19, as for abr_receive.
 */
ABR_MUST_USE abr_cell abr_read(const uint8_t *cell, size_t len);

/*
 * Codes a rate: the code of the greatest code rate not above it
 * (section 3).
 * Refusal: 9 rate above the largest.
 */
ABR_MUST_USE abr_coded abr_code(uint64_t rate);

/*
 * The rate of a code (section 3).
 * Refusals: 7 code over 16 bits; 19 code within 16 bits with bit 15 set.
 */
ABR_MUST_USE abr_rated abr_rate(uint32_t code);

#ifndef ABR_NO_DOUBLES
/*
 * The rate code of a double in cells per second (section 18). If the double is
 * the rate of a code exactly, that code and a remainder of 0.0; else the code below and
 * the remainder: rate of the code over 512 plus remainder is the double, with no
 * rounding. Both zeros have the code 0x0000. Above the largest code rate and below
 * 2^32 the code is ABR_CODE_MAX. What abr_export gives is imported as the code of that
 * rate, 0x0000 if it is 0.
 * Refusal: 20 not a number, infinite, below 0, between 0 and 1, or 2^32 and more.
 */
ABR_MUST_USE abr_imported abr_import(double cells_per_second);
#endif

/*
 * The house set with three rate codes (section 4): n 5, r 4, d 4, c 4, tbe 16,777,215,
 * frtt 0, adtf 50 and trm 7 (ABR_HOUSE_N and so on). Nothing is refused here: an open
 * checks the result.
 */
abr_params abr_house(uint32_t pcr, uint32_t mcr, uint32_t icr);

/* ---- The port of a switch, without a table ------------------------------ */

/*
 * Shares a capacity among demanded rates (section 18). With a share each demand has what
 * it asks for, but no more than the share; it is the greatest whole rate with which all of
 * them together stay within the capacity. If the demands themselves stay within it, as
 * they do where there are none, there is no limit: limited is 0 and rate the largest rate,
 * with which abr_limit lowers no explicit rate. The order of the demands does not
 * matter, and more capacity never means a lower share, no limit counting as the highest.
 * Capacity and demands are rates; the capacity may be any number. The demands are read
 * only.
 * Refusals in order:
 *   21  count over 1,024
 *   22  a demand above the largest rate
 */
ABR_MUST_USE abr_share abr_fair_share(uint64_t capacity, const uint64_t *demands, size_t count);

/*
 * Limits the explicit rate of a passing cell (section 18). In a backward RM cell ER
 * becomes the code of the lower of its rate and the given one, whichever it is, and the
 * CRC-10 is made new; a code of rate 0 is written as 0x0000. Every other bit stays, GFC,
 * CLP, octet 5 and the reserved ones too. A forward RM cell and a data cell stay as they
 * are. The rate is a share, but may be any number.
 * Refusals in order: 1, 2, 4, 5, 6, 19, as for abr_receive.
 */
ABR_MUST_USE uint32_t abr_limit(uint64_t rate, uint8_t *cell, size_t len);

/*
 * A passing cell at the port of a switch (section 18): abr_fair_share and, if there
 * is a limit, abr_limit with that share. With no limit every octet stays, but the cell is
 * looked at all the same.
 * For connections without a minimum rate: the share knows none, and a cell may be limited
 * below its contract's MCR. Where contracts have minimums, share what is left above them
 * and call abr_limit with minimum plus share.
 * Refusals in order: 21, 22, as for abr_fair_share; then 1, 2, 4, 5, 6, 19, as for
 * abr_receive.
 */
ABR_MUST_USE uint32_t abr_port(uint64_t capacity, const uint64_t *demands, size_t count, uint8_t *cell, size_t len);

/* ---- Traces of other transmitters, without a table ---------------------- */

/*
 * Judges the cells that a transmitter sent in its rate on one connection, from the first
 * one on (section 18).
 *
 * A trace is a row of numbers. A number is written in groups of seven bits, the low group
 * first, each in an octet whose top bit is 1 when more groups follow. Only the shortest
 * form is accepted: a last group of 0 has no group before it. A number has at most 64
 * bits, and so at most ten octets, of which the tenth is 1. The first record is
 *   n            Nrm = 2^n, 1 to 8
 *   Trm number   0 to 7
 * and each cell is a record of
 *   time         nanoseconds since the cell before, 0 for the first cell
 *   kind         1 forward, 2 backward, 3 data (ABR_SENT_FORWARD, _TURNED, _DATA)
 *   rate         the one in force before the cell, in units of 1/512 cell per second, at
 *                most ABR_RATE_MAX; abr_slot answers it (acr_before)
 * The sum of the times is at most 2^62. Out-of-rate cells are left out.
 *
 * The rules (sections 5 and 18), with the gap ceil(512,000,000,000 / rate), the last forward
 * cell before this one, and k, the cells since that one:
 *   1  the first cell is forward
 *   2  a later cell is the gap of its rate or more after the cell before; a rate of 0 has
 *      no gap and breaks it
 *   3  a later cell is forward exactly when k is Nrm - 1, or k is 2 or more and at least
 *      Trm has passed since the last forward cell
 * The rate of the first cell is not judged. A trace without a cell passes. The answer is
 * the first cell that breaks a rule and the lowest rule that it breaks, or two zeros. What
 * abr_slot sends on one connection, from its open on, always passes, with the times that
 * the slots were passed (section 20).
 *
 * Refusals:
 *   23  a number is not in shortest form, seen at its last octet, or over 64 bits, seen at
 *       its tenth
 *   24  the trace has no octet, or ends inside a number or a record: n without a Trm
 *       number too
 *   25  n, Trm number, kind, rate or the sum of the times is out of its range, or the first
 *       time is not 0; seen at the last octet of that number
 * The earliest octet at which one is seen decides, 23 before 25 at the same octet; 24 is
 * seen at the end, behind all octets. A refusal goes before any broken rule, so that a
 * trace is read to its end also behind a cell that breaks one.
 *
 * The octets are read once, in order and none outside the length, and nothing is written.
 * Time is in proportion to the length; memory and stack do not depend on it.
 */
ABR_MUST_USE abr_verdict abr_judge(const uint8_t *trace, size_t len);

/* ---- The text of a refusal ---------------------------------------------- */

/* The text of an answer, as it is beside its number in this header; never null. */
static inline const char *abr_refusal_text(uint32_t refusal)
{
    switch (refusal) {
    case ABR_OK: return "accepted";
    case ABR_REFUSED_LENGTH: return "cell or buffer is not 53 octets";
    case ABR_REFUSED_HEADER_CHECK: return "octet 5 is wrong";
    case ABR_REFUSED_PAYLOAD_TYPE: return "payload type is 4, 5 or 7";
    case ABR_REFUSED_CRC: return "CRC-10 is wrong";
    case ABR_REFUSED_PROTOCOL: return "protocol is not 1";
    case ABR_REFUSED_RANGE: return "parameter, field, address or rate code is out of range";
    case ABR_REFUSED_TIME: return "time is over 2^62";
    case ABR_REFUSED_TOO_LARGE: return "level is over 2 or rate is above the largest";
    case ABR_REFUSED_LOW_VCI: return "VCI is under 32";
    case ABR_REFUSED_NOT_OPEN: return "connection is not open";
    case ABR_REFUSED_ALREADY_OPEN: return "connection is already open";
    case ABR_REFUSED_FULL: return "as many connections are open as there can be";
    case ABR_REFUSED_TIME_BACKWARD: return "time is before the last accepted open, slot, made or out-of-rate cell";
    case ABR_REFUSED_TOO_MUCH_DATA: return "waiting data would pass 65,535 cells";
    case ABR_REFUSED_NOT_CONGESTED: return "congestion level is 0";
    case ABR_REFUSED_MADE_TOO_SOON: return "less than 100 ms since the last cell made on this connection";
    case ABR_REFUSED_OUT_OF_RATE_TOO_SOON: return "less than 100 ms since the last out-of-rate cell on this connection";
    case ABR_REFUSED_RESERVED_BIT: return "reserved bit of a rate code is set";
    case ABR_REFUSED_DOUBLE: return "not a rate: not a number, infinite, below 0, between 0 and 1, or 2^32 and more";
    case ABR_REFUSED_TOO_MANY_DEMANDS: return "over 1,024 demands";
    case ABR_REFUSED_DEMAND_TOO_LARGE: return "a demand is above the largest rate";
    case ABR_REFUSED_TRACE_NUMBER: return "a number of a trace is not in shortest form or over 64 bits";
    case ABR_REFUSED_TRACE_END: return "trace is empty or ends inside a record";
    case ABR_REFUSED_TRACE_RANGE: return "n, Trm number, kind, rate or summed time of a trace is out of range";
    case ABR_REFUSED_MEMBERS_FULL: return "256 members are in the engine";
    case ABR_REFUSED_ALREADY_MEMBER: return "pair is already a member of its path";
    case ABR_REFUSED_NOT_A_MEMBER: return "path is open, but the VCI is no member of it";
    case ABR_REFUSED_TBE: return "TBE is 0 or over 16,777,215";
    case ABR_REFUSED_FRTT: return "FRTT is over 16,700,000";
    default: return "not an answer of this library";
    }
}

/* ---- Layout, checked at compile time ------------------------------------ */

#if defined(__cplusplus) && __cplusplus >= 201103L
#define ABR_LAYOUT(name, condition) static_assert(condition, #name)
#elif !defined(__cplusplus) && __STDC_VERSION__ >= 201112L
#define ABR_LAYOUT(name, condition) _Static_assert(condition, #name)
#else
#define ABR_LAYOUT(name, condition) typedef char abr_layout_##name[(condition) ? 1 : -1]
#endif

ABR_LAYOUT(table_size, sizeof(abr_table) == 8 * ABR_TABLE_WORDS);
ABR_LAYOUT(params_size, sizeof(abr_params) == 44);
ABR_LAYOUT(params_trm, offsetof(abr_params, trm) == 40);
ABR_LAYOUT(rm_size, sizeof(abr_rm) == 48);
ABR_LAYOUT(rm_vci, offsetof(abr_rm, vci) == 4);
ABR_LAYOUT(rm_er, offsetof(abr_rm, er) == 28);
ABR_LAYOUT(rm_sn, offsetof(abr_rm, sn) == 44);
ABR_LAYOUT(opened_size, sizeof(abr_opened) == 12);
ABR_LAYOUT(opened_comparisons, offsetof(abr_opened, comparisons) == 4);
ABR_LAYOUT(opened_leaf, offsetof(abr_opened, leaf) == 8);
ABR_LAYOUT(answer_size, sizeof(abr_answer) == 8);
ABR_LAYOUT(answer_comparisons, offsetof(abr_answer, comparisons) == 4);
ABR_LAYOUT(received_size, sizeof(abr_received) == 32);
ABR_LAYOUT(received_kind, offsetof(abr_received, kind) == 8);
ABR_LAYOUT(received_vpi, offsetof(abr_received, vpi) == 12);
ABR_LAYOUT(received_leaf, offsetof(abr_received, leaf) == 20);
ABR_LAYOUT(received_acr, offsetof(abr_received, acr) == 24);
ABR_LAYOUT(closed_size, sizeof(abr_closed) == 16);
ABR_LAYOUT(closed_comparisons, offsetof(abr_closed, comparisons) == 4);
ABR_LAYOUT(closed_cells, offsetof(abr_closed, cells) == 8);
ABR_LAYOUT(sent_size, sizeof(abr_sent) == 48);
ABR_LAYOUT(sent_comparisons, offsetof(abr_sent, comparisons) == 4);
ABR_LAYOUT(sent_vpi, offsetof(abr_sent, vpi) == 12);
ABR_LAYOUT(sent_vci, offsetof(abr_sent, vci) == 16);
ABR_LAYOUT(sent_leaf, offsetof(abr_sent, leaf) == 20);
ABR_LAYOUT(sent_acr, offsetof(abr_sent, acr) == 24);
ABR_LAYOUT(sent_acr_before, offsetof(abr_sent, acr_before) == 32);
ABR_LAYOUT(sent_made, offsetof(abr_sent, made) == 40);
ABR_LAYOUT(sent_reserved, offsetof(abr_sent, reserved) == 44);
ABR_LAYOUT(allowed_size, sizeof(abr_allowed) == 24);
ABR_LAYOUT(allowed_reserved, offsetof(abr_allowed, reserved) == 4);
ABR_LAYOUT(allowed_acr, offsetof(abr_allowed, acr) == 8);
ABR_LAYOUT(allowed_change, offsetof(abr_allowed, change) == 16);
ABR_LAYOUT(connection_size, sizeof(abr_connection) == 176);
ABR_LAYOUT(connection_leaf, offsetof(abr_connection, leaf) == 16);
ABR_LAYOUT(connection_params, offsetof(abr_connection, params) == 24);
ABR_LAYOUT(connection_crm, offsetof(abr_connection, crm) == 68);
ABR_LAYOUT(connection_icr_used, offsetof(abr_connection, icr_used) == 72);
ABR_LAYOUT(connection_ready, offsetof(abr_connection, ready) == 120);
ABR_LAYOUT(connection_k, offsetof(abr_connection, k) == 144);
ABR_LAYOUT(connection_reserved, offsetof(abr_connection, reserved) == 172);
ABR_LAYOUT(member_size, sizeof(abr_member) == 16);
ABR_LAYOUT(member_waiting, offsetof(abr_member, waiting) == 12);
ABR_LAYOUT(totals_size, sizeof(abr_totals) == 24);
ABR_LAYOUT(totals_level, offsetof(abr_totals, level) == 12);
ABR_LAYOUT(totals_last, offsetof(abr_totals, last) == 16);
ABR_LAYOUT(cell_size, sizeof(abr_cell) == 60);
ABR_LAYOUT(cell_efci, offsetof(abr_cell, efci) == 8);
ABR_LAYOUT(cell_rm, offsetof(abr_cell, rm) == 12);
ABR_LAYOUT(coded_size, sizeof(abr_coded) == 8);
ABR_LAYOUT(coded_code, offsetof(abr_coded, code) == 4);
ABR_LAYOUT(rated_size, sizeof(abr_rated) == 16);
ABR_LAYOUT(rated_reserved, offsetof(abr_rated, reserved) == 4);
ABR_LAYOUT(rated_rate, offsetof(abr_rated, rate) == 8);
#ifndef ABR_NO_DOUBLES
ABR_LAYOUT(contract_size, sizeof(abr_contract) == 24);
ABR_LAYOUT(contract_icr, offsetof(abr_contract, icr) == 16);
ABR_LAYOUT(imported_size, sizeof(abr_imported) == 16);
ABR_LAYOUT(imported_code, offsetof(abr_imported, code) == 4);
ABR_LAYOUT(imported_remainder, offsetof(abr_imported, remainder) == 8);
#endif
ABR_LAYOUT(share_size, sizeof(abr_share) == 16);
ABR_LAYOUT(share_limited, offsetof(abr_share, limited) == 4);
ABR_LAYOUT(share_rate, offsetof(abr_share, rate) == 8);
ABR_LAYOUT(verdict_size, sizeof(abr_verdict) == 16);
ABR_LAYOUT(verdict_rule, offsetof(abr_verdict, rule) == 4);
ABR_LAYOUT(verdict_cell, offsetof(abr_verdict, cell) == 8);

#undef ABR_LAYOUT

#ifdef __cplusplus
}
#endif

#endif /* ABR_H */
