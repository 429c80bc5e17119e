/* What the pieces of C in docs/MANUAL.md take as given: names of the caller's program (tests/manual compiles them). Its
 * functions and types come before this. */
#ifndef SNIPPETS_H
#define SNIPPETS_H

#include <string.h>

#include "abr.h"

extern uint8_t cell[ABR_CELL_OCTETS];
extern abr_params params;
extern abr_sent sent;
extern abr_connection seen[ABR_CONNECTIONS_MAX];
extern uint32_t vpi, vci, peak_code, minimum_code, initial_code, far_peak_code;
extern uint64_t time, lag, memory_rate, capacity_above_minimums, demands_above_minimums[], last_share, minimum_of_source;
extern size_t sources;
extern own_line line;
extern double planned, left_over;

uint64_t now(void);
uint64_t share_of(uint32_t leaf);
void report(const char *text);
void count_refusal(uint32_t refusal);
int cell_has_arrived(uint8_t *to);
void send_idle_cell(void);
void send_octets(const uint8_t *octets);
void send_next_data_cell(own_connection *of, uint32_t vpi, uint32_t vci);
void take_data(own_connection *of, uint32_t vpi, uint32_t vci, const uint8_t *payload);
void show_rate(const own_connection *of, uint64_t acr);
void show_connection(uint32_t leaf, abr_connection it);
void wait_until_or_event(uint64_t time);
void take_arrivals_and_offers(void);
void give_slot(uint64_t time);

#endif
