/* The peers: the calls in plain C, written for the benchmarks. Their answers are those of hemtaluq.h. */
#ifndef PEER_H
#define PEER_H

#include "hemtaluq.h"

hemtaluq_read_answer peer_read(const uint8_t *file, size_t file_length);
/* Reads into a table as the other calls need it, which peer_read does not. */
hemtaluq_read_answer peer_decode(const uint8_t *file, size_t file_length);
hemtaluq_weigh_answer peer_weigh(const uint8_t *file, size_t file_length, const uint16_t *weights, size_t weight_count,
                                 uint16_t *cycle, size_t cycle_length);
hemtaluq_quote_answer peer_quote(const uint8_t *file, size_t file_length, const uint16_t *weights, size_t weight_count,
                                 const uint32_t *contents, size_t content_count, uint32_t g, uint32_t d);
hemtaluq_list_answer peer_list(const uint8_t *file, size_t file_length, uint32_t machine, uint16_t *out, size_t out_length);
hemtaluq_confirm_answer peer_confirm(const uint8_t *file, size_t file_length, const uint32_t *set, size_t set_length);
hemtaluq_write_answer peer_write(const uint16_t *numbers, size_t number_count, uint8_t *out, size_t out_length);
/* A watcher's lists are those of hemtaluq.h. */
hemtaluq_watch_answer peer_watch_open(uint8_t copy[8192], uint8_t table[8192], uint64_t sizes[5], uint8_t states[16], uint64_t contents[64],
                                      uint64_t counts[3], const uint8_t *file, size_t file_length, const uint16_t *weights, size_t weight_count,
                                      const uint32_t *opening, size_t opening_count);
hemtaluq_watch_answer peer_watch_row(const uint8_t table[8192], const uint64_t sizes[5], uint8_t states[16], uint64_t contents[64],
                                     uint64_t counts[3], uint32_t row);
hemtaluq_watch_answer peer_watch_loss(const uint64_t sizes[5], uint64_t contents[64], const uint64_t counts[3], uint32_t message_type);
hemtaluq_watch_answer peer_watch_doubling(const uint64_t sizes[5], uint64_t contents[64], uint64_t counts[3], uint32_t message_type);

#endif
