/* second.h: document 01 a second time, in plain C11.
 *
 * Written from the document alone, to be compared with the library byte for
 * byte.  Buffers, lengths and the packed answer are those of
 * include/tautrobin.h; only the names differ.
 */
#ifndef SECOND_H
#define SECOND_H

#include <stddef.h>
#include <stdint.h>

uint64_t second_open(uint32_t n, uint32_t own,
                     uint8_t *state, size_t state_length,
                     uint8_t *shelf, size_t shelf_length);

uint64_t second_send(uint8_t *state, size_t state_length,
                     uint32_t kind,
                     const uint8_t *body, size_t body_length,
                     uint8_t *out, size_t out_length);

uint64_t second_arrive(uint8_t *state, size_t state_length,
                       uint8_t *shelf, size_t shelf_length,
                       const uint8_t *packet, size_t packet_length);

uint64_t second_release(uint8_t *state, size_t state_length,
                        uint8_t *shelf, size_t shelf_length,
                        uint8_t *out, size_t out_length);

#endif
