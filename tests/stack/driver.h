/* What crate stack_driver exports. Each returns the number of an answer, as in PROTOCOL 4, 6 and 15. */
#ifndef DRIVER_H
#define DRIVER_H

#include <stddef.h>
#include <stdint.h>

uint32_t stack_status(uint8_t command, uint16_t volume, uint32_t leaf, const uint8_t *opaque, size_t opaque_len,
                      uint8_t number, uint8_t *out, size_t out_len);
uint32_t stack_information(uint16_t timeout, const uint8_t *opaque, size_t opaque_len, uint8_t number, uint8_t *out,
                           size_t out_len);
uint32_t stack_reply(uint8_t command, uint8_t number, const uint8_t *payload, size_t payload_len, uint8_t *out,
                     size_t out_len);
uint32_t stack_link(uint8_t next, uint8_t waiting, uint32_t sent, uint8_t repeats, uint8_t command, uint32_t clock,
                    uint32_t later, uint8_t reply, uint8_t number);
uint32_t stack_begin(uint32_t size, uint16_t piece, uint16_t stored, uint8_t next, uint8_t waiting, uint32_t clock,
                     uint8_t number, const uint8_t *payload, size_t payload_len, uint16_t wanted, const uint8_t *buffer,
                     size_t buffer_len, uint8_t *out, size_t out_len);
uint32_t stack_store(uint32_t size, uint16_t piece, uint16_t stored, uint8_t number, uint16_t flags,
                     const uint8_t *payload, size_t payload_len, uint8_t *buffer, size_t buffer_len, uint8_t *out,
                     size_t out_len);
uint32_t stack_stop(uint32_t size, uint16_t piece, uint16_t stored, uint8_t number, const uint8_t *payload,
                    size_t payload_len, uint8_t *out, size_t out_len);
uint32_t stack_cancel(uint32_t size, uint16_t piece, uint16_t stored, uint8_t next, uint8_t waiting, uint32_t clock,
                      uint8_t *out, size_t out_len);
uint32_t stack_handle(const uint8_t *body, size_t body_len, uint32_t size, uint16_t stored, uint8_t next,
                      uint8_t waiting, uint32_t clock, uint16_t piece, uint8_t *buffer, size_t buffer_len,
                      uint8_t *out, size_t out_len);
uint32_t stack_feed(const uint8_t *bytes, size_t bytes_len);
uint32_t stack_turn(const uint8_t *bytes, size_t bytes_len, uint32_t clock, uint16_t piece, uint8_t *buffer,
                    size_t buffer_len, uint8_t *out, size_t out_len);

#endif
