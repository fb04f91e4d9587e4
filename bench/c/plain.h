/* The calls of corridor.h in plain C, under names of their own: same arguments, same answers, same output, but KOI-7 is the one code
 * that they know. plain_init comes first. */
#ifndef PLAIN_H
#define PLAIN_H
#define corridor_read_block plain_read_block
#define corridor_write_block plain_write_block
#define corridor_read_frame plain_read_frame
#define corridor_write_frame plain_write_frame
#define corridor_receive plain_receive
#define corridor_submit plain_submit
#define corridor_acknowledge plain_acknowledge
#define corridor_order plain_order
#define corridor_send plain_send
#define corridor_tell_order plain_tell_order
#define corridor_tell_block plain_tell_block
#define corridor_interleave plain_interleave
#define corridor_deinterleave plain_deinterleave
#define corridor_replay_panel plain_replay_panel
#define corridor_write_fixed plain_write_fixed
#define corridor_read_fixed plain_read_fixed
#define corridor_check_3 plain_check_3
#define corridor_check_4 plain_check_4
#define corridor_check_5 plain_check_5
#define corridor_check_6 plain_check_6
#define corridor_join_3 plain_join_3
#define corridor_join_4 plain_join_4
#define corridor_join_5 plain_join_5
#define corridor_join_6 plain_join_6
#include "../../include/corridor.h"

void plain_init(void);

/* Questions 41, 51 and 6 of a sender; 6 with the bytes needed. */
uint32_t sender_asked(uint8_t n, uint8_t w, const corridor_station *station,
                      size_t store_length, size_t *value);

/* The copy of plain_submit alone. */
uint32_t copy_submit(uint8_t n, uint8_t w, corridor_station *station,
                     uint8_t *store, size_t store_length,
                     const uint8_t *block, size_t block_length, size_t *value);

/* A copy of the text alone. */
uint32_t copy_interleave(size_t d, const uint8_t *text, size_t text_length,
                         uint8_t *out, size_t out_length);

/* zlib's crc32 and crc32_combine, where zlib is installed: zlib_found then
 * returns 1. */
int zlib_found(void);
uint32_t zlib_check_6(const uint8_t *content, size_t length);
uint32_t zlib_join_6(uint32_t first, size_t first_length,
                     uint32_t second, size_t second_length, size_t *value);

/* The same of libdeflate. */
int libdeflate_found(void);
uint32_t libdeflate_check_6(const uint8_t *content, size_t length);
#endif
