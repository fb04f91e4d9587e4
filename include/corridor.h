/*
 * corridor.h - blocks, frames and their checks by GOST 28082-89, texts spread
 * over a line, and fixed blocks by GOST 17422-82.
 *
 * The library allocates nothing, keeps no state and calls nothing back: each
 * call works on what the caller lends it and may run in any thread, as long as
 * no other call has the same record or output at that time.
 *
 * ARGUMENTS
 *   A slice is a pointer and its length in bytes. The pointer is valid for
 *   that length and is never NULL, even where the length is 0. An output does
 *   not overlap an input or an answer.
 *
 * RESULT
 *   Every call that returns uint32_t returns 0 for success, or the number of
 *   the first question answered with "no" (the lists below). After a refusal
 *   the lent output holds every byte it held before; after a success it holds
 *   the result from its first byte on, and bytes past the result keep what
 *   they held.
 *   A number outside its list (method, parity, code, shape, end sign, degree)
 *   returns 1 from any call: the output is untouched and the answer is all
 *   zeros.
 *   All other input, of any length and any content, gets a full answer.
 *
 * COUNTS AND PLACES
 *   Places start at 0. The places of a block count bytes, those of a frame
 *   count bits in the order sent (the low bit of each byte first). The content
 *   of a frame counts bits too, since it may end inside a byte: n whole bytes
 *   of content are 8 * n bits.
 */
#ifndef CORRIDOR_H
#define CORRIDOR_H

#include <stddef.h>
#include <stdint.h>

#ifdef __cplusplus
extern "C" {
#endif

/* Methods of a block. */
#define CORRIDOR_PARITY 1 /* a parity bit on each seven-bit character */
#define CORRIDOR_MATRIX 2 /* parity bits and one check character */
#define CORRIDOR_CYCLIC 3 /* x^16+x^12+x^5+1, appendix 1 */
#define CORRIDOR_CYCLIC_ALTERNATIVE 4 /* x^16+x^15+x^2+1, appendix 3 */
#define CORRIDOR_DIAGONAL 7 /* the matrix and a diagonal character */

/* Methods of a frame. */
#define CORRIDOR_FRAME_16 5 /* the 16-bit check of appendix 1 */
#define CORRIDOR_FRAME_32 6 /* the 32-bit check of appendix 2 */

/* Polynomials of a fixed block, by their degrees. */
#define CORRIDOR_DEGREE_8 8   /* x^8+x^2+x+1 */
#define CORRIDOR_DEGREE_16 16 /* x^16+x^15+x^13+x^11+x^5+x^3+x+1 */
#define CORRIDOR_DEGREE_24 24 /* x^24+x^22+x^12+x^10+x^9+x^2+x+1 */

/* Parity of every byte under methods 1, 2 and 7. Methods 3 and 4 carry none;
 * the number still has to be one of the two. */
#define CORRIDOR_EVEN 0 /* asynchronous links */
#define CORRIDOR_ODD 1  /* synchronous links */

/* Codes of the signs. Methods 1, 2 and 7 carry KOI-7 alone.
 *
 *            SOH  STX  ETX  DLE  SYN  ETB  US
 *     KOI-7   01   02   03   10   16   17  1F
 *     DKOI    01   02   03   10   32   26  1F
 *
 * The seven values of the block's own code are reserved, and no others: 32
 * and 26 are data under KOI-7, 16 and 17 under DKOI. */
#define CORRIDOR_KOI7 0
#define CORRIDOR_DKOI 1

/* Shapes of a block. Clear text is transparent: it carries any byte; methods
 * 1, 2 and 7 carry none. */
#define CORRIDOR_HEADER 1            /* SOH header */
#define CORRIDOR_TEXT 2              /* STX text */
#define CORRIDOR_HEADER_TEXT 3       /* SOH header STX text */
#define CORRIDOR_CLEAR_TEXT 4        /* DLE STX clear text */
#define CORRIDOR_HEADER_CLEAR_TEXT 5 /* SOH header DLE STX clear text */

/* End signs. The number names the sign under either code; it is the sign's
 * value in KOI-7, parity bit clear. Under DKOI the byte on the line is 26 for
 * CORRIDOR_ETB. */
#define CORRIDOR_ETX 0x03
#define CORRIDOR_ETB 0x17
#define CORRIDOR_US 0x1F

/* What a received number tells. */
#define CORRIDOR_NEW 1
#define CORRIDOR_REPEAT 2
#define CORRIDOR_LOST 3

/* Limits. */
#define CORRIDOR_LONGEST_LINE 16384       /* bytes of a line that is read */
#define CORRIDOR_LONGEST_COUNT 4096       /* counted bytes of a block */
#define CORRIDOR_LONGEST_CONTENT_16 32768  /* content bits, method 5 */
#define CORRIDOR_LONGEST_CONTENT_32 524288 /* content bits, method 6 */
#define CORRIDOR_LONGEST_FIXED_8 16       /* bytes of a fixed block, its */
#define CORRIDOR_LONGEST_FIXED_16 16      /* check included, by degree */
#define CORRIDOR_LONGEST_FIXED_24 256
#define CORRIDOR_CELL 4096                /* bytes of a cell of a store */
#define CORRIDOR_LONGEST_STORED 4095      /* bytes of a block in a store */
#define CORRIDOR_RECORD 16                /* bytes of a record of a trace */
#define CORRIDOR_NOTES 12                 /* its bytes 4 to 15 */

/*
 * Outputs that always suffice, so that a buffer can have its size when the
 * program is built. Proved as `lengths` in crates/guarantees/proofs; the field
 * of it stands beside each. Arguments are bytes, those of frames bits.
 */
/* Bytes of a line of plain text, or of a header alone, in any method (line). */
#define CORRIDOR_LONGEST_PLAIN(header, text) ((header) + (text) + 5)
/* Bytes of a line of clear text: met where every byte of the text is 10
 * (clear_line_3, clear_line_4, met_by_dle_3, met_by_dle_4). */
#define CORRIDOR_LONGEST_CLEAR(text) (2 * (text) + 6)
/* The same behind a header (line). */
#define CORRIDOR_LONGEST_HEADER_CLEAR(header, text) \
    ((header) + 2 * (text) + 7)
/* Bits of a frame with so many bits of content, of method 5 (frame_5,
 * met_by_ff) and of method 6 (frame_6). n whole bytes are 8 * n bits. */
#define CORRIDOR_LONGEST_FRAME_16(bits) ((bits) + 32 + ((bits) + 16) / 5)
#define CORRIDOR_LONGEST_FRAME_32(bits) ((bits) + 48 + ((bits) + 32) / 5)
/* The bytes that so many bits take, of a frame or of a content. */
#define CORRIDOR_FRAME_BYTES(bits) (((bits) + 7) / 8)

/*
 * Reads one block.
 *
 *   method       1 to 4, or 7
 *   parity       0 even, 1 odd
 *   code         0 KOI-7, 1 DKOI
 *   line         the whole line: fill signs, if any, start, fields, end
 *                sign, check
 *   out          takes the header, then the text, both without fill signs,
 *                without doubled DLE and without the inner start; top bits
 *                clear in methods 1, 2 and 7. As many bytes as the line
 *                always suffice.
 *
 * Returns 0:     answer[0] shape 1 to 5
 *                answer[1] end sign 03, 17 or 1F, under either code
 *                answer[2] header length
 *                answer[3] text length
 *                answer[4] counted bytes, end sign and inner start included
 * Otherwise answer[0] is the value named here (else 0), the rest is 0:
 *    1  a number is outside its list
 *   58  DKOI with method 1, 2 or 7; asked before all others
 *   11  the line is over 16,384 bytes
 *   12  methods 1, 2, 7: a byte has the wrong parity; first such place. Asked
 *       of every byte, also behind the end sign
 *   13  behind leading SYN the line does not start with SOH, STX or, in
 *       methods 3 and 4, DLE STX
 *   14  a byte is out of place before the end sign; its place. In a header:
 *       SOH, and DLE unless STX follows. In plain text: SOH, STX and DLE. In
 *       clear text: DLE before anything but DLE, SYN or an end sign; the
 *       place is that of the DLE. Methods 1, 2, 7: DLE everywhere
 *   15  no end sign was reached (also a DLE of header or clear text in
 *       methods 3, 4 with nothing after it)
 *   52  fewer bytes than the check's (0, 1, 2, 2 by methods 1 to 4, 2 in
 *       method 7) follow the end sign; place after the end sign
 *   53  more bytes than the check's follow it; the same place
 *   17  more than 4,096 bytes are counted
 *   18  the check is wrong; method 7: the row check, the first of its two
 *   54  method 7: the diagonal character is wrong
 *   19  out is too short; bytes needed. The line is sound: read it again with
 *       a longer output
 */
uint32_t corridor_read_block(uint8_t method, uint8_t parity, uint8_t code,
                             const uint8_t *line, size_t line_length,
                             uint8_t *out, size_t out_length,
                             size_t answer[5]);

/*
 * Writes one block, without fill signs.
 *
 *   method       1 to 4, or 7
 *   parity       0 even, 1 odd
 *   code         0 KOI-7, 1 DKOI
 *   shape        1 to 5
 *   end_sign     03, 17 or 1F, under either code
 *   header, text the parts; a part that the shape lacks has length 0. Bytes
 *                of header and plain text are none of the code's signs (01 02
 *                03 10 16 17 1F, under DKOI 01 02 03 10 32 26 1F) and, in
 *                methods 1, 2 and 7, below 80. Clear text is free
 *   out          takes the line
 *
 * Returns 0:     *value is the length of the line in bytes
 * Otherwise *value is the value named here (else 0):
 *    1  a number is outside its list
 *   58  DKOI with method 1, 2 or 7; asked before all others
 *    1  the method does not carry the shape (methods 1, 2 and 7 carry no
 *       clear text)
 *    4  a part that the shape lacks is not empty; asked before 2 and 3
 *    2  a header byte is reserved or, in methods 1, 2, 7, not below 80; its
 *       place in the header
 *    3  the same of plain text; its place in the text
 *    5  more than 4,096 bytes are counted
 *    6  out is too short; bytes needed
 */
uint32_t corridor_write_block(uint8_t method, uint8_t parity, uint8_t code,
                              uint8_t shape, uint8_t end_sign,
                              const uint8_t *header, size_t header_length,
                              const uint8_t *text, size_t text_length,
                              uint8_t *out, size_t out_length,
                              size_t *value);

/*
 * Reads one frame.
 *
 *   method       5 or 6
 *   bits         how many bits of lent are the frame, both flags included;
 *                the rest of lent is ignored
 *   lent         the bytes that hold the frame, first bit sent in bit 0
 *   out          takes the content, first bit sent in bit 0. As many bytes as
 *                lent always suffice
 *
 * Returns 0:     *value is the number of content bits, n whole bytes being
 *                8 * n. They take (*value + 7) / 8 bytes of out; spare high
 *                bits of the last one are zero
 * Otherwise *value is the value named here (else 0):
 *    1  the method is neither 5 nor 6
 *   31  more bits told than lent
 *   32  fewer than 16 bits, or the first or last 8 are not a flag 7E
 *   33  between the flags, five ones are not followed by an inserted zero;
 *       place of the bit after them, in bits (the closing flag's first bit
 *       where the run ends there)
 *   35  there is no content bit
 *   36  the content is over 32,768 bits (method 5) or 524,288 (method 6)
 *   37  the check is wrong
 *   38  out is too short; bytes needed. The frame is sound: read it again
 *       with a longer output
 */
uint32_t corridor_read_frame(uint8_t method, size_t bits,
                             const uint8_t *lent, size_t lent_length,
                             uint8_t *out, size_t out_length,
                             size_t *value);

/*
 * Writes one frame: flag, content, check, flag, with the zeros inserted.
 *
 *   method       5 or 6
 *   bits         how many bits of content are claimed, the low bit of each
 *                byte first: 1 to 32,768 (method 5) or 524,288 (method 6). n
 *                whole bytes are 8 * n bits
 *   content      the bytes that hold them. Bits of the last content byte above
 *                the claimed ones are ignored, and so are bytes behind it
 *   out          takes the frame; spare high bits of its last byte are zero
 *
 * Returns 0:     *value is the number of bits of the frame; they take
 *                (*value + 7) / 8 bytes of out
 * Otherwise *value is the value named here (else 0):
 *    1  the method is neither 5 nor 6
 *   66  more bits claimed than the content bytes hold; asked before 21
 *   21  no bit is claimed
 *   22  the content is over the method's limit
 *   23  out is too short; bytes needed
 */
uint32_t corridor_write_frame(uint8_t method, size_t bits,
                              const uint8_t *content, size_t content_length,
                              uint8_t *out, size_t out_length,
                              size_t *value);

/*
 * Judges a received number, modulus 2^n.
 *
 *   n            1 to 7
 *   w            the link's window, 1 to the modulus less 1: the most blocks
 *                that the far station has on the way
 *   c            the awaited number, below the modulus
 *   number       the received number, below the modulus
 *
 * Returns 0:     answer[0] 1 new: number is c
 *                          2 repeat: number is one of the w before c
 *                          3 lost: number is any other
 *                answer[1] the number awaited from now on: after 1 the next
 *                one modulo 2^n, otherwise c
 * Otherwise answer[0] is 0 and answer[1] is c:
 *   41  n is not from 1 to 7
 *   51  w is not from 1 to the modulus less 1; asked before 42
 *   42  c is not below the modulus
 *   43  number is not below the modulus
 */
uint32_t corridor_receive(uint8_t n, uint8_t w, uint8_t c, uint8_t number,
                          uint8_t answer[2]);

/*
 * The record of a sending station. The line driver keeps it, sets it to all
 * zeros for a fresh station, lends it to every call and never looks inside.
 * The blocks themselves stand in a store, which the driver keeps too: w cells
 * of CORRIDOR_CELL bytes. Between two calls neither is altered, and n and w
 * stay what they were.
 */
typedef struct corridor_station {
    uint8_t next;
    uint8_t stored;
    uint8_t cell;
    uint16_t lengths[7];
    uint8_t method; /* of the last order, and the one before it: 3 or 4, or 0 */
    uint8_t former; /* for the method before any order, which is 4 */
    uint8_t older;  /* the stored blocks from before the last order */
} corridor_station;

/*
 * Submits one block: its bytes are copied into the store and it takes the next
 * number, modulus 2^n, from 0 on a fresh station.
 *
 *   n            1 to 7
 *   w            1 to 7 and below the modulus: the most blocks that are kept
 *   station      the record
 *   store        w * CORRIDOR_CELL bytes; more are left alone
 *   block        at most CORRIDOR_LONGEST_STORED bytes
 *
 * Returns 0:     *value is the block's number
 * Otherwise *value is the value named here (else 0), and record and store are
 * as they were:
 *   41  n is not from 1 to 7
 *   51  w is not from 1 to 7 or not below the modulus, or the record is none
 *       of this n and w: more than w blocks stored, more from before the last
 *       order than are stored, or a number, a cell, a length or a method out
 *       of range
 *    6  the store is too short; bytes needed
 *   57  the block is too long; asked before 55
 *   55  w blocks are stored already
 */
uint32_t corridor_submit(uint8_t n, uint8_t w, corridor_station *station,
                         uint8_t *store, size_t store_length,
                         const uint8_t *block, size_t block_length,
                         size_t *value);

/*
 * Acknowledges: the far station names the last block that it received. That
 * block and all before it are freed.
 *
 *   n, w, station, store   as for corridor_submit
 *   number       the named block's
 *
 * Returns 0:     *value is how many blocks were freed
 * Otherwise *value is the value named here (else 0), and the record is as it
 * was:
 *   41, 51, 6  as for corridor_submit
 *   56  number is not that of a stored block
 */
uint32_t corridor_acknowledge(uint8_t n, uint8_t w, corridor_station *station,
                              const uint8_t *store, size_t store_length,
                              uint8_t number, size_t *value);

/*
 * Orders another method without a stop: the stored blocks stay under the
 * method of their own, and later submissions go under this one. A fresh
 * station sends under method 4. The receiver is told the order with the
 * number that is answered here.
 *
 *   n, w, station   as for corridor_submit
 *   method          CORRIDOR_CYCLIC or CORRIDOR_CYCLIC_ALTERNATIVE
 *
 * Returns 0:     *value is the order's number, the next that is given
 * Otherwise *value is 0, and the record is as it was:
 *    1  the method is neither 3 nor 4
 *   41, 51  as for corridor_submit
 *   67  a block from before the last order is still stored
 */
uint32_t corridor_order(uint8_t n, uint8_t w, corridor_station *station,
                        uint8_t method, size_t *value);

/*
 * Writes the line of a stored block, for the first time or again: clear text
 * with ETX, under the block's own method and KOI-7. The record is only read.
 *
 *   n, w, station, store   as for corridor_submit
 *   number       the block's
 *   out          takes the line: at most
 *                CORRIDOR_LONGEST_CLEAR(the block's length) bytes
 *
 * Returns 0:     *value is the length of the line in bytes
 * Otherwise *value is the value named here (else 0), and out is as it was:
 *   41, 51, 6  as for corridor_submit, 6 of the store
 *   56  number is not that of a stored block
 *    6  out is too short; bytes needed
 */
uint32_t corridor_send(uint8_t n, uint8_t w, const corridor_station *station,
                       const uint8_t *store, size_t store_length,
                       uint8_t number, uint8_t *out, size_t out_length,
                       size_t *value);

/*
 * The record of a receiving station. The line driver keeps it, sets n and w
 * and the rest to zeros for a fresh station, and lends it to every call.
 */
typedef struct corridor_receiver {
    uint8_t n;       /* sequence numbers run modulo 2^n */
    uint8_t w;       /* the link's window, as for corridor_receive */
    uint8_t c;       /* the awaited number */
    uint8_t method;  /* of the blocks read: 3 or 4, or 0 before any order: 4 */
    uint8_t waiting; /* the method of an order that waits, else 0 */
    uint8_t number;  /* and the number of the first block under it */
} corridor_receiver;

/*
 * Tells the receiver an order with its number. Where the awaited number is
 * the order's the method changes at once, else when it is.
 *
 *   receiver     the record
 *   number       the order's, below the modulus
 *   method       CORRIDOR_CYCLIC or CORRIDOR_CYCLIC_ALTERNATIVE
 *
 * Returns 0, or with the record as it was:
 *    1  the method is neither 3 nor 4
 *   41  n is not from 1 to 7
 *   51  w is not from 1 to the modulus less 1, or the record waits for the
 *       awaited number or for one not below the modulus, or keeps no method
 *   42  c is not below the modulus
 *   43  number is not below the modulus
 *   67  an order waits already
 */
uint32_t corridor_tell_order(corridor_receiver *receiver, uint8_t number,
                             uint8_t method);

/*
 * Tells the receiver a block's number beside its line. The line of a new
 * block is read, as corridor_read_block reads it under the method in force
 * and KOI-7, and the awaited number moves on behind a line that was taken.
 *
 *   receiver     the record
 *   number       the block's, below the modulus
 *   line         the line as it came in
 *   out          takes header, then text, of a new block
 *
 * Returns 0:     answer[0] 1 new, and answer[1] to answer[5] as answer[0] to
 *                          answer[4] of corridor_read_block
 *                          2 repeat, 3 lost: the line is not read, the record
 *                          and out are as they were, and zeros
 * Otherwise answer[0] is 0, answer[1] the place or the bytes needed of a
 * refused line (else 0), and zeros; record and out are as they were:
 *   41, 51, 42, 43  as for corridor_tell_order
 *   11, 13, 14, 15, 52, 53, 17, 18, 19  as for corridor_read_block
 */
uint32_t corridor_tell_block(corridor_receiver *receiver, uint8_t number,
                             const uint8_t *line, size_t line_length,
                             uint8_t *out, size_t out_length,
                             size_t answer[6]);

/*
 * Interleaves a text: its bytes are laid in rows of d and sent by columns, so
 * that bytes which stand side by side on the line do not in the text. With d
 * from 3 to the text's length, damage to text_length / d bytes of the line in
 * a row spares one of every two neighbours of the text.
 *
 *   d            the bytes of a row, at least 1. With d = 1, or d at least
 *                text_length, the line is the text
 *   text         any bytes, of any length
 *   out          takes the line: as many bytes as the text
 *
 * Returns 0, or:
 *   59  d is 0
 *   60  out is shorter than the text
 */
uint32_t corridor_interleave(size_t d, const uint8_t *text, size_t text_length,
                             uint8_t *out, size_t out_length);

/*
 * The inverse: gives back the text of which line is sent.
 *
 *   d            as the text was laid
 *   line         any bytes, of any length
 *   out          takes the text: as many bytes as the line
 *
 * Returns 0, or:
 *   59  d is 0
 *   60  out is shorter than the line
 */
uint32_t corridor_deinterleave(size_t d,
                               const uint8_t *line, size_t line_length,
                               uint8_t *out, size_t out_length);

/*
 * Replays a recorded line for the panel's reader: runs a sending station and
 * the number check again from fresh, over the records in order.
 *
 *   n, w         as for corridor_submit, of the sender and of the number check
 *   trace        records of CORRIDOR_RECORD bytes, with no header:
 *                  0       the event: 1 submitted, 2 acknowledged, 3 received
 *                  1       the number that was acknowledged or received; no
 *                          part in a submission
 *                  2, 3    the length of a submission, high byte first
 *                  4 - 7   milliseconds
 *                  8 - 15  service notes
 *                This reader reads bytes 0 to 3 alone.
 *   store        w * CORRIDOR_CELL bytes; takes what the submissions store,
 *                each as many zero bytes as its length says
 *   station      takes the station's record at the end
 *   c            takes the awaited number at the end
 *
 * Replay goes on behind a submission, an acknowledgement or a number that is
 * refused: with 57, 55, 56 or 43 it alters nothing.
 *
 * Returns 0:     *value is 0
 * Otherwise *value is the value named here (else 0), and store, station and c
 * are as they were:
 *   41  n is not from 1 to 7
 *   51  w is not from 1 to 7 or not below the modulus
 *    6  the store is too short; bytes needed
 *   61  trace_length is no multiple of CORRIDOR_RECORD
 *   62  an event is none of 1, 2 and 3; index of the first such record
 */
uint32_t corridor_replay_panel(uint8_t n, uint8_t w,
                               const uint8_t *trace, size_t trace_length,
                               uint8_t *store, size_t store_length,
                               corridor_station *station, uint8_t *c,
                               size_t *value);

/*
 * The same for the service reader, who is told besides:
 *
 *   notes        takes bytes 4 to 15 of the last record, zeros if there is
 *                none; after a refusal they are as they were
 */
uint32_t corridor_replay_service(uint8_t n, uint8_t w,
                                 const uint8_t *trace, size_t trace_length,
                                 uint8_t *store, size_t store_length,
                                 corridor_station *station, uint8_t *c,
                                 uint8_t notes[CORRIDOR_NOTES],
                                 size_t *value);

/*
 * Writes one fixed block: the content, then its check of as many bits as the
 * degree, the inverted remainder without starting ones, in the order sent.
 *
 *   degree       CORRIDOR_DEGREE_8, CORRIDOR_DEGREE_16 or CORRIDOR_DEGREE_24
 *   content      any bytes, at least one
 *   out          takes the block: 1, 2 or 3 bytes more than the content
 *
 * Returns 0:     *value is the length of the block in bytes
 * Otherwise *value is the value named here, else 0:
 *    1  the degree is none of the three
 *   64  no content byte
 *   65  the block, its check included, would be over its length: 16, 16 or
 *       256 bytes
 *    6  out is too short; bytes needed
 */
uint32_t corridor_write_fixed(uint8_t degree,
                              const uint8_t *content, size_t content_length,
                              uint8_t *out, size_t out_length, size_t *value);

/*
 * Reads one fixed block, which is all the bytes lent.
 *
 *   degree       as for corridor_write_fixed
 *   block        content and check
 *   out          takes the content: 1, 2 or 3 bytes fewer than the block
 *
 * Returns 0:     *value is the length of the content in bytes
 * Otherwise *value is the value named here, else 0:
 *    1  the degree is none of the three
 *   64  no content byte beside the check
 *   65  the block is over its length
 *   18  the check is not that of the content
 *   19  out is too short; bytes needed
 */
uint32_t corridor_read_fixed(uint8_t degree,
                             const uint8_t *block, size_t block_length,
                             uint8_t *out, size_t out_length, size_t *value);

/*
 * The cyclic check of a content, for a method 3, 4, 5 or 6. Bit 0 of the
 * result is the check's highest power, which is sent first: the low byte
 * goes out first. Any length, 0 included.
 */
uint16_t corridor_check_3(const uint8_t *content, size_t content_length);
uint16_t corridor_check_4(const uint8_t *content, size_t content_length);
uint16_t corridor_check_5(const uint8_t *content, size_t content_length);
uint32_t corridor_check_6(const uint8_t *content, size_t content_length);

/*
 * The check of two parts joined, for a method 3, 4, 5 or 6, without the parts:
 * from the check and the length in bytes of each.
 *
 *   first, second                the checks, as corridor_check_3 to 6 give them
 *   first_length, second_length  any length, 0 included
 *
 * Returns 0:     *value is the check of the first part followed by the second
 * Otherwise *value is 0:
 *   63  both parts together are over 4,096 bytes (methods 3, 4, 5) or 65,536
 *       (method 6)
 *
 * Of values that are no checks *value is the remainder, modulo the method's
 * polynomial, of the first times x to the second part's bits, plus the second.
 */
uint32_t corridor_join_3(uint16_t first, size_t first_length,
                         uint16_t second, size_t second_length,
                         size_t *value);
uint32_t corridor_join_4(uint16_t first, size_t first_length,
                         uint16_t second, size_t second_length,
                         size_t *value);
uint32_t corridor_join_5(uint16_t first, size_t first_length,
                         uint16_t second, size_t second_length,
                         size_t *value);
uint32_t corridor_join_6(uint32_t first, size_t first_length,
                         uint32_t second, size_t second_length,
                         size_t *value);

#ifdef __cplusplus
}
#endif

#endif
