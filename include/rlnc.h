/*
 * The static library of the port for C: field, rows, encoder, recoder, decoder, piece stream and stored form. Build it with
 * `library/build` and link target/staticlib/librlnc.a (x86-64-v2 Linux). It keeps no state, allocates nothing and calls nothing but memset and memmove.
 *
 * k is the piece count, L the piece length in bytes, F = k + L the length of a whole piece: k coefficients, then L payload bytes.
 *
 * Records. An encoder, recoder or decoder is a few numbers that the caller keeps, beside a buffer that the caller lends. Sizes pass by value;
 * what an entry sets stands behind a pointer. A byte slice passes as its address and its length.
 *
 * Answers. An entry answers a number of the table below. RLNC_OK and RLNC_PIECE_NOT_USEFUL are the only ones that change anything: with any
 * other, buffers and numbers are left as they were. For each entry the refusals are listed in their order: the first that applies is given.
 * Bytes past what an entry writes stay as they were.
 *
 * WHAT THE PROOFS ASSUME OF A CALLER. Each entry is proved to meet its contract for all numbers, lengths and bytes. Nothing can prove what a
 * pointer of the caller points to, so this is the caller's part:
 *
 *  1. A slice's address is valid for as many bytes as its length says, to read, and to write where it is not const, until the entry returns.
 *     A length is at most PTRDIFF_MAX.
 *  2. A slice of length 0 may have any address, NULL too: nothing is read or written through it.
 *  3. A pointer to a number (size_t, uint8_t or bool) is not NULL, is aligned, and points to a number that has been set; a bool is 0 or 1.
 *  4. Memory that an entry may write (slices that are not const, and numbers behind pointers) shares no byte with any other argument. Slices
 *     that are only read may overlap each other.
 *  5. While an entry runs, no other thread writes what the entry was handed, nor reads what the entry may write.
 *
 * WHAT A REBUILT BLOCK IS WORTH. 0 from rlnc_decoder_get_decoded_data says that the pieces taken determine one block, if they are truthful. It
 * does not say that they are: a piece with a damaged byte can give other data with the same answer 0. Check rebuilt data by a checksum of their
 * own.
 */
#ifndef RLNC_H
#define RLNC_H

#include <stdbool.h>
#include <stddef.h>
#include <stdint.h>

#ifdef __cplusplus
extern "C" {
#endif

enum rlnc_answer {
    RLNC_OK = 0,
    RLNC_CODING_VECTOR_LENGTH_MISMATCH = 1,
    RLNC_DATA_LENGTH_MISMATCH = 2,
    RLNC_PIECE_COUNT_ZERO = 3,
    RLNC_DATA_LENGTH_ZERO = 4,
    RLNC_PIECE_LENGTH_ZERO = 5,
    RLNC_NOT_ENOUGH_PIECES_TO_RECODE = 6,
    RLNC_PIECE_LENGTH_TOO_SHORT = 7,
    RLNC_PIECE_NOT_USEFUL = 8,
    RLNC_RECEIVED_ALL_PIECES = 9,
    RLNC_NOT_ALL_PIECES_RECEIVED_YET = 10,
    RLNC_INVALID_DECODED_DATA_FORMAT = 11,
    RLNC_INVALID_PIECE_LENGTH = 12,
    RLNC_INVALID_OUTPUT_BUFFER = 13,
    RLNC_SIZE_OVER_LIMIT = 20,
    RLNC_NO_ROOM = 21,
    RLNC_BAD_STATE = 22,
    RLNC_TOO_MANY_TAKEN = 23,
    RLNC_UNKNOWN_KIND = 24,
    RLNC_CUT_RECORD = 25,
    RLNC_MIXED_KINDS = 26
};

enum {
    RLNC_MAX_PIECE_COUNT = 256,     /* k */
    RLNC_MAX_PIECE_BYTE_LEN = 4096, /* L */
    RLNC_MAX_PIECES_TO_RECODE = 256,
    RLNC_MAX_PIECES_TAKEN = 65535,
    RLNC_BOUNDARY_MARKER = 0x81 /* the byte behind the data in a padded block */
};

/* The kinds of the stream, and of the stored form. */
enum {
    RLNC_KIND_END = 0x01,
    RLNC_KIND_3_BY_2 = 0x11,
    RLNC_KIND_16_BY_240 = 0x12,
    RLNC_KIND_32_BY_480 = 0x13,
    RLNC_STORED_3_BY_2 = 0x21,
    RLNC_STORED_16_BY_240 = 0x22,
    RLNC_STORED_32_BY_480 = 0x23
};

/* The bytes of a decoder's matrix, and at most those of a padded block of n data bytes. */
#define RLNC_MATRIX_LEN(k, L) ((size_t)(k) * ((size_t)(k) + (size_t)(L)))
#define RLNC_BLOCK_ROOM(n, k) ((size_t)(n) + (size_t)(k))

/*
 * The field of FIPS 197. A sum is exclusive or.
 */

uint8_t rlnc_gf256_mul(uint8_t a, uint8_t b);

/* Whether there is an inverse, or a quotient; then it is stored. Zero has no inverse, and division by it has no answer. */
bool rlnc_gf256_inv(uint8_t a, uint8_t *inverse);
bool rlnc_gf256_div(uint8_t a, uint8_t b, uint8_t *quotient);

/*
 * Rows of bytes.
 */

/* Each byte times the scalar. */
void rlnc_inplace_mul_vec_by_scalar(uint8_t *vec, size_t vec_len, uint8_t scalar);

/* Each byte of src added to that of dst at its place. 12: unequal lengths. */
uint8_t rlnc_inplace_add_vectors(uint8_t *dst, size_t dst_len, const uint8_t *src, size_t src_len);

/* Each byte of src times the scalar added to that of dst at its place. 12: unequal lengths. */
uint8_t rlnc_mul_vec_by_scalar_then_add_into_vec(uint8_t *dst, size_t dst_len, const uint8_t *src, size_t src_len, uint8_t scalar);

/* The len bytes at offset `from` times the scalar added to those at `to`. 22: the parts do not lie in the buffer, or share a byte. */
uint8_t rlnc_mul_part_by_scalar_then_add_into_part(uint8_t *buffer, size_t buffer_len, size_t from, size_t to, size_t len, uint8_t scalar);

/* The sum over rows of number times row: rows of out_len bytes, one for each number. 22: rows_len is below what they need. */
uint8_t rlnc_combine(const uint8_t *rows, size_t rows_len, const uint8_t *numbers, size_t numbers_len, uint8_t *out, size_t out_len);

/*
 * Encoder: piece_count, piece_byte_len, and a block of k·L bytes.
 */

/* Writes the data, the marker and zeros to the first k·L bytes of block and stores L = (data_len + 1) / k rounded up. RLNC_BLOCK_ROOM is
 * always room enough. 4: no data. 3: k is 0. 20: k or L over its limit. 21: block_len < k·L. */
uint8_t rlnc_encoder_new(const uint8_t *data, size_t data_len, uint8_t *block, size_t block_len, size_t piece_count, size_t *piece_byte_len);

/* The data is the block already; stores L = data_len / k. 4: no data. 3: k is 0. 2: the data does not make k equal pieces. 20. */
uint8_t rlnc_encoder_without_padding(const uint8_t *data, size_t data_len, size_t piece_count, size_t *piece_byte_len);

/* The payload that the vector codes, L bytes. 22: bad numbers, or block_len < k·L. 1: the vector has not k bytes. 13: the output has not L. */
uint8_t rlnc_encoder_code_with_coding_vector(size_t piece_count, size_t piece_byte_len, const uint8_t *block, size_t block_len,
                                             const uint8_t *coding_vector, size_t coding_vector_len, uint8_t *coded_data, size_t coded_data_len);

/* The whole piece, F bytes: the vector, then its payload. 22: as above. 13: the output has not F bytes. 1: the vector has not k. */
uint8_t rlnc_encoder_code_with_buf(size_t piece_count, size_t piece_byte_len, const uint8_t *block, size_t block_len, const uint8_t *coding_vector,
                                   size_t coding_vector_len, uint8_t *full_coded_piece, size_t full_coded_piece_len);

/* Counts. 22: k or L is 0 or over its limit. */
uint8_t rlnc_encoder_get_piece_count(size_t piece_count, size_t piece_byte_len, size_t *count);
uint8_t rlnc_encoder_get_piece_byte_len(size_t piece_count, size_t piece_byte_len, size_t *count);
uint8_t rlnc_encoder_get_full_coded_piece_byte_len(size_t piece_count, size_t piece_byte_len, size_t *count);

/*
 * Recoder: num_pieces_received (m), full_coded_piece_byte_len (F), num_pieces_coded_together (k), and m whole pieces, one after the other.
 */

/* Stores m, the number of whole pieces in the data; the data is the buffer to lend. 6: no data. 5: F is 0. 3: k is 0. 7: F <= k. 6: less
 * than one whole piece. 20: m over 256, or k or L over its limit. */
uint8_t rlnc_recoder_new(const uint8_t *data, size_t data_len, size_t full_coded_piece_byte_len, size_t num_pieces_coded_together,
                         size_t *num_pieces_received);

/* A whole piece, F bytes: each piece times its number, added up, coefficients included. 22: bad numbers, or pieces_len < m·F. 13: the output
 * has not F bytes. 1: the vector has not m. */
uint8_t rlnc_recoder_recode_with_buf(size_t num_pieces_received, size_t full_coded_piece_byte_len, size_t num_pieces_coded_together,
                                     const uint8_t *pieces, size_t pieces_len, const uint8_t *recoding_vector, size_t recoding_vector_len,
                                     uint8_t *full_recoded_piece, size_t full_recoded_piece_len);

/* Counts. 22: m, k or L is 0 or over its limit. */
uint8_t rlnc_recoder_get_original_num_pieces_coded_together(size_t num_pieces_received, size_t full_coded_piece_byte_len,
                                                            size_t num_pieces_coded_together, size_t *count);
uint8_t rlnc_recoder_get_num_pieces_recoded_together(size_t num_pieces_received, size_t full_coded_piece_byte_len,
                                                     size_t num_pieces_coded_together, size_t *count);
uint8_t rlnc_recoder_get_piece_byte_len(size_t num_pieces_received, size_t full_coded_piece_byte_len, size_t num_pieces_coded_together,
                                        size_t *count);
uint8_t rlnc_recoder_get_full_coded_piece_byte_len(size_t num_pieces_received, size_t full_coded_piece_byte_len,
                                                   size_t num_pieces_coded_together, size_t *count);

/*
 * Decoder: piece_byte_len (L), required_piece_count (k), useful_piece_count (the rows held), received_piece_count (the pieces taken), and a
 * matrix of RLNC_MATRIX_LEN(k, L) bytes. Mind the order: L comes before k.
 */

/* Clears the first k·F bytes of elements and stores 0 and 0. 5: L is 0. 3: k is 0. 20: k or L over its limit. 21: elements_len < k·F. */
uint8_t rlnc_decoder_new(size_t piece_byte_len, size_t required_piece_count, uint8_t *elements, size_t elements_len, size_t *useful_piece_count,
                         size_t *received_piece_count);

/* Takes a piece: writes the first k·F bytes of elements and stores both counts. 0 and 8 both say that it was taken; 8 that as many rows are
 * held as before. The number of rows can fall, and that is no fault. 22: bad numbers (rows > k, rows > taken, taken > 65,535, or k or L 0 or
 * over its limit), or elements_len < k·F. 9: complete already. 12: the piece has not F bytes. 23: 65,535 pieces were taken already. */
uint8_t rlnc_decoder_decode(size_t piece_byte_len, size_t required_piece_count, uint8_t *elements, size_t elements_len,
                            const uint8_t *full_coded_piece, size_t full_coded_piece_len, size_t *useful_piece_count, size_t *received_piece_count);

/* Recovers the data into the front of data and stores its length. 0 does not say that the pieces were truthful (see above). 22: as above. 10:
 * not complete. 21: data_room < k·L. 11: the block breaks the padding rule. */
uint8_t rlnc_decoder_get_decoded_data(size_t piece_byte_len, size_t required_piece_count, size_t useful_piece_count, size_t received_piece_count,
                                      const uint8_t *elements, size_t elements_len, uint8_t *data, size_t data_room, size_t *data_len);

/* Whether k rows are held: for a new decoder and truthful pieces, whether no other block agrees with all pieces taken. 22: bad numbers. */
uint8_t rlnc_decoder_is_already_decoded(size_t piece_byte_len, size_t required_piece_count, size_t useful_piece_count, size_t received_piece_count,
                                        bool *complete);

/* Counts. 22: bad numbers. */
uint8_t rlnc_decoder_get_num_pieces_coded_together(size_t piece_byte_len, size_t required_piece_count, size_t useful_piece_count,
                                                   size_t received_piece_count, size_t *count);
uint8_t rlnc_decoder_get_piece_byte_len(size_t piece_byte_len, size_t required_piece_count, size_t useful_piece_count,
                                        size_t received_piece_count, size_t *count);
uint8_t rlnc_decoder_get_full_coded_piece_byte_len(size_t piece_byte_len, size_t required_piece_count, size_t useful_piece_count,
                                                   size_t received_piece_count, size_t *count);
uint8_t rlnc_decoder_get_received_piece_count(size_t piece_byte_len, size_t required_piece_count, size_t useful_piece_count,
                                              size_t received_piece_count, size_t *count);
uint8_t rlnc_decoder_get_useful_piece_count(size_t piece_byte_len, size_t required_piece_count, size_t useful_piece_count,
                                            size_t received_piece_count, size_t *count);
uint8_t rlnc_decoder_get_remaining_piece_count(size_t piece_byte_len, size_t required_piece_count, size_t useful_piece_count,
                                               size_t received_piece_count, size_t *count);

/*
 * The piece stream. A record is one byte of kind, then the piece; the end record has no body. `so_far` is the kind of the pieces read before,
 * 0 where there were none.
 */

/* The record at the front of the bytes: stores its kind. 22: so_far is neither 0 nor a kind of piece. 25: no byte. 24: an unlisted kind. 26: a
 * piece of another kind than so_far. 25: cut short. */
uint8_t rlnc_stream_read(uint8_t so_far, const uint8_t *bytes, size_t bytes_len, uint8_t *kind);

/* The same where the record's first byte, `next`, is known, and how many bytes stand behind it. */
uint8_t rlnc_stream_read_kind(uint8_t so_far, uint8_t next, size_t behind, uint8_t *kind);

/* Writes a piece's record, F + 1 bytes. 24: no kind of piece. 12: the piece has not the kind's length. 13: the output has not one more. */
uint8_t rlnc_stream_write(uint8_t kind, const uint8_t *piece, size_t piece_len, uint8_t *out, size_t out_len);

/* k and L of a kind of piece. 24: no kind of piece. */
uint8_t rlnc_stream_sizes(uint8_t kind, size_t *piece_count, size_t *piece_byte_len);

/*
 * The stored form of a decoder, for the sizes of the stream: kind, rows (1 byte), taken (2, high byte first), the matrix; 4 + k·F bytes.
 */

/* Writes the form to the front of form and stores its length. 22: bad numbers, or elements_len < k·F. 24: no form has these sizes. 21: form_room
 * is below the form's length. */
uint8_t rlnc_stored_save(size_t piece_byte_len, size_t required_piece_count, size_t useful_piece_count, size_t received_piece_count,
                         const uint8_t *elements, size_t elements_len, uint8_t *form, size_t form_room, size_t *form_len);

/* Writes the first k·F bytes of elements and stores the record's four numbers. 25: no byte. 24: another kind. 25: too short. 21: elements_len
 * < k·F. 22: bad counts, or a byte behind the rows held that is not 0. */
uint8_t rlnc_stored_load(const uint8_t *form, size_t form_len, uint8_t *elements, size_t elements_len, size_t *piece_byte_len,
                         size_t *required_piece_count, size_t *useful_piece_count, size_t *received_piece_count);

#ifdef __cplusplus
}
#endif

#endif
