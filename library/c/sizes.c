/* The smallest and the largest: slices of no bytes, and the limits. */
#include "test.h"
#include <string.h>

static uint8_t data[1048576], block[1048576 + 256], matrix[256 * 4352], back[1048576];

/* Where a length is 0 the address does not matter, NULL included. */
static void null_slices(void) {
    uint8_t byte = UNSET, one[2] = {1, 1};
    size_t n = UNSET, m = UNSET, L = UNSET, k = UNSET;
    rlnc_inplace_mul_vec_by_scalar(NULL, 0, 0);
    rlnc_inplace_mul_vec_by_scalar(NULL, 0, 5);
    EXPECT(rlnc_inplace_add_vectors(NULL, 0, NULL, 0) == RLNC_OK);
    EXPECT(rlnc_inplace_add_vectors(one, 2, NULL, 0) == RLNC_INVALID_PIECE_LENGTH);
    EXPECT(rlnc_mul_vec_by_scalar_then_add_into_vec(NULL, 0, NULL, 0, 5) == RLNC_OK);
    EXPECT(rlnc_mul_part_by_scalar_then_add_into_part(NULL, 0, 0, 0, 0, 5) == RLNC_OK);
    EXPECT(rlnc_combine(NULL, 0, NULL, 0, NULL, 0) == RLNC_OK);
    EXPECT(rlnc_combine(NULL, 0, NULL, 0, one, 2) == RLNC_OK && one[0] == 0 && one[1] == 0);
    EXPECT(rlnc_encoder_new(NULL, 0, NULL, 0, 1, &n) == RLNC_DATA_LENGTH_ZERO);
    EXPECT(rlnc_encoder_new(one, 2, NULL, 0, 1, &n) == RLNC_NO_ROOM);
    EXPECT(rlnc_encoder_without_padding(NULL, 0, 1, &n) == RLNC_DATA_LENGTH_ZERO);
    EXPECT(rlnc_encoder_code_with_coding_vector(1, 1, NULL, 0, NULL, 0, NULL, 0) == RLNC_BAD_STATE);
    EXPECT(rlnc_encoder_code_with_coding_vector(1, 1, one, 1, NULL, 0, NULL, 0) == RLNC_CODING_VECTOR_LENGTH_MISMATCH);
    EXPECT(rlnc_encoder_code_with_buf(1, 1, one, 1, NULL, 0, NULL, 0) == RLNC_INVALID_OUTPUT_BUFFER);
    EXPECT(rlnc_recoder_new(NULL, 0, 2, 1, &n) == RLNC_NOT_ENOUGH_PIECES_TO_RECODE);
    EXPECT(rlnc_recoder_recode_with_buf(1, 2, 1, NULL, 0, NULL, 0, NULL, 0) == RLNC_BAD_STATE);
    EXPECT(rlnc_decoder_new(1, 1, NULL, 0, &n, &m) == RLNC_NO_ROOM);
    n = m = 0;
    EXPECT(rlnc_decoder_decode(1, 1, NULL, 0, NULL, 0, &n, &m) == RLNC_BAD_STATE);
    EXPECT(rlnc_decoder_decode(1, 1, one, 2, NULL, 0, &n, &m) == RLNC_INVALID_PIECE_LENGTH);
    EXPECT(rlnc_decoder_get_decoded_data(1, 1, 1, 1, one, 2, NULL, 0, &n) == RLNC_NO_ROOM);
    EXPECT(rlnc_stream_read(0, NULL, 0, &byte) == RLNC_CUT_RECORD && byte == UNSET);
    EXPECT(rlnc_stream_write(RLNC_KIND_3_BY_2, NULL, 0, NULL, 0) == RLNC_INVALID_PIECE_LENGTH);
    EXPECT(rlnc_stored_save(2, 3, 0, 0, NULL, 0, NULL, 0, &n) == RLNC_BAD_STATE);
    EXPECT(rlnc_stored_load(NULL, 0, NULL, 0, &L, &k, &n, &m) == RLNC_CUT_RECORD);
}

/* Codes the data in k pieces, sends them through a relay that holds two at a time, and recovers the data. */
static void send(size_t n, size_t k) {
    static uint8_t pieces[2 * 4352], piece[4352], vector[256];
    size_t L = 0, m = 0, rows = 0, taken = 0, size = 0;
    EXPECT(rlnc_encoder_new(data, n, block, RLNC_BLOCK_ROOM(n, k), k, &L) == RLNC_OK);
    size_t F = k + L;
    EXPECT(rlnc_decoder_new(L, k, matrix, RLNC_MATRIX_LEN(k, L), &rows, &taken) == RLNC_OK);
    for (size_t i = 0; i < k; i++) {
        for (size_t p = 0; p < 2; p++) {
            for (size_t j = 0; j < k; j++) vector[j] = (uint8_t)(j < i ? 0 : j == i ? 1 + p : i + j + p);
            EXPECT(rlnc_encoder_code_with_buf(k, L, block, k * L, vector, k, pieces + p * F, F) == RLNC_OK);
        }
        static const uint8_t mix[2] = {4, 1}; /* 4·1 + 1·2 is not 0 */
        EXPECT(rlnc_recoder_new(pieces, 2 * F, F, k, &m) == RLNC_OK && m == 2);
        EXPECT(rlnc_recoder_recode_with_buf(m, F, k, pieces, 2 * F, mix, 2, piece, F) == RLNC_OK);
        EXPECT(rlnc_decoder_decode(L, k, matrix, RLNC_MATRIX_LEN(k, L), piece, F, &rows, &taken) == RLNC_OK && rows == i + 1);
    }
    memset(back, GUARD, sizeof back);
    EXPECT(rlnc_decoder_get_decoded_data(L, k, rows, taken, matrix, RLNC_MATRIX_LEN(k, L), back, k * L, &size) == RLNC_OK);
    EXPECT(size == n && !memcmp(back, data, n) && all(back + n, sizeof back - n, GUARD));
}

static void round_trips(void) {
    fill(data, sizeof data, 5);
    send(1, 1);
    send(1, 5);
    send(4, 3);
    send(3839, 16);
    send(15359, 32);
    data[9] = M;
    send(10, 2);
}

static void largest_block(void) {
    size_t L = UNSET;
    fill(data, sizeof data, 6);
    send(1048575, 256);
    EXPECT(rlnc_encoder_new(data, 1048576, block, sizeof block, 256, &L) == RLNC_SIZE_OVER_LIMIT && L == UNSET);
}

static void limits(void) {
    size_t L = 0, rows = 0, taken = 0, m = 0;
    EXPECT(rlnc_encoder_new(data, 300, block, sizeof block, 256, &L) == RLNC_OK);
    EXPECT(rlnc_encoder_new(data, 300, block, sizeof block, 257, &L) == RLNC_SIZE_OVER_LIMIT);
    EXPECT(rlnc_encoder_without_padding(data, 4096, 1, &L) == RLNC_OK && L == 4096);
    EXPECT(rlnc_encoder_without_padding(data, 4097, 1, &L) == RLNC_SIZE_OVER_LIMIT);
    EXPECT(rlnc_decoder_new(4096, 256, matrix, sizeof matrix, &rows, &taken) == RLNC_OK);
    EXPECT(rlnc_decoder_new(4097, 256, matrix, sizeof matrix, &rows, &taken) == RLNC_SIZE_OVER_LIMIT);
    EXPECT(rlnc_decoder_new(4096, 257, matrix, sizeof matrix, &rows, &taken) == RLNC_SIZE_OVER_LIMIT);
    EXPECT(rlnc_recoder_new(data, 512, 2, 1, &m) == RLNC_OK && m == 256);
    EXPECT(rlnc_recoder_new(data, 514, 2, 1, &m) == RLNC_SIZE_OVER_LIMIT && m == 256);
    EXPECT(rlnc_decoder_new(1, 2, matrix, 6, &rows, &taken) == RLNC_OK);
    static const uint8_t nothing[3] = {0, 0, 1}, piece[3] = {1, 0, 1};
    for (int i = 0; i < 65535; i++) EXPECT(rlnc_decoder_decode(1, 2, matrix, 6, nothing, 3, &rows, &taken) == RLNC_PIECE_NOT_USEFUL);
    EXPECT(rlnc_decoder_decode(1, 2, matrix, 6, piece, 3, &rows, &taken) == RLNC_TOO_MANY_TAKEN && rows == 0 && taken == 65535);
}

void test_sizes(void) {
    test("null slices", null_slices);
    test("round trips", round_trips);
    test("largest block", largest_block);
    test("limits", limits);
}
