/* The decoder. */
#include "test.h"
#include <string.h>

/* P7: the count of rows is 1, 2, 1, each with Ok; two pieces more, and the data is there. */
static void falling_count(void) {
    static const uint8_t piece[5] = {0, 0, 1, M, 0}, second[5] = {0, 1, 0, 0x63, 0x64}, first[5] = {1, 0, 0, 0x61, 0x62};
    uint8_t matrix[17], data[8];
    size_t rows = UNSET, taken = UNSET, n = UNSET;
    memset(matrix, GUARD, 17);
    memset(data, GUARD, 8);
    EXPECT(rlnc_decoder_new(2, 3, matrix, 17, &rows, &taken) == RLNC_OK && rows == 0 && taken == 0);
    EXPECT(all(matrix, 15, 0) && all(matrix + 15, 2, GUARD));
    for (size_t i = 1; i <= 3; i++) {
        EXPECT(rlnc_decoder_decode(2, 3, matrix, 17, piece, 5, &rows, &taken) == RLNC_OK);
        EXPECT(rows == (i == 2 ? 2 : 1) && taken == i);
    }
    EXPECT(!memcmp(matrix, piece, 5) && all(matrix + 5, 10, 0));
    EXPECT(rlnc_decoder_get_decoded_data(2, 3, rows, taken, matrix, 17, data, 8, &n) == RLNC_NOT_ALL_PIECES_RECEIVED_YET);
    EXPECT(rlnc_decoder_decode(2, 3, matrix, 17, second, 5, &rows, &taken) == RLNC_OK && rows == 2 && taken == 4);
    EXPECT(rlnc_decoder_decode(2, 3, matrix, 17, first, 5, &rows, &taken) == RLNC_OK && rows == 3 && taken == 5);
    EXPECT(rlnc_decoder_get_decoded_data(2, 3, rows, taken, matrix, 17, data, 5, &n) == RLNC_NO_ROOM);
    EXPECT(n == UNSET && all(data, 8, GUARD));
    EXPECT(rlnc_decoder_get_decoded_data(2, 3, rows, taken, matrix, 17, data, 8, &n) == RLNC_OK);
    EXPECT(n == 4 && !memcmp(data, "abcd", 4) && all(data + 4, 4, GUARD) && all(matrix + 15, 2, GUARD));
}

/* P8 and P9: 8 changes the decoder. Refusals change nothing. */
static void taking(void) {
    static const uint8_t third[6] = {0, 0, 1, M, 0, 9}, second[5] = {0, 1, 0, 0x63, 0x64}, nothing[2] = {0, 7};
    uint8_t matrix[15], kept[15];
    size_t rows = 0, taken = 0;
    EXPECT(rlnc_decoder_new(2, 3, matrix, 15, &rows, &taken) == RLNC_OK);
    EXPECT(rlnc_decoder_decode(2, 3, matrix, 15, third, 5, &rows, &taken) == RLNC_OK);
    EXPECT(rlnc_decoder_decode(2, 3, matrix, 15, third, 5, &rows, &taken) == RLNC_OK && rows == 2);
    EXPECT(rlnc_decoder_decode(2, 3, matrix, 15, second, 5, &rows, &taken) == RLNC_PIECE_NOT_USEFUL && rows == 2 && taken == 3);
    memcpy(kept, matrix, 15);
    EXPECT(rlnc_decoder_decode(2, 3, matrix, 14, third, 5, &rows, &taken) == RLNC_BAD_STATE);
    EXPECT(rlnc_decoder_decode(2, 3, matrix, 15, third, 4, &rows, &taken) == RLNC_INVALID_PIECE_LENGTH);
    EXPECT(rlnc_decoder_decode(2, 3, matrix, 15, third, 6, &rows, &taken) == RLNC_INVALID_PIECE_LENGTH);
    EXPECT(rows == 2 && taken == 3 && !memcmp(matrix, kept, 15));
    rows = 3;
    EXPECT(rlnc_decoder_decode(2, 3, matrix, 15, third, 4, &rows, &taken) == RLNC_RECEIVED_ALL_PIECES && rows == 3 && taken == 3);
    rows = 4;
    EXPECT(rlnc_decoder_decode(2, 3, matrix, 15, third, 5, &rows, &taken) == RLNC_BAD_STATE && rows == 4 && taken == 3);
    rows = 2;
    taken = 65535;
    EXPECT(rlnc_decoder_decode(2, 3, matrix, 15, third, 5, &rows, &taken) == RLNC_TOO_MANY_TAKEN && rows == 2 && taken == 65535);
    EXPECT(!memcmp(matrix, kept, 15));
    EXPECT(rlnc_decoder_new(1, 1, matrix, 2, &rows, &taken) == RLNC_OK);
    EXPECT(rlnc_decoder_decode(1, 1, matrix, 2, nothing, 2, &rows, &taken) == RLNC_PIECE_NOT_USEFUL && rows == 0 && taken == 1);
}

static void new_decoder_refuses(void) {
    uint8_t matrix[15];
    size_t rows = UNSET, taken = UNSET;
    memset(matrix, GUARD, 15);
    EXPECT(rlnc_decoder_new(0, 0, matrix, 0, &rows, &taken) == RLNC_PIECE_LENGTH_ZERO);
    EXPECT(rlnc_decoder_new(2, 0, matrix, 0, &rows, &taken) == RLNC_PIECE_COUNT_ZERO);
    EXPECT(rlnc_decoder_new(2, 257, matrix, 0, &rows, &taken) == RLNC_SIZE_OVER_LIMIT);
    EXPECT(rlnc_decoder_new(SIZE_MAX, SIZE_MAX, matrix, 15, &rows, &taken) == RLNC_SIZE_OVER_LIMIT);
    EXPECT(rlnc_decoder_new(2, 3, matrix, 14, &rows, &taken) == RLNC_NO_ROOM);
    EXPECT(rows == UNSET && taken == UNSET && all(matrix, 15, GUARD));
}

static void completeness(void) {
    bool complete = true;
    EXPECT(rlnc_decoder_is_already_decoded(4, 3, 4, 4, &complete) == RLNC_BAD_STATE && complete);
    EXPECT(rlnc_decoder_is_already_decoded(4, 3, 2, 5, &complete) == RLNC_OK && !complete);
    EXPECT(rlnc_decoder_is_already_decoded(4, 3, 0, 0, &complete) == RLNC_OK && !complete);
    EXPECT(rlnc_decoder_is_already_decoded(4, 3, 2, 1, &complete) == RLNC_BAD_STATE && !complete);
    EXPECT(rlnc_decoder_is_already_decoded(4, 3, 3, 5, &complete) == RLNC_OK && complete);
}

/* P13, a piece of one block byte after the other. */
static void padding(void) {
    static const struct {
        uint8_t block[5];
        size_t len, n;
    } cases[5] = {{{M, 0}, 2, 0}, {{5, M, 0}, 3, 1}, {{5, M, M, 0}, 4, 2}, {{5, 5}, 2, 0}, {{5, M, 5}, 3, 0}};
    for (int i = 0; i < 5; i++) {
        uint8_t matrix[5], data[4] = {GUARD, GUARD, GUARD, GUARD};
        size_t n = UNSET, len = cases[i].len;
        matrix[0] = 1;
        memcpy(matrix + 1, cases[i].block, len);
        uint8_t answer = rlnc_decoder_get_decoded_data(len, 1, 1, 1, matrix, 1 + len, data, 4, &n);
        if (cases[i].n == 0)
            EXPECT(answer == RLNC_INVALID_DECODED_DATA_FORMAT && n == UNSET && all(data, 4, GUARD));
        else
            EXPECT(answer == RLNC_OK && n == cases[i].n && !memcmp(data, cases[i].block, n) && all(data + n, 4 - n, GUARD));
    }
}

void test_decoding(void) {
    test("falling count", falling_count);
    test("taking", taking);
    test("new decoder refuses", new_decoder_refuses);
    test("completeness", completeness);
    test("padding", padding);
}
