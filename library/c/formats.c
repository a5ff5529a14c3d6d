/* The piece stream and the stored form. */
#include "test.h"
#include <string.h>

static void streams(void) {
    uint8_t piece[512], out[514], kind = UNSET;
    static const struct {
        uint8_t kind;
        size_t k, L;
    } kinds[3] = {{RLNC_KIND_3_BY_2, 3, 2}, {RLNC_KIND_16_BY_240, 16, 240}, {RLNC_KIND_32_BY_480, 32, 480}};
    fill(piece, 512, 4);
    for (int i = 0; i < 3; i++) {
        size_t k = 0, L = 0, F = kinds[i].k + kinds[i].L;
        EXPECT(rlnc_stream_sizes(kinds[i].kind, &k, &L) == RLNC_OK && k == kinds[i].k && L == kinds[i].L);
        memset(out, GUARD, 514);
        EXPECT(rlnc_stream_write(kinds[i].kind, piece, F - 1, out, F) == RLNC_INVALID_PIECE_LENGTH);
        EXPECT(rlnc_stream_write(kinds[i].kind, piece, F, out, F) == RLNC_INVALID_OUTPUT_BUFFER);
        EXPECT(rlnc_stream_write(0x14, piece, F, out, F + 1) == RLNC_UNKNOWN_KIND);
        EXPECT(all(out, 514, GUARD));
        EXPECT(rlnc_stream_write(kinds[i].kind, piece, F, out, F + 1) == RLNC_OK);
        EXPECT(out[0] == kinds[i].kind && !memcmp(out + 1, piece, F) && out[F + 1] == GUARD);
        EXPECT(rlnc_stream_read(0, out, F + 1, &kind) == RLNC_OK && kind == kinds[i].kind);
        EXPECT(rlnc_stream_read(kind, out, F + 2, &kind) == RLNC_OK && kind == kinds[i].kind);
        EXPECT(rlnc_stream_read(kind, out, F, &kind) == RLNC_CUT_RECORD && kind == kinds[i].kind);
        EXPECT(rlnc_stream_read_kind(0, kinds[i].kind, F, &kind) == RLNC_OK && kind == kinds[i].kind);
        EXPECT(rlnc_stream_read_kind(0, kinds[i].kind, F - 1, &kind) == RLNC_CUT_RECORD);
    }
}

static void streams_refuse(void) {
    uint8_t bytes[6] = {0x12, 0, 0, 0, 0, 0}, kind = UNSET;
    size_t k = UNSET, L = UNSET;
    EXPECT(rlnc_stream_read(0x14, bytes, 0, &kind) == RLNC_BAD_STATE);
    EXPECT(rlnc_stream_read(RLNC_KIND_END, bytes, 6, &kind) == RLNC_BAD_STATE);
    EXPECT(rlnc_stream_read(0, bytes, 0, &kind) == RLNC_CUT_RECORD);
    EXPECT(rlnc_stream_read(RLNC_KIND_3_BY_2, bytes, 1, &kind) == RLNC_MIXED_KINDS);
    EXPECT(rlnc_stream_read_kind(RLNC_KIND_3_BY_2, 0x14, 0, &kind) == RLNC_UNKNOWN_KIND);
    EXPECT(rlnc_stream_read_kind(9, RLNC_KIND_END, 0, &kind) == RLNC_BAD_STATE);
    EXPECT(rlnc_stream_sizes(RLNC_KIND_END, &k, &L) == RLNC_UNKNOWN_KIND && k == UNSET && L == UNSET);
    EXPECT(kind == UNSET);
    bytes[0] = RLNC_KIND_END;
    EXPECT(rlnc_stream_read(RLNC_KIND_32_BY_480, bytes, 1, &kind) == RLNC_OK && kind == RLNC_KIND_END);
}

static void stored(void) {
    static const uint8_t piece[5] = {0, 0, 1, M, 0}, form[19] = {RLNC_STORED_3_BY_2, 1, 0, 1, 0, 0, 1, M, 0};
    uint8_t matrix[20], out[20], bad[19];
    size_t rows = UNSET, taken = UNSET, n = UNSET, L = UNSET, k = UNSET;
    EXPECT(rlnc_decoder_new(2, 3, matrix, 15, &rows, &taken) == RLNC_OK);
    EXPECT(rlnc_decoder_decode(2, 3, matrix, 15, piece, 5, &rows, &taken) == RLNC_OK);
    memset(out, GUARD, 20);
    EXPECT(rlnc_stored_save(2, 3, 4, taken, matrix, 15, out, 0, &n) == RLNC_BAD_STATE);
    EXPECT(rlnc_stored_save(2, 2, rows, taken, matrix, 15, out, 0, &n) == RLNC_UNKNOWN_KIND);
    EXPECT(rlnc_stored_save(2, 3, rows, taken, matrix, 15, out, 18, &n) == RLNC_NO_ROOM);
    EXPECT(n == UNSET && all(out, 20, GUARD));
    EXPECT(rlnc_stored_save(2, 3, rows, taken, matrix, 15, out, 20, &n) == RLNC_OK && n == 19);
    EXPECT(!memcmp(out, form, 19) && out[19] == GUARD);
    rows = taken = UNSET;
    memset(matrix, GUARD, 20);
    for (int at = 0; at < 4; at++) {
        static const uint8_t places[4] = {1, 1, 3, 18}, bytes[4] = {4, 2, 0, 1};
        memcpy(bad, form, 19);
        bad[places[at]] = bytes[at];
        EXPECT(rlnc_stored_load(bad, 19, matrix, 20, &L, &k, &rows, &taken) == RLNC_BAD_STATE);
    }
    bad[0] = 0x24;
    EXPECT(rlnc_stored_load(bad, 0, matrix, 20, &L, &k, &rows, &taken) == RLNC_CUT_RECORD);
    EXPECT(rlnc_stored_load(bad, 1, matrix, 20, &L, &k, &rows, &taken) == RLNC_UNKNOWN_KIND);
    EXPECT(rlnc_stored_load(form, 18, matrix, 0, &L, &k, &rows, &taken) == RLNC_CUT_RECORD);
    EXPECT(rlnc_stored_load(form, 19, matrix, 14, &L, &k, &rows, &taken) == RLNC_NO_ROOM);
    EXPECT(L == UNSET && k == UNSET && rows == UNSET && taken == UNSET && all(matrix, 20, GUARD));
    EXPECT(rlnc_stored_load(form, 19, matrix, 20, &L, &k, &rows, &taken) == RLNC_OK);
    EXPECT(L == 2 && k == 3 && rows == 1 && taken == 1 && !memcmp(matrix, form + 4, 15) && all(matrix + 15, 5, GUARD));
}

void test_formats(void) {
    test("streams", streams);
    test("streams refuse", streams_refuse);
    test("stored", stored);
}
