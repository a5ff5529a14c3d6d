/* The field and the row helpers. */
#include "test.h"
#include <string.h>

static void field(void) {
    uint8_t byte = UNSET;
    EXPECT(rlnc_gf256_mul(0x57, 0x83) == 0xc1 && rlnc_gf256_mul(0x57, 0x13) == 0xfe && rlnc_gf256_mul(3, 255) == 26);
    EXPECT(!rlnc_gf256_inv(0, &byte) && byte == UNSET);
    EXPECT(!rlnc_gf256_div(9, 0, &byte) && byte == UNSET);
    EXPECT(rlnc_gf256_inv(1, &byte) && byte == 1);
    EXPECT(rlnc_gf256_inv(2, &byte) && byte == 141);
    EXPECT(rlnc_gf256_div(0, 9, &byte) && byte == 0);
    for (int a = 1; a < 256; a++) {
        EXPECT(rlnc_gf256_inv((uint8_t)a, &byte) && rlnc_gf256_mul((uint8_t)a, byte) == 1);
        EXPECT(rlnc_gf256_div(rlnc_gf256_mul((uint8_t)a, 77), (uint8_t)a, &byte) && byte == 77);
    }
}

static void row_helpers(void) {
    uint8_t a[70], b[70], both[140], out[71];
    for (int q = 0; q < 256; q++) {
        fill(a, 70, 1);
        fill(b, 70, 2);
        memcpy(both, a, 70);
        memcpy(both + 70, b, 70);
        out[70] = GUARD;
        uint8_t numbers[2] = {(uint8_t)q, 1};
        EXPECT(rlnc_combine(both, 140, numbers, 2, out, 70) == RLNC_OK && out[70] == GUARD);
        for (int i = 0; i < 70; i++) EXPECT(out[i] == (rlnc_gf256_mul((uint8_t)q, a[i]) ^ b[i]));
        EXPECT(rlnc_mul_vec_by_scalar_then_add_into_vec(b, 70, a, 70, (uint8_t)q) == RLNC_OK && !memcmp(b, out, 70));
        EXPECT(rlnc_mul_part_by_scalar_then_add_into_part(both, 140, 0, 70, 70, (uint8_t)q) == RLNC_OK);
        EXPECT(!memcmp(both, a, 70) && !memcmp(both + 70, out, 70));
        fill(b, 70, 2);
        rlnc_inplace_mul_vec_by_scalar(a, 70, (uint8_t)q);
        EXPECT(rlnc_inplace_add_vectors(a, 70, b, 70) == RLNC_OK && !memcmp(a, out, 70));
    }
}

static void row_helpers_refuse(void) {
    uint8_t row[3] = {1, 2, 3}, other[4] = {1, 1, 1, 1}, kept[3] = {1, 2, 3};
    EXPECT(rlnc_inplace_add_vectors(row, 3, other, 2) == RLNC_INVALID_PIECE_LENGTH);
    EXPECT(rlnc_mul_vec_by_scalar_then_add_into_vec(row, 3, other, 4, 0) == RLNC_INVALID_PIECE_LENGTH);
    EXPECT(rlnc_mul_part_by_scalar_then_add_into_part(row, 3, 0, 1, 2, 0) == RLNC_BAD_STATE);
    EXPECT(rlnc_mul_part_by_scalar_then_add_into_part(row, 3, SIZE_MAX, 0, 1, 5) == RLNC_BAD_STATE);
    EXPECT(rlnc_combine(other, 4, other, 2, row, 3) == RLNC_BAD_STATE);
    EXPECT(!memcmp(row, kept, 3));
}

void test_rows(void) {
    test("field", field);
    test("row helpers", row_helpers);
    test("row helpers refuse", row_helpers_refuse);
}
