/* Codes four bytes in three pieces, takes the pieces back in, and prints the data. */
#include <rlnc.h>
#include <stdio.h>

enum { K = 3, N = 4 };

int main(void) {
    const uint8_t data[N] = {'a', 'b', 'c', 'd'}, vectors[K][K] = {{1, 0, 0}, {1, 1, 0}, {1, 2, 3}};
    uint8_t block[RLNC_BLOCK_ROOM(N, K)], matrix[RLNC_MATRIX_LEN(K, 2)], piece[K + 2], out[K * 2];
    size_t len = 0, rows = 0, taken = 0, n = 0;

    if (rlnc_encoder_new(data, N, block, sizeof block, K, &len) != RLNC_OK) return 1;
    if (rlnc_decoder_new(len, K, matrix, sizeof matrix, &rows, &taken) != RLNC_OK) return 1;
    for (int i = 0; i < K; i++) {
        if (rlnc_encoder_code_with_buf(K, len, block, K * len, vectors[i], K, piece, sizeof piece) != RLNC_OK) return 1;
        uint8_t answer = rlnc_decoder_decode(len, K, matrix, sizeof matrix, piece, sizeof piece, &rows, &taken);
        printf("piece %d: answer %d, rows %zu, taken %zu\n", i + 1, answer, rows, taken);
    }
    if (rlnc_decoder_get_decoded_data(len, K, rows, taken, matrix, sizeof matrix, out, sizeof out, &n) != RLNC_OK) return 1;
    printf("%.*s\n", (int)n, (const char *)out);
    return 0;
}
