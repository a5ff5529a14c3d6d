/* Calls the entries of the static library from C, and says for each test whether it is ok. */
#include "test.h"
#include <stdio.h>

static int missed, failed;

void expect(int held, const char *file, int line, const char *what) {
    if (!held) {
        printf("  %s:%d: %s\n", file, line, what);
        missed++;
    }
}

void fill(uint8_t *bytes, size_t n, size_t seed) {
    for (size_t i = 0; i < n; i++) bytes[i] = (uint8_t)(i * i * 7 + i * 31 + seed * 101 + 1);
}

int all(const uint8_t *bytes, size_t n, uint8_t byte) {
    for (size_t i = 0; i < n; i++)
        if (bytes[i] != byte) return 0;
    return 1;
}

void test(const char *name, void (*run)(void)) {
    missed = 0;
    run();
    printf("c: %s ... %s\n", name, missed ? "FAILED" : "ok");
    failed += missed != 0;
}

int main(void) {
    test_rows();
    test_coding();
    test_decoding();
    test_formats();
    test_sizes();
    return failed != 0;
}
