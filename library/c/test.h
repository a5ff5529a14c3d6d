/* What the tests of the entries share: a test is ok where everything that it expects holds. */
#ifndef TEST_H
#define TEST_H

#include "../../include/rlnc.h"

enum { M = RLNC_BOUNDARY_MARKER, GUARD = 0xa5, UNSET = 77 };

#define EXPECT(fact) expect((fact), __FILE__, __LINE__, #fact)

void expect(int held, const char *file, int line, const char *what);

/* Bytes that are not all alike. */
void fill(uint8_t *bytes, size_t n, size_t seed);

int all(const uint8_t *bytes, size_t n, uint8_t byte);

/* Each runs its tests by `test`. */
void test(const char *name, void (*run)(void));
void test_rows(void);
void test_coding(void);
void test_decoding(void);
void test_formats(void);
void test_sizes(void);

#endif
