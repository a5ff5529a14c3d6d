#ifndef STDINT_H
#define STDINT_H
typedef unsigned char uint8_t;
#define SIZE_MAX 18446744073709551615ul
#endif
