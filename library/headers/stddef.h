/* What the tests in C use of the C library, for the kit's compiler, which brings no headers: x86-64 Linux. */
#ifndef STDDEF_H
#define STDDEF_H
typedef unsigned long size_t;
#define NULL ((void *)0)
#endif
