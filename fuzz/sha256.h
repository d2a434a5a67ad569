/* The plain SHA-256 of the C tests, in this program's own file. */
#ifndef FUZZ_SHA256_H
#define FUZZ_SHA256_H
#include "../tests/c_api/sha256.c"
#endif
