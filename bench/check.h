/* The three checks that are compared; the proved one is ninhalto_check. Each fills four numbers: the refusal (0: accepted), the record told,
   the count of records, W. */
#include "../include/ninhalto.h"

/* check.c */
void c_check(const uint8_t *file, size_t size, uint64_t out[4]);

/* bench/reference: the reference in Rust */
void reference_check(const uint8_t *file, size_t size, uint64_t out[4]);
