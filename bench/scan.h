/* The three scans that are compared, over the same file and tables; the proved one is ninhalto_scan. Each fills seven numbers: the refusal
   (0: none) and the record told; 0 refused, 1 ended, 2 watchdog; the steps, the record stopped at, the first error and its record. */
#include "../include/ninhalto.h"

/* The memory: bits packed eight to a byte, words as they are, the leftovers of the 10 ms and the 100 ms timers. */
struct memory {
    uint8_t x[32], y[32], m[250], sm[32], t[32];
    int16_t d[8000], tv[256];
    uint8_t rest[2];
};

/* scan.c: of an accepted program, with any elapsed milliseconds and leftovers */
void c_scan(const uint8_t *file, size_t size, struct memory *memory, uint32_t elapsed, uint32_t budget, size_t told[7]);

/* bench/reference: the reference in Rust; so many scans, one after the other over the same memory, which is copied in and out once */
void reference_scans(const uint8_t *file, size_t size, struct memory *memory, uint32_t elapsed, uint32_t budget, size_t times, size_t told[7]);
