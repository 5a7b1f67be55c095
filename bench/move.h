/* The three moves and the three use maps that are compared; the proved ones are ninhalto_move and ninhalto_map. The move fills the refusal
   (0: moved), the record told and the place's start; the map the refusal (0: none), the record told and the two maps. */
#include "../include/ninhalto.h"

/* move.c */
void c_move(uint8_t *file, size_t size, uint32_t start, uint32_t length, uint32_t from, uint32_t end, size_t told[3]);
void c_map(const uint8_t *file, size_t size, size_t told[2], uint8_t read[1000], uint8_t written[1000]);

/* bench/reference: the reference in Rust */
void reference_move(uint8_t *file, size_t size, uint32_t start, uint32_t length, uint32_t from, uint32_t end, size_t told[3]);
void reference_map(const uint8_t *file, size_t size, size_t told[2], uint8_t read[1000], uint8_t written[1000]);
