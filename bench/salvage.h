/* The salvage of torn files in C. told: the refusal (0: done), the record told, the records kept, the END records added, the bytes after those kept. */
#include "../include/ninhalto.h"

void c_salvage(const uint8_t *torn, size_t size, uint8_t *out, size_t room, size_t told[5]);
