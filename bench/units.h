/* The report of clashes, and the longer of two declaration texts, in C. */
#ifndef UNITS_H
#define UNITS_H

#include "../include/ninhalto.h"

/* told: the refusal (0: none), and how many clashes there are. */
void c_clashes(const struct ninhalto_declaration *list, size_t count, uint32_t (*report)[2], size_t room, size_t told[2]);

/* told: whose first line it is (0: nothing), and how many bytes it has. */
void c_longer(const uint8_t *one, size_t one_size, const uint8_t *two, size_t two_size, size_t told[2]);

#endif
