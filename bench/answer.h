/* The three slaves that are compared; the proved one is ninhalto_answer. Each fills the refusal (0: none), the kind of answer (0 refused,
   1 silent, 2 reply) and the bytes of the reply. */
#include "../include/ninhalto.h"

/* answer.c */
void c_answer(uint32_t station, const uint8_t *frame, size_t size, uint8_t *m, size_t m_size, int16_t *d, size_t d_size, uint8_t *reply,
              size_t reply_size, size_t told[3]);

/* bench/reference: the reference in Rust */
void reference_answer(uint32_t station, const uint8_t *frame, size_t size, uint8_t *m, size_t m_size, int16_t *d, size_t d_size, uint8_t *reply,
                      size_t reply_size, size_t told[3]);
