/* The Modbus slave of document 02 in plain C: what the proved one is measured against. Nothing here is checked but what the documents ask. */
#include "answer.h"
#include <string.h>

enum { M_BYTES = 250, COILS = 2000, D_WORDS = 8000, WORK = 7900, BUFFER = 256 };
enum { REFUSED, SILENT, REPLY };
enum { NO_EXCEPTION, UNKNOWN_FUNCTION, BAD_ADDRESS, BAD_VALUE };

/* What a byte does to the CRC. */
static const uint16_t table[256] = {
    0x0000, 0xC0C1, 0xC181, 0x0140, 0xC301, 0x03C0, 0x0280, 0xC241, 0xC601, 0x06C0, 0x0780, 0xC741, 0x0500, 0xC5C1, 0xC481, 0x0440,
    0xCC01, 0x0CC0, 0x0D80, 0xCD41, 0x0F00, 0xCFC1, 0xCE81, 0x0E40, 0x0A00, 0xCAC1, 0xCB81, 0x0B40, 0xC901, 0x09C0, 0x0880, 0xC841,
    0xD801, 0x18C0, 0x1980, 0xD941, 0x1B00, 0xDBC1, 0xDA81, 0x1A40, 0x1E00, 0xDEC1, 0xDF81, 0x1F40, 0xDD01, 0x1DC0, 0x1C80, 0xDC41,
    0x1400, 0xD4C1, 0xD581, 0x1540, 0xD701, 0x17C0, 0x1680, 0xD641, 0xD201, 0x12C0, 0x1380, 0xD341, 0x1100, 0xD1C1, 0xD081, 0x1040,
    0xF001, 0x30C0, 0x3180, 0xF141, 0x3300, 0xF3C1, 0xF281, 0x3240, 0x3600, 0xF6C1, 0xF781, 0x3740, 0xF501, 0x35C0, 0x3480, 0xF441,
    0x3C00, 0xFCC1, 0xFD81, 0x3D40, 0xFF01, 0x3FC0, 0x3E80, 0xFE41, 0xFA01, 0x3AC0, 0x3B80, 0xFB41, 0x3900, 0xF9C1, 0xF881, 0x3840,
    0x2800, 0xE8C1, 0xE981, 0x2940, 0xEB01, 0x2BC0, 0x2A80, 0xEA41, 0xEE01, 0x2EC0, 0x2F80, 0xEF41, 0x2D00, 0xEDC1, 0xEC81, 0x2C40,
    0xE401, 0x24C0, 0x2580, 0xE541, 0x2700, 0xE7C1, 0xE681, 0x2640, 0x2200, 0xE2C1, 0xE381, 0x2340, 0xE101, 0x21C0, 0x2080, 0xE041,
    0xA001, 0x60C0, 0x6180, 0xA141, 0x6300, 0xA3C1, 0xA281, 0x6240, 0x6600, 0xA6C1, 0xA781, 0x6740, 0xA501, 0x65C0, 0x6480, 0xA441,
    0x6C00, 0xACC1, 0xAD81, 0x6D40, 0xAF01, 0x6FC0, 0x6E80, 0xAE41, 0xAA01, 0x6AC0, 0x6B80, 0xAB41, 0x6900, 0xA9C1, 0xA881, 0x6840,
    0x7800, 0xB8C1, 0xB981, 0x7940, 0xBB01, 0x7BC0, 0x7A80, 0xBA41, 0xBE01, 0x7EC0, 0x7F80, 0xBF41, 0x7D00, 0xBDC1, 0xBC81, 0x7C40,
    0xB401, 0x74C0, 0x7580, 0xB541, 0x7700, 0xB7C1, 0xB681, 0x7640, 0x7200, 0xB2C1, 0xB381, 0x7340, 0xB101, 0x71C0, 0x7080, 0xB041,
    0x5000, 0x90C1, 0x9181, 0x5140, 0x9301, 0x53C0, 0x5280, 0x9241, 0x9601, 0x56C0, 0x5780, 0x9741, 0x5500, 0x95C1, 0x9481, 0x5440,
    0x9C01, 0x5CC0, 0x5D80, 0x9D41, 0x5F00, 0x9FC1, 0x9E81, 0x5E40, 0x5A00, 0x9AC1, 0x9B81, 0x5B40, 0x9901, 0x59C0, 0x5880, 0x9841,
    0x8801, 0x48C0, 0x4980, 0x8941, 0x4B00, 0x8BC1, 0x8A81, 0x4A40, 0x4E00, 0x8EC1, 0x8F81, 0x4F40, 0x8D01, 0x4DC0, 0x4C80, 0x8C41,
    0x4400, 0x84C1, 0x8581, 0x4540, 0x8701, 0x47C0, 0x4680, 0x8641, 0x8201, 0x42C0, 0x4380, 0x8341, 0x4100, 0x81C1, 0x8081, 0x4040,
};

static uint16_t crc(const uint8_t *p, size_t n) {
    uint16_t sum = 0xFFFF;
    while (n-- > 0) sum = sum >> 8 ^ table[(sum ^ *p++) & 0xFF];
    return sum;
}

static unsigned pair(const uint8_t *p) { return p[0] << 8 | p[1]; }

/* Whether a frame of n bytes, at least four, is of a length that its function can have. */
static int length_fits(const uint8_t *f, size_t n) {
    switch (f[1]) {
    case 1: case 3: case 5: case 6: return n == 8;
    case 15: case 16: return n >= 9 && n == 9u + f[6];
    default: return n <= 256;
    }
}

static int coils_inside(unsigned start, unsigned n) { return start + n <= COILS ? NO_EXCEPTION : BAD_ADDRESS; }

static int written_inside(unsigned start, unsigned n) { return start + n <= WORK ? NO_EXCEPTION : BAD_ADDRESS; }

/* A frame under eight bytes is of an unknown function, and has no quantity. */
static int exception(const uint8_t *f, size_t size) {
    if (size < 8) return UNKNOWN_FUNCTION;
    unsigned start = pair(f + 2), n = pair(f + 4);
    switch (f[1]) {
    case 1: return n < 1 || n > 2000 ? BAD_VALUE : coils_inside(start, n);
    case 3: return n < 1 || n > 125 ? BAD_VALUE : start + n <= D_WORDS ? NO_EXCEPTION : BAD_ADDRESS;
    case 5: return n != 0 && n != 0xFF00 ? BAD_VALUE : coils_inside(start, 1);
    case 6: return written_inside(start, 1);
    case 15: return n < 1 || n > 1968 || f[6] != (n + 7) / 8 ? BAD_VALUE : coils_inside(start, n);
    case 16: return n < 1 || n > 123 || f[6] != 2 * n ? BAD_VALUE : written_inside(start, n);
    default: return UNKNOWN_FUNCTION;
    }
}

static void read_coils(const uint8_t *m, unsigned start, unsigned n, uint8_t *to) {
    const uint8_t *from = m + start / 8;
    unsigned shift = start % 8, bytes = (n + 7) / 8, last = (shift + n - 1) / 8;
    if (shift == 0)
        memcpy(to, from, bytes);
    else
        for (unsigned i = 0; i < bytes; i++) to[i] = from[i] >> shift | (i < last ? from[i + 1] << (8 - shift) : 0);
    if (n % 8) to[bytes - 1] &= (1u << n % 8) - 1;
}

/* `bits` holds those below the place to write, and then what is carried from byte to byte. */
static void write_coils(uint8_t *m, unsigned start, unsigned n, const uint8_t *from) {
    uint8_t *to = m + start / 8;
    unsigned shift = start % 8, bits = *to & ((1u << shift) - 1);
    for (; n >= 8; n -= 8) {
        bits |= (unsigned)*from++ << shift;
        *to++ = bits;
        bits >>= 8;
    }
    if (n > 0) bits |= (*from & ((1u << n) - 1)) << shift;
    unsigned left = shift + n;
    if (left >= 8) {
        *to++ = bits;
        bits >>= 8;
        left -= 8;
    }
    if (left > 0) *to = (*to & ~((1u << left) - 1)) | bits;
}

static void read_registers(const int16_t *d, unsigned n, uint8_t *to) {
    for (; n > 0; n--, d++) {
        *to++ = (uint16_t)*d >> 8;
        *to++ = (uint8_t)*d;
    }
}

static void write_registers(int16_t *d, unsigned n, const uint8_t *from) {
    for (; n > 0; n--, from += 2) *d++ = (int16_t)pair(from);
}

static void carry_out(const uint8_t *f, uint8_t *m, int16_t *d) {
    unsigned start = pair(f + 2), n = pair(f + 4);
    switch (f[1]) {
    case 5:
        if (n) m[start / 8] |= 1 << start % 8;
        else m[start / 8] &= ~(1 << start % 8);
        break;
    case 6: d[start] = (int16_t)n; break;
    case 15: write_coils(m, start, n, f + 7); break;
    case 16: write_registers(d + start, n, f + 7); break;
    }
}

/* The reply without its CRC; its length is given. */
static size_t reply_to(const uint8_t *f, const uint8_t *m, const int16_t *d, uint8_t *reply) {
    unsigned start = pair(f + 2), n = pair(f + 4);
    if (f[1] > 3) {
        memcpy(reply, f, 6);
        return 6;
    }
    memcpy(reply, f, 2);
    reply[2] = f[1] == 1 ? (n + 7) / 8 : 2 * n;
    if (f[1] == 1)
        read_coils(m, start, n, reply + 3);
    else
        read_registers(d + start, n, reply + 3);
    return 3u + reply[2];
}

static void tell(size_t told[3], size_t number, size_t kind, size_t length) { told[0] = number, told[1] = kind, told[2] = length; }

void c_answer(uint32_t station, const uint8_t *f, size_t size, uint8_t *m, size_t m_size, int16_t *d, size_t d_size, uint8_t *reply,
              size_t reply_size, size_t told[3]) {
    if (m_size != M_BYTES || d_size != D_WORDS) return tell(told, 9, REFUSED, 0);
    if (station < 1 || station > 247 || reply_size < BUFFER) return tell(told, 16, REFUSED, 0);
    tell(told, 0, SILENT, 0);
    /* The CRC over a frame and its own CRC is 0. */
    if (size < 4 || (f[0] != station && f[0] != 0) || !length_fits(f, size) || crc(f, size) != 0) return;
    int code = exception(f, size);
    if (code == NO_EXCEPTION) carry_out(f, m, d);
    if (f[0] == 0) return;
    size_t n = 3;
    if (code == NO_EXCEPTION)
        n = reply_to(f, m, d, reply);
    else
        reply[0] = f[0], reply[1] = f[1] | 0x80, reply[2] = code;
    uint16_t sum = crc(reply, n);
    reply[n] = (uint8_t)sum, reply[n + 1] = sum >> 8;
    tell(told, 0, REPLY, n + 2);
}
