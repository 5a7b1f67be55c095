/* Ninhalto for C: check, scan, use map, move, exchange, jobs and salvage of programs of the EC20 series, answers to Modbus requests, and the clashes
   of declared blocks.

   The library is crates/host/out/libhost.a, which `rt lib` in crates/host proves and writes, for x86-64. Each function is proved to do, for every
   input, what its definition says (crates/host/src, crates/ec20/specs, crates/modbus/specs, crates/units/specs, crates/jobs/specs,
   crates/torn/specs); the words here say the same in short.

   Of every function:
   - It asks nothing of file, request, list, texts, tables and numbers: any bytes, any lengths, any values. What does not fit is refused.
   - A pointer and the size_t after it are one lent part: so many bytes (of d and tv: so many words; of list: so many declarations; of report: so
     many pairs; of lines: so many lines) can be read there, and written if it is not const. No pointer is NULL, also where the length is 0. A
     word stands at an even address, a declaration, a pair and a line at a multiple of 4, a size_t at a multiple of 8.
   - Lent parts that are written overlap no other. Parts that are only read, as x and file or both texts, may be one.
   - It writes what is named as written, and nothing else. It does not allocate, keeps nothing between calls, has no global state, calls memcpy
     and memset and nothing else, and always ends. It may be called from any thread, over different lent parts at the same time.
   - Stack of the x86-64 code, measured (robustness/stack.c), in bytes: the check 12,240, a scan 62,048, the map 17,072, the move 12,416, the
     exchange 56, a job 12,512, a salvage 1,128, the answer 296, the clashes 1,176, the longer of two texts 264. It is not proved. Only the check's
     walk over loops calls itself, for each loop in a loop, at most 8 deep; a file of the deepest such calls was measured.

   number: 0, or the number of a refusal. at: the record told, counted from 0; 0 where there is none.

   No.  When                                                                                         Record told
     1  the file is under 8 bytes, or its edition, count, distance or comment length is wrong;
        of a torn file: more than 2,000 records, an added END included                               0
     2  an unknown instruction, or a spare byte that is not 0                                        it
     3  an operand that the instruction does not allow, or an unused one that is not zero            it
     4  a target that meets WORK, D7900 to D7999                                                     it
     5  the rung rule is broken                                                                      the first
     6  NEXT with no FOR open, a ninth open FOR, END not last; the last not END, or a FOR open there the first
     7  a label set twice, or a CJ whose label does not stand where it must                          the first
     8  more than 10,000,000 steps                                                                   0
     9  a table of a wrong size, a leftover out of its range, or elapsed above 10,000                0
    10  the block is empty or not inside D; of a list: over 64 declarations, or such a block         0
    11  the pool's start is above its end, or its end above 8000                                     0
    12  the block meets WORK                                                                         0
    13  an operand's words are partly in the block                                                   the first
    14  no place; of a job also: two of its blocks and places meet                                   0
    16  a station not from 1 to 247, a reply buffer under 256 bytes, a report under 2,016 pairs, a
        job of over 64 lines, or an output that the salvaged file does not fit                       0

   The check gives 1 to 8, the scan 1 to 9, the map 1 to 8, the move 1 to 8 and 10 to 14, the exchange 9, 10, 12 and 14, the answer
   9 and 16, the clashes 10 and 16, and of two texts none; the first that holds in this order (2, 3 and 4: of the first record that breaks one of
   them). A job gives 16, then 1 to 9, then 10 to 14 of its first line that has one, then 14 for lines that meet. A salvage gives 1,
   then 16. A refused call leaves file, tables, reply buffer, report and output as they were. */
#ifndef NINHALTO_H
#define NINHALTO_H

#include <stddef.h>
#include <stdint.h>

#ifdef __cplusplus
extern "C" {
#endif

/* The sizes of the tables: of bits in bytes, eight bits to a byte, the lowest number in the lowest bit; of D and T in words; of the leftovers in
   bytes, one to a leftover. */
enum {
    NINHALTO_X = 32,
    NINHALTO_Y = 32,
    NINHALTO_M = 250,
    NINHALTO_SM = 32,
    NINHALTO_T = 32,
    NINHALTO_D = 8000,
    NINHALTO_TV = 256,
    NINHALTO_REST = 2,
    NINHALTO_MAP = 1000
};

/* The least size of a reply buffer, in bytes. */
enum { NINHALTO_REPLY = 256 };

/* What the answer tells as kind. */
enum { NINHALTO_ANSWER_REFUSED, NINHALTO_ANSWER_SILENT, NINHALTO_ANSWER_REPLY };

/* The most declarations of a list, and the least size of a report, in pairs: a list of so many has at most so many clashes. */
enum { NINHALTO_DECLARATIONS = 64, NINHALTO_PAIRS = 2016 };

/* A unit's declaration of a block: `length` D words from `start` on. 20 bytes. */
struct ninhalto_declaration {
    uint32_t unit;
    uint8_t name[8];
    uint32_t start;
    uint32_t length;
};

/* What is told of two texts as text: whose first line it is. */
enum { NINHALTO_TEXT_NONE, NINHALTO_TEXT_FIRST, NINHALTO_TEXT_SECOND };

/* What the scan tells, by place in told. */
enum {
    NINHALTO_TOLD_NUMBER,   /* the refusal, or 0 */
    NINHALTO_TOLD_AT,       /* its record */
    NINHALTO_TOLD_KIND,     /* 0 refused, 1 ended at END, 2 watchdog: the budget was used and a record is due */
    NINHALTO_TOLD_STEPS,    /* the steps made, at most the budget */
    NINHALTO_TOLD_STOP,     /* the record stopped at: END, or the one due */
    NINHALTO_TOLD_ERROR,    /* the first error: 1 zero divisor, 2 value out of range; 0 none */
    NINHALTO_TOLD_ERROR_AT, /* its record */
    NINHALTO_TOLD
};

/* The check of a file. Writes number and at; records, the count of records, and steps, the most steps that a scan can make: both 0 where the
   file is refused. */
void ninhalto_check(const uint8_t *file, size_t file_size, size_t *number, size_t *at, size_t *records, size_t *steps);

/* A scan of a file over the lent memory: elapsed milliseconds since the scan before, 0 to 10,000, and a budget of steps. Writes told and, unless
   refused, the tables: they are as after exactly the steps told. x is only read.
   T0 to T209 count 100 ms, T210 to T251 count 10 ms, T252 to T255 count 1 ms. rest holds the leftovers, the milliseconds that are no whole unit yet:
   first that of the 10 ms timers, 0 to 9, then that of the 100 ms timers, 0 to 99. A host begins with 0 and 0, and lends at each scan what the one
   before left. The whole units of leftover and elapsed together go to every timer of that base, at each TON that is executed with flow; what is left
   is set before record 0, with any budget, and with no timer running too. */
void ninhalto_scan(const uint8_t *file, size_t file_size, const uint8_t *x, size_t x_size, uint8_t *y, size_t y_size, uint8_t *m, size_t m_size,
                   uint8_t *sm, size_t sm_size, uint8_t *t, size_t t_size, int16_t *d, size_t d_size, int16_t *tv, size_t tv_size, uint8_t *rest,
                   size_t rest_size, uint32_t elapsed, uint32_t budget, size_t told[NINHALTO_TOLD]);

/* The same with a budget of 200,000 steps. It never tells a watchdog of a file of which ninhalto_check tells 200,000 steps or fewer. A host that wants
   more names its budget: ninhalto_scan. */
void ninhalto_scan_unbudgeted(const uint8_t *file, size_t file_size, const uint8_t *x, size_t x_size, uint8_t *y, size_t y_size, uint8_t *m,
                              size_t m_size, uint8_t *sm, size_t sm_size, uint8_t *t, size_t t_size, int16_t *d, size_t d_size, int16_t *tv,
                              size_t tv_size, uint8_t *rest, size_t rest_size, uint32_t elapsed, size_t told[NINHALTO_TOLD]);

/* The use map of a file. Writes number and at, and all 1,000 bytes of each map, one bit for each D word, packed as the tables of bits are: set in
   read exactly if some source holds the word, in written exactly if some target does. Both are all 0 where the file is refused. */
void ninhalto_map(const uint8_t *file, size_t file_size, size_t *number, size_t *at, uint8_t read[NINHALTO_MAP], uint8_t written[NINHALTO_MAP]);

/* The move of the block of `length` D words from `start` on to the lowest free place in the pool, the words from `from` to `end`, end excluded.
   Writes number and at; place, where the place begins, 0 if refused; and, unless refused, in the file each D number that lies in the block,
   raised or lowered by the distance. The file keeps its length and every other byte. */
void ninhalto_move(uint8_t *file, size_t file_size, uint32_t start, uint32_t length, uint32_t from, uint32_t end, size_t *number, size_t *at,
                   size_t *place);

/* The exchange: the words of the block and those of the place, as long as the block, change places in the D table. Writes number and at and, unless
   refused, these words. It does not read a file: that the place is free is the move's to say. */
void ninhalto_exchange(int16_t *d, size_t d_size, uint32_t start, uint32_t length, uint32_t place, size_t *number, size_t *at);

/* The most lines of a job. */
enum { NINHALTO_LINES = 64 };

/* A job: several blocks, each moved to a place that is named for it. A line is three numbers: where the block starts, how long it is, where its place
   starts. Each line is judged as ninhalto_move judges it on the file as it is lent, with a pool of just the place; then 14 is given if a block or
   place of one line and a block or place of another have a word in common. d: the D table of 8,000 words, or of none if there is no table to
   exchange; another size is 9.
   Writes number and at; line and other: with 10 to 14 both are the line that is refused, counted from 0, but where two lines meet, line is the first
   that meets one ahead of it and other the first of those; 0 with any other number. Unless refused, it writes what ninhalto_move and ninhalto_exchange
   would for each line, one after the other. The lines in any order give the same file and the same table, and a job with start and place of each
   line exchanged, over what this one left, restores both. */
void ninhalto_job(uint8_t *file, size_t file_size, int16_t *d, size_t d_size, const uint32_t (*lines)[3], size_t lines_size, size_t *number, size_t *at,
                  size_t *line, size_t *other);

/* The most bytes that a salvaged file has: 2,000 records and the trailer. */
enum { NINHALTO_SALVAGED = 40008 };

/* The salvage of a torn file: one of edition 1 without comment whose trailer is torn off or scrambled, of any length. Its whole records from the start are
   kept, up to the first that 2 or 3 would refuse, and no further than the first END; if there is none, END is added. Writes number and at; kept, the
   records of the torn file that are kept; added, 1 if END was added, else 0; rest, the bytes of the torn file after those kept: all three 0 where it
   is refused; and, unless refused, the file as the first 20 * (kept + added) + 8 bytes of out, whose other bytes stay as they were. kept may
   be 0: the file is then END alone. The file passes 1, 2 and 3; ninhalto_check may still refuse it by another number. A file that is accepted and has
   no comment comes out as it is, with rest 8. */
void ninhalto_salvage(const uint8_t *torn, size_t torn_size, uint8_t *out, size_t out_size, size_t *number, size_t *at, size_t *kept, size_t *added,
                      size_t *rest);

/* The answer to a Modbus RTU request, over the lent M and D: coil n is Mn, register n is Dn. station: the own one, 1 to 247. frame: the bytes of one
   request, CRC included. The functions are 1, 3, 5, 6, 15 and 16, with the quantities of the public protocol.
   Writes number; kind; length, the bytes of the reply, 0 if there is none; these bytes at the start of the reply buffer, whose other bytes stay as they
   were; and what the request writes in m or d.
   - NINHALTO_ANSWER_SILENT: nothing is to be sent. The request is for another station, of a length that its function cannot have, or its CRC is wrong:
     nothing is changed. Or it is for all stations, 0: then it is done if it is a write that would be no exception, and else changes nothing.
   - NINHALTO_ANSWER_REPLY: the reply is to be sent. It may be an exception, the function with its highest bit on and a code, of which the first that
     holds is told, and then nothing is changed: 01 another function; 03 a quantity out of bounds, a byte count that is not the quantity's, or a
     value of function 5 other than 0000 and FF00; 02 coils or registers outside M0 to M1999 or D0 to D7999, or a write that meets WORK. */
void ninhalto_answer(uint32_t station, const uint8_t *frame, size_t frame_size, uint8_t *m, size_t m_size, int16_t *d, size_t d_size, uint8_t *reply,
                     size_t reply_size, size_t *number, size_t *kind, size_t *length);

/* The clashes of a list of declarations. Two of them clash if the name, all eight bytes, is the same and start or length differs, or the names differ and
   the words overlap; the unit plays no part. Writes number; count, how many clashes there are, 0 if refused; and, unless refused, every clash
   once as the first pairs of the report: its lower place, then its higher, counted from 0; in order of the lower place, then of the higher. The
   other pairs stay as they were. */
void ninhalto_clashes(const struct ninhalto_declaration *list, size_t list_size, uint32_t (*report)[2], size_t report_size, size_t *number,
                      size_t *count);

/* Of two declaration texts, the first line of the one that holds the longer block, the first text's if equal. A declaration text begins with
   eight name bytes, none of them a line feed; a blank; a start; a blank; a length, both from 0 to 8000, in decimal with no leading zero; and a line
   feed, which ends its first line; more may follow. Writes text, and size, the bytes of that line, its line feed included: both 0 where either
   text is misspelt. */
void ninhalto_longer(const uint8_t *one, size_t one_size, const uint8_t *two, size_t two_size, size_t *text, size_t *size);

#ifdef __cplusplus
}
#endif

#endif
