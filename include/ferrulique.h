/* Ferrulique: plays a single-producer single-consumer ring between two cores, one memory access at a time, and says where two accesses race.
 *
 * ferrulique_run plays a whole file. It is proved to give, for every file and all buffers, exactly the answer, the marks, the bytes and the
 * report that the machine's definition gives; docs/PROMISES.md says what that is. ferrulique_race only tells whether and where a file races, and
 * is proved to tell what the report would. C11 and C++11. */
#ifndef FERRULIQUE_H
#define FERRULIQUE_H

#include <stddef.h>
#include <stdint.h>

#ifdef __cplusplus
extern "C" {
#endif

/* Limits of a run file. */
#define FERRULIQUE_HEADER_BYTES 8u       /* m, M in four bytes, order bits, number of push batches, number of pop batches */
#define FERRULIQUE_MOST_FILE_BYTES 65536u
#define FERRULIQUE_MOST_SLOTS 128u       /* m is 1 to this */
#define FERRULIQUE_LEAST_MODULUS 2u      /* M is this.. */
#define FERRULIQUE_MOST_MODULUS 65536u   /* ..to this, a multiple of m and not m */
#define FERRULIQUE_MOST_ORDER_BITS 15u

/* A report has this many numbers (enum ferrulique_field names them) of four bytes each: 48 bytes. */
#define FERRULIQUE_REPORT_NUMBERS 12u
#define FERRULIQUE_REPORT_BYTES (4u * FERRULIQUE_REPORT_NUMBERS)

/* Buffers of these sizes are long enough for every file: an entry is two bytes, and there are at most 255 pops of at most 255 bytes. */
#define FERRULIQUE_MOST_ENTRIES 32764u
#define FERRULIQUE_MOST_OUT_BYTES 65025u

/* Order bits, set for strong. A clear bit means relaxed. */
enum ferrulique_order {
  FERRULIQUE_PRODUCER_ACQUIRE = 1, /* the producer's load of front is acquire */
  FERRULIQUE_PRODUCER_RELEASE = 2, /* the producer's store of back is release */
  FERRULIQUE_CONSUMER_ACQUIRE = 4, /* the consumer's load of back is acquire */
  FERRULIQUE_CONSUMER_RELEASE = 8  /* the consumer's store of front is release */
};

/* The answer: the first of these that applies, tried in this order from 1. With any but 0 no byte of any buffer was written. */
enum ferrulique_code {
  FERRULIQUE_RAN = 0,
  FERRULIQUE_FILE_SHORT = 1,        /* fewer than 8 bytes */
  FERRULIQUE_FILE_LONG = 2,         /* more than 65,536 bytes */
  FERRULIQUE_BAD_SIZE = 3,          /* m is 0 or above 128 */
  FERRULIQUE_BAD_MODULUS = 4,       /* M is below 2 or above 65,536 */
  FERRULIQUE_NOT_A_MULTIPLE = 5,    /* m does not divide M, or M is m */
  FERRULIQUE_BAD_ORDERS = 6,        /* order bits above 15 */
  FERRULIQUE_FILE_ENDS = 7,         /* the file ends before its last batch size or its last byte to push */
  FERRULIQUE_ODD_SCHEDULE = 8,      /* the schedule has an odd number of bytes */
  FERRULIQUE_MARKS_SHORT = 9,       /* marks has fewer bytes than the schedule has entries */
  FERRULIQUE_OUT_SHORT = 10,        /* out has fewer bytes than the pop sizes add up to */
  FERRULIQUE_REPORT_SHORT = 11      /* report has fewer than 48 bytes */
};

/* The mark of an entry. Up to 7 it was performed; from 129 on it was refused and changed nothing. */
enum ferrulique_mark {
  FERRULIQUE_OWN_LOADED = 1,
  FERRULIQUE_FOREIGN_LOADED = 2,    /* room enough */
  FERRULIQUE_BATCH_FAILED = 3,      /* a foreign load, and still no room: the core goes to its next batch */
  FERRULIQUE_DATA_STORED = 4,
  FERRULIQUE_DATA_LOADED = 5,
  FERRULIQUE_INDEX_STORED = 6,      /* the batch is completed */
  FERRULIQUE_RACED = 7,             /* the machine has halted, for good */
  FERRULIQUE_NO_SUCH_CORE = 129,
  FERRULIQUE_HALTED = 130,
  FERRULIQUE_NO_BATCH_LEFT = 131,
  FERRULIQUE_NO_AGE_HERE = 132,     /* an age that is not 0, and no foreign load */
  FERRULIQUE_PAST_INITIAL = 133,    /* the age reaches past the initial store */
  FERRULIQUE_STORE_HIDDEN = 134     /* a later store of that index happens before the load, or this core has already read one */
};

/* The numbers of a report, by their places. */
enum ferrulique_field {
  FERRULIQUE_PERFORMED,
  FERRULIQUE_REFUSED,
  FERRULIQUE_PUSHED,         /* bytes of completed pushes */
  FERRULIQUE_POPPED,         /* bytes of completed pops */
  FERRULIQUE_DATA_LOADS,     /* bytes written to out */
  FERRULIQUE_OCCUPANCY,      /* (newest back - newest front) mod M */
  FERRULIQUE_FAILED_PUSHES,
  FERRULIQUE_FAILED_POPS,
  FERRULIQUE_RACE_ENTRY,     /* counted from 1; 0 where nothing raced */
  FERRULIQUE_RACE_PARTNER,   /* the latest entry that it races with, or 0 */
  /* A failed batch's shortfall is its size less the room that its foreign load left it. The largest of each kind, 0 where none failed: */
  FERRULIQUE_PUSH_SHORTFALL,
  FERRULIQUE_POP_SHORTFALL
};

/* One number of a report: four bytes, little-endian, whatever this machine's order is. */
static inline uint32_t ferrulique_number(const uint8_t *report, enum ferrulique_field field) {
  const uint8_t *p = report + 4u * (unsigned)field;
  return (uint32_t)p[0] | (uint32_t)p[1] << 8 | (uint32_t)p[2] << 16 | (uint32_t)p[3] << 24;
}

/* An answer of 64 bits carries a ferrulique_code in its low 8 bits and what there is to tell beside it above; with any code but
 * FERRULIQUE_RAN all of that is 0. */
static inline uint32_t ferrulique_code(uint64_t answer) { return (uint32_t)(answer & 0xFFu); }

/* The number above the code, of an answer that carries one number. */
static inline uint64_t ferrulique_count(uint64_t answer) { return answer >> 8; }

/* The two numbers above the code, of an answer of ferrulique_race: the racing entry, counted from 1, in bits 8 to 31; the latest entry that it
 * races with in bits 32 to 55. Both are 0 where nothing raced. */
static inline uint32_t ferrulique_race_entry(uint64_t answer) { return (uint32_t)(answer >> 8 & 0xFFFFFFu); }
static inline uint32_t ferrulique_race_partner(uint64_t answer) { return (uint32_t)(answer >> 32 & 0xFFFFFFu); }

/* Plays the run file and answers a ferrulique_code.
 *
 * For FERRULIQUE_RAN: marks gets one byte for each entry of the schedule; out the bytes that data loads read, FERRULIQUE_DATA_LOADS of them;
 * report its 48 bytes. Bytes of the three buffers past these stay as they were. For any other code all of them do.
 *
 * The caller sees to this, and to nothing else: each pointer is readable (the file) or writable (the rest) for the length beside it, and the
 * three buffers lie apart from one another and from the file. No value of any byte and no length is refused in any way but by a code. A null
 * pointer is fine where its length is 0. The function keeps nothing between calls, allocates nothing, calls nothing but memcpy and memset, and
 * may run in several threads at once on buffers of their own. It always returns: time grows with the entries and, at a foreign load, with the
 * stores of the index, at most 256. Stack: 5,352 bytes measured on x86-64, whatever the file.
 *
 *   static uint8_t marks[FERRULIQUE_MOST_ENTRIES], out[FERRULIQUE_MOST_OUT_BYTES], report[FERRULIQUE_REPORT_BYTES];
 *   if (ferrulique_run(file, n, marks, sizeof marks, out, sizeof out, report, sizeof report) == FERRULIQUE_RAN) {
 *     uint32_t race = ferrulique_number(report, FERRULIQUE_RACE_ENTRY);
 *     if (race != 0) printf("entry %u races\n", (unsigned)race);
 *   } */
uint32_t ferrulique_run(const uint8_t *file, size_t file_len, uint8_t *marks, size_t marks_len, uint8_t *out, size_t out_len, uint8_t *report,
                        size_t report_len);

/* Plays the run file and answers only whether and where it races: no buffer is lent, and no mark, byte or report is written.
 *
 * Its code is one of 0 to 8, FERRULIQUE_RAN to FERRULIQUE_ODD_SCHEDULE: the code that ferrulique_run gives to the file with buffers long enough.
 * For FERRULIQUE_RAN, ferrulique_race_entry and ferrulique_race_partner are the report's FERRULIQUE_RACE_ENTRY and FERRULIQUE_RACE_PARTNER. Bits
 * 56 to 63 are 0. The file is asked for what ferrulique_run asks of it: it is readable for its length, and may be a null pointer where that is 0.
 * It is not written to. What stands above of threads, allocation, time and what is called holds here too. Stack: 5,272 bytes measured on
 * x86-64, whatever the file.
 *
 *   uint64_t answer = ferrulique_race(file, n);
 *   if (ferrulique_code(answer) != FERRULIQUE_RAN) {
 *     printf("refused with code %u\n", (unsigned)ferrulique_code(answer));
 *   } else if (ferrulique_race_entry(answer) != 0) {
 *     printf("entry %u races with entry %u\n", (unsigned)ferrulique_race_entry(answer), (unsigned)ferrulique_race_partner(answer));
 *   } */
uint64_t ferrulique_race(const uint8_t *file, size_t file_len);

#ifdef __cplusplus
}
#endif

#endif
