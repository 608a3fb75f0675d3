/* Run files to time: a small model of the two cores finds out whose turn it is, so that every entry of a lawful schedule is performed. */
#include "cases.h"

#include <string.h>

#include "made.h"

enum { RING = 128, MOST_BATCHES = 255, STRONG = FERRULIQUE_MOST_ORDER_BITS, BACK_RELAXED = STRONG - FERRULIQUE_PRODUCER_RELEASE };

/* A schedule entry. */
static void entry(struct run *r, uint8_t core, uint8_t age) {
  r->file[r->length++] = core;
  r->file[r->length++] = age;
}

static void entries(struct run *r, size_t n, uint8_t core, uint8_t age) {
  while (n-- > 0) entry(r, core, age);
}

static void fill(struct run *r, uint8_t core, uint8_t age) {
  entries(r, (FERRULIQUE_MOST_FILE_BYTES - r->length) / 2, core, age);
}

/* Everything before the schedule: m = 128, M = 65,536, batches of one size on each side. */
static void begin(struct run *r, uint8_t bits, uint8_t pushes, uint8_t push_size, uint8_t pops, uint8_t pop_size) {
  static const uint8_t ring[] = {RING, 0, 0, 1, 0};
  size_t sum = (size_t)pushes * push_size;
  memcpy(r->file, ring, sizeof ring);
  r->file[5] = bits;
  r->file[6] = pushes;
  r->file[7] = pops;
  r->length = FERRULIQUE_HEADER_BYTES;
  memset(r->file + r->length, push_size, pushes);
  r->length += pushes;
  memset(r->file + r->length, pop_size, pops);
  r->length += pops;
  for (size_t i = 0; i < sum; i++) r->file[r->length + i] = (uint8_t)(i * 7 + 1);
  r->length += sum;
}

/* A core of the model: bytes stored, the foreign count it has cached, its place in the batch. Counts never wrap. */
struct side {
  uint32_t own, cached, lead, size, batches, done;
  int loaded;
};

static int no_room(const struct side *s, uint32_t foreign) { return foreign + s->lead - s->own < s->size; }

/* Would the core's next batch fail, or has it none left? */
static int stuck(const struct side *s, const struct side *other) {
  return s->batches == 0 || (!s->loaded && no_room(s, other->own));
}

/* The core's next entry. */
static void move(struct run *r, struct side *s, const struct side *other, uint8_t core) {
  entry(r, core, 0);
  if (!s->loaded) {
    s->loaded = 1;
    s->done = 0;
  } else if (no_room(s, s->cached)) {
    s->cached = other->own;
  } else if (s->done < s->size) {
    s->done++;
  } else {
    s->own += s->size;
    s->batches--;
    s->loaded = 0;
  }
}

/* A schedule that goes on with one core for `most` batches, or until it is stuck, and then with the other; `most` 0 is one entry. */
static void schedule(struct run *r, uint32_t batches, uint32_t size, uint32_t most, size_t limit) {
  struct side sides[2] = {{.lead = RING, .size = size, .batches = batches}, {.size = size, .batches = batches}};
  size_t left = limit;
  for (uint8_t core = 0; left > 0 && !(stuck(&sides[0], &sides[1]) && stuck(&sides[1], &sides[0])); core ^= 1) {
    uint32_t before = sides[core].batches;
    while (left > 0 && !stuck(&sides[core], &sides[core ^ 1])) {
      move(r, &sides[core], &sides[core ^ 1], core);
      left--;
      if (before - sides[core].batches >= most) break;
    }
  }
}

/* 255 batches of 48 bytes on each side are the most that fit beside their schedule. */
enum { LONG_SIZE = 48 };

void in_turns(struct run *r, size_t limit) {
  begin(r, STRONG, MOST_BATCHES, LONG_SIZE, MOST_BATCHES, LONG_SIZE);
  schedule(r, MOST_BATCHES, LONG_SIZE, 1, limit);
}

static void one_after_the_other(struct run *r) { in_turns(r, FERRULIQUE_MOST_ENTRIES); }

static void alternating(struct run *r) {
  begin(r, STRONG, MOST_BATCHES, LONG_SIZE, MOST_BATCHES, LONG_SIZE);
  schedule(r, MOST_BATCHES, LONG_SIZE, 0, FERRULIQUE_MOST_ENTRIES);
}

/* An even number, since two batches that lie together share 40 bytes between them. */
enum { MIXED = 254 };

/* Any core, now and then one that is none; mostly age 0; batches of 0 to 40 bytes, of which some fail. */
static void random_mix(struct run *r) {
  uint64_t seed = 0x9E3779B97F4A7C15u;
  begin(r, STRONG, MIXED, 20, MIXED, 20);
  for (size_t i = 0; i < 2 * MIXED; i += 2) {
    uint8_t more = (uint8_t)random_below(&seed, 21);
    r->file[FERRULIQUE_HEADER_BYTES + i] = (uint8_t)(20 - more);
    r->file[FERRULIQUE_HEADER_BYTES + i + 1] = (uint8_t)(20 + more);
  }
  for (size_t i = 0; i < 9000; i++) {
    uint8_t core = random_below(&seed, 50) == 0 ? 2 : (uint8_t)random_below(&seed, 2);
    entry(r, core, random_below(&seed, 12) == 0 ? (uint8_t)random_below(&seed, 4) : 0);
  }
}

static void no_such_core(struct run *r) {
  begin(r, STRONG, 1, 1, 1, 1);
  fill(r, 2, 0);
}

/* A byte is pushed and popped with back's store relaxed: the pop races. */
static void raced(struct run *r) {
  begin(r, BACK_RELAXED, 1, 1, 1, 1);
  entries(r, 3, 0, 0);
  entries(r, 3, 1, 0);
}

/* Every entry after the race is refused. */
static void halted(struct run *r) {
  raced(r);
  fill(r, 0, 0);
}

static void no_batch(struct run *r) {
  begin(r, STRONG, 0, 0, 0, 0);
  fill(r, 0, 0);
}

static void no_age_here(struct run *r) {
  begin(r, STRONG, 1, 1, 1, 1);
  fill(r, 0, 1);
}

static void past_initial(struct run *r) {
  begin(r, STRONG, 1, 1, 1, 1);
  entry(r, 1, 0);
  fill(r, 1, 255);
}

/* 255 stores of back, by empty pushes, and pops of one byte that find nothing. */
static void stores(struct run *r) {
  begin(r, STRONG, MOST_BATCHES, 0, MOST_BATCHES, 1);
  entries(r, 2 * MOST_BATCHES, 0, 0);
}

/* The consumer has read the newest store of 256; all others are hidden from it. */
static void store_hidden(struct run *r) {
  stores(r);
  entries(r, 3, 1, 0);
  fill(r, 1, 200);
}

/* Every pop loads its own index and then the store of back that lies this many places before the newest, and fails. */
static void reloads(struct run *r, uint8_t age) {
  stores(r);
  for (size_t i = 0; i < MOST_BATCHES; i++) {
    entry(r, 1, 0);
    entry(r, 1, age);
  }
}

static void reloads_0(struct run *r) { reloads(r, 0); }
static void reloads_1(struct run *r) { reloads(r, 1); }
static void reloads_250(struct run *r) { reloads(r, 250); }

/* R1: one byte through a ring of one slot. */
static void seven(struct run *r) {
  static const uint8_t r1[] = {1, 2, 0, 0, 0, STRONG, 1, 1, 1, 1, 65};
  memcpy(r->file, r1, sizeof r1);
  r->length = sizeof r1;
  entries(r, 3, 0, 0);
  entries(r, 4, 1, 0);
}

static void empty(struct run *r) { begin(r, STRONG, 0, 0, 0, 0); }

const struct bench_case bench_cases[] = {
    {"turns", "all entries performed, one core after the other", one_after_the_other, 0},
    {"alternating", "all entries performed, cores alternating", alternating, 0},
    {"mix", "random mix", random_mix, 0},
    {"refused-129", "refused: no such core (129)", no_such_core, 0},
    {"refused-130", "refused: halted (130)", halted, 0},
    {"refused-131", "refused: no batch left (131)", no_batch, 0},
    {"refused-132", "refused: an age where none may be (132)", no_age_here, 0},
    {"refused-133", "refused: age past the initial store (133)", past_initial, 0},
    {"refused-134", "refused: hidden, 256 stores in the list (134)", store_hidden, 0},
    {"reload-0", "failing pops, 256 stores, age 0", reloads_0, stores},
    {"reload-1", "failing pops, 256 stores, age 1", reloads_1, stores},
    {"reload-250", "failing pops, 256 stores, age 250", reloads_250, stores},
    {"seven", "a run of 7 entries (R1)", seven, 0},
    {"empty", "an empty run", empty, 0},
};

const size_t bench_case_count = sizeof bench_cases / sizeof bench_cases[0];

const struct bench_case bench_races[] = {
    {"race-turns", "no race, all entries performed, one core after the other", one_after_the_other, 0},
    {"race-mix", "no race, random mix", random_mix, 0},
    {"race-first", "a race at entry 6, every entry after it refused", halted, 0},
    {"race-six", "a race at entry 6, the last", raced, 0},
};

const size_t bench_race_count = sizeof bench_races / sizeof bench_races[0];

size_t entries_in(const struct run *r) {
  size_t at = FERRULIQUE_HEADER_BYTES + r->file[6] + r->file[7];
  for (size_t i = 0; i < r->file[6]; i++) at += r->file[FERRULIQUE_HEADER_BYTES + i];
  return (r->length - at) / 2;
}
