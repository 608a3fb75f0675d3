/* The machine in plain C, written for speed from the description of the run file: same codes, marks, bytes and report as ferrulique_run, and the same
 * answer as ferrulique_race.
 *
 * Happens-before is kept as one number for each core. With two cores, an action of the other core happens before core c's next action exactly
 * when its entry is at most `known`, the largest entry of a release store that c has read by an acquire load.
 * No division after the checks: m divides M, so a core's slot goes round with its own index, and a batch that fits is below M. */
#include "plain.h"

enum { SLOTS = FERRULIQUE_MOST_SLOTS, STORES = 256, PRODUCER = 0, CONSUMER = 1 };

/* What both questions call for every entry is compiled into each of them: the one about races moves no byte. */
#define INTO_BOTH static inline __attribute__((always_inline))

enum phase { OWN_LOAD, FOREIGN_LOAD, DATA_ACCESS, INDEX_STORE };

/* Where the parts of a lawful file begin. */
struct layout {
  const uint8_t *pushes, *pops, *bytes, *schedule;
  size_t entries;
};

/* A core, with the list of its own index's stores: their values and their entries, oldest first; the initial store is 0 at entry 0. `read` is the
 * latest place of the other's list that it has read. */
struct core {
  const uint8_t *size_at, *sizes_end;
  enum phase phase;
  uint32_t lead, size, left, own, slot, cached, known, read, done, failed, shortfall, stores;
  int syncs;
  uint16_t value[STORES], entry[STORES];
};

struct machine {
  uint32_t m, modulus, race, partner;
  const uint8_t *push;
  uint8_t *out;
  struct core core[2];
  uint16_t stored[SLOTS], loaded[SLOTS];
  uint8_t byte[SLOTS];
};

static size_t sum(const uint8_t *p, size_t n) {
  size_t s = 0;
  for (size_t i = 0; i < n; i++) s += p[i];
  return s;
}

static uint32_t modulus_of(const uint8_t *file) {
  return (uint32_t)file[1] | (uint32_t)file[2] << 8 | (uint32_t)file[3] << 16 | (uint32_t)file[4] << 24;
}

/* Codes 1 to 8, and where the parts are. */
static uint32_t read_layout(struct layout *l, const uint8_t *file, size_t n) {
  if (n < FERRULIQUE_HEADER_BYTES) return FERRULIQUE_FILE_SHORT;
  if (n > FERRULIQUE_MOST_FILE_BYTES) return FERRULIQUE_FILE_LONG;
  uint32_t m = file[0], modulus = modulus_of(file);
  if (m == 0 || m > FERRULIQUE_MOST_SLOTS) return FERRULIQUE_BAD_SIZE;
  if (modulus < FERRULIQUE_LEAST_MODULUS || modulus > FERRULIQUE_MOST_MODULUS) return FERRULIQUE_BAD_MODULUS;
  if (modulus % m != 0 || modulus == m) return FERRULIQUE_NOT_A_MULTIPLE;
  if (file[5] > FERRULIQUE_MOST_ORDER_BITS) return FERRULIQUE_BAD_ORDERS;
  size_t pushes = file[6], pops = file[7], sizes_end = FERRULIQUE_HEADER_BYTES + pushes + pops;
  if (n < sizes_end) return FERRULIQUE_FILE_ENDS;
  size_t at = sizes_end + sum(file + FERRULIQUE_HEADER_BYTES, pushes);
  if (n < at) return FERRULIQUE_FILE_ENDS;
  if ((n - at) % 2 != 0) return FERRULIQUE_ODD_SCHEDULE;
  l->pushes = file + FERRULIQUE_HEADER_BYTES;
  l->pops = l->pushes + pushes;
  l->bytes = file + sizes_end;
  l->schedule = file + at;
  l->entries = (n - at) / 2;
  return FERRULIQUE_RAN;
}

static void fresh_core(struct core *c, const uint8_t *sizes, size_t batches, uint32_t lead, int syncs) {
  c->size_at = sizes;
  c->sizes_end = sizes + batches;
  c->phase = OWN_LOAD;
  c->size = c->left = c->own = c->slot = c->cached = c->known = c->read = c->done = c->failed = c->shortfall = 0;
  c->lead = lead;
  c->syncs = syncs;
  c->stores = 1;
  c->value[0] = c->entry[0] = 0;
}

/* Does a load order: is the store a release store, and the load an acquire load? */
static int both(uint32_t bits, uint32_t release, uint32_t acquire) { return (bits & release) != 0 && (bits & acquire) != 0; }

static void fresh(struct machine *s, const struct layout *l, const uint8_t *file, uint8_t *out) {
  int front_syncs = both(file[5], FERRULIQUE_CONSUMER_RELEASE, FERRULIQUE_PRODUCER_ACQUIRE);
  int back_syncs = both(file[5], FERRULIQUE_PRODUCER_RELEASE, FERRULIQUE_CONSUMER_ACQUIRE);
  s->m = file[0];
  s->modulus = modulus_of(file);
  s->race = s->partner = 0;
  s->push = l->bytes;
  s->out = out;
  for (uint32_t i = 0; i < s->m; i++) s->stored[i] = s->loaded[i] = s->byte[i] = 0;
  fresh_core(&s->core[PRODUCER], l->pushes, file[6], s->m, front_syncs);
  fresh_core(&s->core[CONSUMER], l->pops, file[7], 0, back_syncs);
}

/* By how much room, (cached + lead - own) mod M, is below the batch size. Each of the three is below M, and so the sum is off by M at most once. */
INTO_BOTH uint32_t shortfall(const struct machine *s, const struct core *c) {
  int32_t room = (int32_t)(c->cached + c->lead) - (int32_t)c->own, modulus = (int32_t)s->modulus;
  if (room < 0) room += modulus;
  if (room >= modulus) room -= modulus;
  return (uint32_t)room < c->size ? c->size - (uint32_t)room : 0;
}

INTO_BOTH uint8_t own_load(struct machine *s, struct core *c) {
  c->size = c->left = *c->size_at;
  c->phase = shortfall(s, c) != 0 ? FOREIGN_LOAD : c->size != 0 ? DATA_ACCESS : INDEX_STORE;
  return FERRULIQUE_OWN_LOADED;
}

/* A store is hidden where this core has read a later one. Axiom 2 asks no more: a later store happens before the load only where this core has
 * acquired, and so read, that one or one after it. */
INTO_BOTH uint8_t foreign_load(struct machine *s, uint32_t who, uint32_t age) {
  struct core *c = &s->core[who];
  const struct core *other = &s->core[1 - who];
  if (age >= other->stores) return FERRULIQUE_PAST_INITIAL;
  uint32_t place = other->stores - 1 - age;
  if (place < c->read) return FERRULIQUE_STORE_HIDDEN;
  c->read = place;
  c->cached = other->value[place];
  if (c->syncs) c->known = other->entry[place];
  uint32_t missing = shortfall(s, c);
  if (missing == 0) {
    c->phase = DATA_ACCESS;
    return FERRULIQUE_FOREIGN_LOADED;
  }
  if (who == PRODUCER) s->push += c->size;
  c->size_at++;
  c->failed++;
  if (missing > c->shortfall) c->shortfall = missing;
  c->phase = OWN_LOAD;
  return FERRULIQUE_BATCH_FAILED;
}

INTO_BOTH void byte_moved(const struct machine *s, struct core *c) {
  if (++c->slot == s->m) c->slot = 0;
  if (--c->left == 0) c->phase = INDEX_STORE;
}

INTO_BOTH uint8_t raced(struct machine *s, uint32_t entry, uint32_t partner) {
  s->race = entry;
  s->partner = partner;
  return FERRULIQUE_RACED;
}

/* `bytes` says whether bytes are moved, or only the accesses looked at. */
INTO_BOTH uint8_t data_access(struct machine *s, uint32_t who, uint32_t entry, int bytes) {
  struct core *c = &s->core[who];
  uint32_t k = c->slot;
  if (who == PRODUCER) {
    if (s->loaded[k] > c->known) return raced(s, entry, s->loaded[k]);
    if (bytes) s->byte[k] = *s->push++;
    s->stored[k] = (uint16_t)entry;
    byte_moved(s, c);
    return FERRULIQUE_DATA_STORED;
  }
  if (s->stored[k] > c->known) return raced(s, entry, s->stored[k]);
  if (bytes) *s->out++ = s->byte[k];
  s->loaded[k] = (uint16_t)entry;
  byte_moved(s, c);
  return FERRULIQUE_DATA_LOADED;
}

INTO_BOTH uint8_t index_store(const struct machine *s, struct core *c, uint32_t entry) {
  c->own += c->size;
  if (c->own >= s->modulus) c->own -= s->modulus;
  c->value[c->stores] = (uint16_t)c->own;
  c->entry[c->stores++] = (uint16_t)entry;
  c->done += c->size;
  c->size_at++;
  c->phase = OWN_LOAD;
  return FERRULIQUE_INDEX_STORED;
}

/* One entry while the machine runs: its mark. */
INTO_BOTH uint8_t step(struct machine *s, uint32_t who, uint32_t age, uint32_t entry, int bytes) {
  if (who > 1) return FERRULIQUE_NO_SUCH_CORE;
  struct core *c = &s->core[who];
  if (c->size_at == c->sizes_end) return FERRULIQUE_NO_BATCH_LEFT;
  if (c->phase == FOREIGN_LOAD) return foreign_load(s, who, age);
  if (age != 0) return FERRULIQUE_NO_AGE_HERE;
  if (c->phase == DATA_ACCESS) return data_access(s, who, entry, bytes);
  if (c->phase == OWN_LOAD) return own_load(s, c);
  return index_store(s, c, entry);
}

/* Every entry's mark. Answers how many were performed. */
static uint32_t play(struct machine *s, const struct layout *l, uint8_t *marks) {
  uint32_t performed = 0, n = (uint32_t)l->entries, i = 0;
  const uint8_t *at = l->schedule;
  for (; i < n && s->race == 0; i++, at += 2) {
    uint8_t mark = step(s, at[0], at[1], i + 1, 1);
    marks[i] = mark;
    performed += mark <= FERRULIQUE_RACED;
  }
  for (; i < n; i++, at += 2) marks[i] = at[0] > 1 ? FERRULIQUE_NO_SUCH_CORE : FERRULIQUE_HALTED;
  return performed;
}

static void put(uint8_t *report, enum ferrulique_field field, uint32_t x) {
  for (unsigned b = 0; b < 4; b++) report[4u * (unsigned)field + b] = (uint8_t)(x >> 8 * b);
}

static void put_report(uint8_t *report, const struct machine *s, uint32_t performed, size_t entries, size_t loads) {
  const struct core *p = &s->core[PRODUCER], *c = &s->core[CONSUMER];
  put(report, FERRULIQUE_PERFORMED, performed);
  put(report, FERRULIQUE_REFUSED, (uint32_t)entries - performed);
  put(report, FERRULIQUE_PUSHED, p->done);
  put(report, FERRULIQUE_POPPED, c->done);
  put(report, FERRULIQUE_DATA_LOADS, (uint32_t)loads);
  put(report, FERRULIQUE_OCCUPANCY, p->own >= c->own ? p->own - c->own : p->own + s->modulus - c->own);
  put(report, FERRULIQUE_FAILED_PUSHES, p->failed);
  put(report, FERRULIQUE_FAILED_POPS, c->failed);
  put(report, FERRULIQUE_RACE_ENTRY, s->race);
  put(report, FERRULIQUE_RACE_PARTNER, s->partner);
  put(report, FERRULIQUE_PUSH_SHORTFALL, p->shortfall);
  put(report, FERRULIQUE_POP_SHORTFALL, c->shortfall);
}

uint32_t plain_run(const uint8_t *file, size_t file_len, uint8_t *marks, size_t marks_len, uint8_t *out, size_t out_len, uint8_t *report,
                   size_t report_len) {
  struct layout l;
  uint32_t code = read_layout(&l, file, file_len);
  if (code != FERRULIQUE_RAN) return code;
  if (marks_len < l.entries) return FERRULIQUE_MARKS_SHORT;
  if (out_len < sum(l.pops, file[7])) return FERRULIQUE_OUT_SHORT;
  if (report_len < FERRULIQUE_REPORT_BYTES) return FERRULIQUE_REPORT_SHORT;
  struct machine s;
  fresh(&s, &l, file, out);
  uint32_t performed = play(&s, &l, marks);
  put_report(report, &s, performed, l.entries, (size_t)(s.out - out));
  return FERRULIQUE_RAN;
}

uint64_t plain_race(const uint8_t *file, size_t file_len) {
  struct layout l;
  uint32_t code = read_layout(&l, file, file_len);
  if (code != FERRULIQUE_RAN) return code;
  struct machine s;
  fresh(&s, &l, file, NULL);
  const uint8_t *at = l.schedule;
  for (uint32_t i = 0; i < l.entries && s.race == 0; i++, at += 2) step(&s, at[0], at[1], i + 1, 0);
  return (uint64_t)s.race << 8 | (uint64_t)s.partner << 32;
}
