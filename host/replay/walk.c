/* The walk: what each entry did, worked out from the file and the marks. A mark is never decided here, only explained. */
#include "walk.h"

#include "words.h"

/* One core as it stands. own and cached are the indexes as its own load and its latest foreign load gave them. */
struct mover {
  size_t batch;
  enum deed next;
  uint32_t own, cached, moved;
  struct stores stores; /* of its own index */
  struct known known;
};

struct slot {
  uint8_t byte;
  uint32_t entry;
};

/* The machine as it stands, and what its report would count. */
struct machine {
  const struct parts *parts;
  const struct answer *answer;
  struct mover cores[CORES];
  struct slot slots[FERRULIQUE_MOST_SLOTS];
  const uint8_t *data; /* the first byte of the push batch under way */
  uint32_t halted;
  uint32_t performed, refused, loads, bytes[CORES], failed[CORES], shortfall[CORES];
};

static const struct store *newest(const struct stores *stores) { return &stores->list[stores->count - 1]; }

static uint32_t occupancy(const struct machine *m) {
  uint32_t back = newest(&m->cores[PRODUCER].stores)->value, front = newest(&m->cores[CONSUMER].stores)->value;
  return (back + m->parts->modulus - front) % m->parts->modulus;
}

/* Room by the cached index: free slots for the producer, bytes to read for the consumer. */
static uint32_t room(const struct machine *m, enum core core) {
  const struct mover *c = &m->cores[core];
  uint32_t lead = core == PRODUCER ? m->parts->size : 0;
  return (c->cached + lead + m->parts->modulus - c->own) % m->parts->modulus;
}

/* To the core's next batch. A push batch's bytes are used up, stored or not. */
static void next_batch(struct machine *m, const struct step *s) {
  struct mover *c = &m->cores[s->core];
  if (s->core == PRODUCER) m->data += s->size;
  c->batch++;
  c->next = OWN_LOAD;
  c->moved = 0;
}

static int own_load(struct machine *m, struct step *s) {
  struct mover *c = &m->cores[s->core];
  c->own = s->value = newest(&c->stores)->value;
  s->from = newest(&c->stores)->entry;
  s->cached = c->cached;
  s->room = room(m, s->core);
  c->next = s->size == 0 ? INDEX_STORE : s->room < s->size ? FOREIGN_LOAD : DATA_ACCESS;
  return s->mark == FERRULIQUE_OWN_LOADED;
}

/* The store that an age below their count names. */
static const struct store *store_of(const struct stores *stores, uint8_t age) { return &stores->list[stores->count - 1 - age]; }

/* A failed batch: the room that its foreign load left it must be below its size, and by how much is its shortfall. */
static int failed_batch(struct machine *m, struct step *s) {
  if (s->room >= s->size) return 0;
  s->shortfall = s->size - s->room;
  m->failed[s->core]++;
  if (s->shortfall > m->shortfall[s->core]) m->shortfall[s->core] = s->shortfall;
  next_batch(m, s);
  return 1;
}

static int foreign_load(struct machine *m, struct step *s, uint32_t entry) {
  struct mover *c = &m->cores[s->core];
  const struct stores *stores = &m->cores[other_core(s->core)].stores;
  if (s->age >= stores->count) return 0;
  const struct store *read = store_of(stores, s->age);
  if (hiding(read, &c->known).rule != NO_RULE) return 0;
  s->stores = (uint32_t)stores->count;
  s->from = read->entry;
  c->cached = s->cached = s->value = read->value;
  s->room = room(m, s->core);
  note_read(&c->known, entry, read, is_strong(order_of_load(s->core), m->parts->orders),
            is_strong(order_of_store(other_core(s->core)), m->parts->orders));
  if (s->mark == FERRULIQUE_BATCH_FAILED) return failed_batch(m, s);
  c->next = DATA_ACCESS;
  return s->mark == FERRULIQUE_FOREIGN_LOADED && s->room >= s->size;
}

static int data_access(struct machine *m, struct step *s, uint32_t entry) {
  struct mover *c = &m->cores[s->core];
  struct slot *slot = &m->slots[s->slot];
  if (s->mark == FERRULIQUE_RACED) {
    m->halted = entry;
    s->partner = ferrulique_number(m->answer->report, FERRULIQUE_RACE_PARTNER);
    return s->partner < entry && entry == ferrulique_number(m->answer->report, FERRULIQUE_RACE_ENTRY);
  }
  if (s->core == PRODUCER) {
    slot->byte = m->data[c->moved];
    slot->entry = entry;
    s->value = slot->byte;
  } else {
    s->value = m->answer->out[m->loads++];
    s->from = slot->entry;
  }
  c->moved++;
  if (c->moved == s->size) c->next = INDEX_STORE;
  return s->mark == (s->core == PRODUCER ? FERRULIQUE_DATA_STORED : FERRULIQUE_DATA_LOADED) && s->value == slot->byte;
}

static int index_store(struct machine *m, struct step *s, uint32_t entry) {
  struct mover *c = &m->cores[s->core];
  s->value = (c->own + s->size) % m->parts->modulus;
  c->stores.list[c->stores.count++] = (struct store){entry, s->value};
  m->bytes[s->core] += s->size;
  next_batch(m, s);
  return s->mark == FERRULIQUE_INDEX_STORED;
}

/* A performed entry: does the mark belong to what the core does next? Only a foreign load has an age. */
static int performed(struct machine *m, struct step *s, uint32_t entry) {
  m->performed++;
  if (m->halted != 0 || (s->age != 0 && s->deed != FOREIGN_LOAD)) return 0;
  switch (s->deed) {
    case OWN_LOAD: return own_load(m, s);
    case FOREIGN_LOAD: return foreign_load(m, s, entry);
    case DATA_ACCESS: return data_access(m, s, entry);
    case INDEX_STORE: return index_store(m, s, entry);
    case NO_DEED: break;
  }
  return 0;
}

/* A refused foreign load: the age reaches too far back, or names a store that a later one hides. */
static int refused_load(const struct machine *m, struct step *s) {
  const struct stores *stores = &m->cores[other_core(s->core)].stores;
  s->stores = (uint32_t)stores->count;
  if (s->age >= stores->count) return s->mark == FERRULIQUE_PAST_INITIAL;
  const struct store *named = store_of(stores, s->age);
  s->from = named->entry;
  s->value = named->value;
  s->hidden = hiding(named, &m->cores[s->core].known);
  return s->hidden.rule != NO_RULE && s->mark == FERRULIQUE_STORE_HIDDEN;
}

/* A refused entry: does its reason hold? The reasons are tried in their order. */
static int refused(struct machine *m, struct step *s) {
  m->refused++;
  s->halted = m->halted;
  if (s->core >= CORES) return s->mark == FERRULIQUE_NO_SUCH_CORE;
  if (m->halted != 0) return s->mark == FERRULIQUE_HALTED;
  if (s->deed == NO_DEED) return s->mark == FERRULIQUE_NO_BATCH_LEFT;
  if (s->deed != FOREIGN_LOAD) return s->age != 0 && s->mark == FERRULIQUE_NO_AGE_HERE;
  return refused_load(m, s);
}

/* What the core stands before. */
static void stand(const struct machine *m, struct step *s) {
  if (s->core >= CORES || m->cores[s->core].batch == m->parts->batches[s->core]) return;
  const struct mover *c = &m->cores[s->core];
  s->deed = c->next;
  s->batch = (uint32_t)c->batch + 1;
  s->size = m->parts->sizes[s->core][c->batch];
  if (s->deed != DATA_ACCESS) return;
  s->byte = c->moved + 1;
  s->slot = (c->own + c->moved) % m->parts->size;
}

static void start(struct machine *m) {
  m->data = m->parts->data;
  for (int core = PRODUCER; core < CORES; core++) {
    m->cores[core].next = OWN_LOAD;
    m->cores[core].stores.count = 1;
  }
}

/* Does the report count what the walk counted? */
static int report_agrees(const struct machine *m) {
  const uint8_t *r = m->answer->report;
  return ferrulique_number(r, FERRULIQUE_PERFORMED) == m->performed && ferrulique_number(r, FERRULIQUE_REFUSED) == m->refused &&
         ferrulique_number(r, FERRULIQUE_PUSHED) == m->bytes[PRODUCER] && ferrulique_number(r, FERRULIQUE_POPPED) == m->bytes[CONSUMER] &&
         ferrulique_number(r, FERRULIQUE_DATA_LOADS) == m->loads && ferrulique_number(r, FERRULIQUE_OCCUPANCY) == occupancy(m) &&
         ferrulique_number(r, FERRULIQUE_FAILED_PUSHES) == m->failed[PRODUCER] &&
         ferrulique_number(r, FERRULIQUE_FAILED_POPS) == m->failed[CONSUMER] && ferrulique_number(r, FERRULIQUE_RACE_ENTRY) == m->halted &&
         ferrulique_number(r, FERRULIQUE_PUSH_SHORTFALL) == m->shortfall[PRODUCER] &&
         ferrulique_number(r, FERRULIQUE_POP_SHORTFALL) == m->shortfall[CONSUMER];
}

size_t walk(const struct parts *parts, const struct answer *answer, struct step *steps) {
  struct machine m = {.parts = parts, .answer = answer};
  start(&m);
  for (size_t k = 0; k < parts->entries; k++) {
    struct step *s = &steps[k];
    *s = (struct step){.core = parts->schedule[2 * k], .age = parts->schedule[2 * k + 1], .mark = answer->marks[k]};
    stand(&m, s);
    int explained = s->mark <= FERRULIQUE_RACED ? performed(&m, s, (uint32_t)k + 1) : refused(&m, s);
    if (!explained) return k + 1;
    s->occupancy = occupancy(&m);
  }
  return report_agrees(&m) ? 0 : parts->entries + 1;
}
