/* The rows: a line for each entry of a run. */
#include "rows.h"

#include "words.h"

enum { CELL = 40 };

/* What a core does, or would do, next. */
static const char *deed_words(const struct step *s) {
  switch (s->deed) {
    case OWN_LOAD: return "load its own index";
    case FOREIGN_LOAD: return "load the other's index";
    case DATA_ACCESS: return s->core == PRODUCER ? "store a byte" : "load a byte";
    case INDEX_STORE: return "store its index";
    case NO_DEED: break;
  }
  return "none";
}

static int is_refused(const struct step *s) { return s->mark > FERRULIQUE_RACED; }

static const char *core_cell(const struct step *s, char *cell) {
  if (s->core < CORES) return core_words((enum core)s->core);
  snprintf(cell, CELL, "core %u", s->core);
  return cell;
}

/* The index or slot. An entry refused for its age names the index that it would have loaded, any other refused entry none. */
static const char *place_cell(const struct step *s, char *cell) {
  if (is_refused(s) && s->mark != FERRULIQUE_PAST_INITIAL && s->mark != FERRULIQUE_STORE_HIDDEN) return "-";
  if (s->deed == FOREIGN_LOAD) return other_index((enum core)s->core);
  if (s->deed != DATA_ACCESS) return own_index((enum core)s->core);
  snprintf(cell, CELL, "slot %u", s->slot);
  return cell;
}

/* What was loaded or stored: nothing by an entry that was refused or raced. */
static const char *value_cell(const struct step *s, char *cell) {
  if (s->mark >= FERRULIQUE_RACED) return "-";
  snprintf(cell, CELL, "%u", s->value);
  return cell;
}

/* A store of an index, by the entry that made it. */
static const char *store_words(unsigned entry, char *cell) {
  if (entry == 0) return "the initial store";
  snprintf(cell, CELL, "the store of entry %u", entry);
  return cell;
}

static void note_own_load(FILE *to, const struct parts *p, const struct step *s) {
  enum core core = (enum core)s->core;
  fprintf(to, "%s %u of %zu, %u byte%s; ", batch_words(core), s->batch, p->batches[core], s->size, plural(s->size));
  fprintf(to, "room %u with %s known as %u", s->room, other_index(core), s->cached);
  if (s->room < s->size) fprintf(to, ", so %s is loaded next", other_index(core));
}

static void note_foreign_load(FILE *to, const struct step *s) {
  char cell[CELL];
  enum core core = (enum core)s->core;
  fprintf(to, "age %u, %s; needed %u, room %u", s->age, store_words(s->from, cell), s->size, s->room);
  if (s->mark != FERRULIQUE_BATCH_FAILED) return;
  fprintf(to, ": %s %u has failed, %u byte%s short", batch_words(core), s->batch, s->shortfall, plural(s->shortfall));
  if (core == PRODUCER) fprintf(to, ", its %u byte%s passed over", s->size, plural(s->size));
}

static void note_data_access(FILE *to, const struct step *s) {
  enum core core = (enum core)s->core;
  fprintf(to, "byte %u of %u of %s %u", s->byte, s->size, batch_words(core), s->batch);
  if (s->mark == FERRULIQUE_RACED) {
    fprintf(to, ": RACE with entry %u; nothing is %s, the machine halts", s->partner, core == PRODUCER ? "stored" : "loaded");
    return;
  }
  if (core == CONSUMER) fprintf(to, ", stored by entry %u", s->from);
  if (s->value > ' ' && s->value <= '~') fprintf(to, ", '%c'", (char)s->value);
}

/* An index store completes the batch. The index has wrapped where it is below what was added. */
static void note_index_store(FILE *to, const struct parts *p, const struct step *s) {
  enum core core = (enum core)s->core;
  fprintf(to, "%s %u is completed, %u byte%s", batch_words(core), s->batch, s->size, plural(s->size));
  if (s->value < s->size) fprintf(to, "; %s has wrapped at %u", own_index(core), (unsigned)p->modulus);
}

static void note_performed(FILE *to, const struct parts *p, const struct step *s) {
  switch (s->deed) {
    case OWN_LOAD: note_own_load(to, p, s); break;
    case FOREIGN_LOAD: note_foreign_load(to, s); break;
    case DATA_ACCESS: note_data_access(to, s); break;
    case INDEX_STORE: note_index_store(to, p, s); break;
    case NO_DEED: break;
  }
}

static void note_no_batch_left(FILE *to, const struct parts *p, const struct step *s) {
  enum core core = (enum core)s->core;
  fprintf(to, "no batch left for the %s: it had %zu", core_words(core), p->batches[core]);
}

static void note_past_initial(FILE *to, const struct step *s) {
  const char *index = other_index((enum core)s->core);
  fprintf(to, "age %u reaches past the initial store: %s has %u store%s, and the initial one is age %u", s->age, index, s->stores, plural(s->stores),
          s->stores - 1);
}

static void note_hidden(FILE *to, const struct step *s) {
  char cell[CELL];
  const struct met *by = &s->hidden.by;
  fprintf(to, "age %u, %s (value %u), is hidden", s->age, store_words(s->from, cell), s->value);
  if (s->hidden.rule == AXIOM_2) {
    fprintf(to, " by the later store of entry %u, which happens before this load (acquired by entry %u)", by->store, by->load);
  } else {
    fprintf(to, ": the %s has already read the later store of entry %u, at entry %u", core_words((enum core)s->core), by->store, by->load);
  }
}

/* Why an entry was refused. */
static void note_refused(FILE *to, const struct parts *p, const struct step *s) {
  switch (s->mark) {
    case FERRULIQUE_NO_SUCH_CORE: fprintf(to, "core byte %u is no core: the producer is 0, the consumer 1", s->core); break;
    case FERRULIQUE_HALTED: fprintf(to, "the machine halted at entry %u", s->halted); break;
    case FERRULIQUE_NO_BATCH_LEFT: note_no_batch_left(to, p, s); break;
    case FERRULIQUE_NO_AGE_HERE:
      fprintf(to, "age %u, but the %s's next action is to %s, which takes no age", s->age, core_words((enum core)s->core), deed_words(s));
      break;
    case FERRULIQUE_PAST_INITIAL: note_past_initial(to, s); break;
    case FERRULIQUE_STORE_HIDDEN: note_hidden(to, s); break;
  }
}

static void print_row(FILE *to, const struct parts *p, const struct step *s, size_t number) {
  char core[CELL], place[CELL], value[CELL];
  fprintf(to, "%5zu  %-8s  %-22s  %-8s  %5s  %4u  %9u  ", number, core_cell(s, core), is_refused(s) ? "refused" : deed_words(s),
          place_cell(s, place), value_cell(s, value), s->mark, s->occupancy);
  if (is_refused(s)) {
    note_refused(to, p, s);
  } else {
    note_performed(to, p, s);
  }
  fputc('\n', to);
}

static void print_left_out(FILE *to, size_t from, size_t past) {
  if (from > past) return;
  fprintf(to, "       (left out: %zu row%s, entr%s %zu", past - from + 1, plural(past - from + 1), from == past ? "y" : "ies", from);
  if (from < past) fprintf(to, " to %zu", past);
  fprintf(to, ")\n");
}

void print_rows(FILE *to, const struct parts *parts, const struct step *steps, size_t first, size_t last) {
  size_t all = parts->entries;
  size_t from = first <= all ? first : all + 1, past = last < all ? last : all;
  fprintf(to, "%5s  %-8s  %-22s  %-8s  %5s  %4s  %9s  %s\n", "entry", "core", "action", "place", "value", "mark", "occupancy", "what it means");
  print_left_out(to, 1, from - 1);
  for (size_t k = from; k <= past; k++) print_row(to, parts, &steps[k - 1], k);
  print_left_out(to, past + 1, all);
}
