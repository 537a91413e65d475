/* The board in plain C: the state by value into each call and out of it, and the shape checked in each call. It is compiled twice:
   as it stands release and tick have one caller each, with TWO_CALLERS two. */
#include "plain.h"

#ifdef TWO_CALLERS
#define make_calls plain_callers
#else
#define make_calls plain_board
#endif

enum { ABSENT, WAITING, MEMORY, COMPUTATION };
typedef struct { u32 tag, left; } Standing;
typedef struct { bool ever; u32 last; Standing standing; u32 worst, completed; } Job;
typedef struct { u32 holds, row; } Hand;
typedef struct { Set set; u32 clock; Hand places[MOST_PROCESSORS]; Job jobs[MOST_ROWS]; } State;
typedef struct { State state; Refusal answer; } Released;
typedef struct { Refusal refusal; u8 token; u32 completed; } Beat;
typedef struct { State state; Beat answer; } Ticked;

enum { MOST_CLOCK = 1000000000, NOBODY = MOST_PROCESSORS };

static bool job_fits(u32 clock, const Row *r, bool held, const Job *j) {
  if (j->last > clock || j->worst > clock || j->completed > clock) return 0;
  if (!j->ever && (j->standing.tag != ABSENT || j->last || j->worst || j->completed)) return 0;
  switch (j->standing.tag) {
  case MEMORY: return held && j->standing.left >= 1 && j->standing.left <= r->memory;
  case COMPUTATION: return held && j->standing.left >= 1 && j->standing.left <= r->computation;
  default: return !held;
  }
}

static bool is_zero(const Row *r, const Job *j) {
  if (r->processor || r->memory || r->computation || r->period || r->deadline) return 0;
  return !j->ever && !j->last && j->standing.tag == ABSENT && !j->worst && !j->completed;
}

static bool state_fits(const State *s) {
  u32 processors = s->set.processors, clock = s->clock, before = 0;
  usize count = s->set.count, i = 0;
  if (processors < 1 || processors > MOST_PROCESSORS || count > MOST_ROWS || clock > MOST_CLOCK) return 0;
  for (; i < count; i++) {
    const Row *r = &s->set.rows[i];
    if (row_fault(processors, before, r)) return 0;
    before = r->processor;
    const Hand *h = &s->places[r->processor];
    if (!job_fits(clock, r, h->holds && h->row == i, &s->jobs[i])) return 0;
  }
  for (; i < MOST_ROWS; i++)
    if (!is_zero(&s->set.rows[i], &s->jobs[i])) return 0;
  for (u32 p = 0; p < MOST_PROCESSORS; p++) {
    const Hand *h = &s->places[p];
    if (h->holds && (h->row >= count || s->set.rows[h->row].processor != p || p >= processors)) return 0;
  }
  return 1;
}

static Beat move(State *s) {
  Beat beat = {{0, 0, 0}, NOBODY, 0};
  u32 masks[MOST_PROCESSORS] = {0}, clock = s->clock;
  for (usize i = 0; i < s->set.count; i++)
    if (s->jobs[i].standing.tag == WAITING) masks[s->set.rows[i].processor] |= 1u << i;
  for (u32 p = 0; p < MOST_PROCESSORS; p++) {
    Hand *h = &s->places[p];
    if (!h->holds) {
      if (!masks[p]) continue;
      h->holds = 1;
      h->row = __builtin_ctz(masks[p]);
      Row *r = &s->set.rows[h->row];
      s->jobs[h->row].standing = r->memory ? (Standing){MEMORY, r->memory} : (Standing){COMPUTATION, r->computation};
    }
    u32 i = h->row;
    Job *j = &s->jobs[i];
    if (j->standing.tag == MEMORY) {
      if (beat.token != NOBODY) continue;
      beat.token = p;
      if (--j->standing.left) continue;
      u32 computation = s->set.rows[i].computation;
      if (computation) {
        j->standing = (Standing){COMPUTATION, computation};
        continue;
      }
    } else if (--j->standing.left) continue;
    u32 response = clock + 1 - j->last;
    j->standing = (Standing){ABSENT, 0};
    if (j->worst < response) j->worst = response;
    j->completed++;
    *h = (Hand){0, 0};
    beat.completed |= 1u << i;
  }
  s->clock = clock + 1;
  return beat;
}

static Ticked tick(State s) {
  Beat beat = {{0, 0, 0}, NOBODY, 0};
  if (!state_fits(&s)) beat.refusal.number = STATE;
  else if (s.clock == MOST_CLOCK) beat.refusal.number = CLOCK;
  else beat = move(&s);
  return (Ticked){s, beat};
}

static Released release(State s, usize row) {
  u8 number = 0;
  if (!state_fits(&s)) number = STATE;
  else if (row >= s.set.count) number = ROW;
  else if (s.jobs[row].ever && s.clock - s.jobs[row].last < s.set.rows[row].period) number = EARLY;
  else if (s.jobs[row].standing.tag != ABSENT) number = LIVE;
  else {
    s.jobs[row].ever = 1;
    s.jobs[row].last = s.clock;
    s.jobs[row].standing = (Standing){WAITING, 0};
  }
  return (Released){s, {number, 0, 0}};
}

/* The calls up to a number of them. */
#define CALL_UP_TO(end)                                                                                                  \
  for (; call < (end); call++) {                                                                                         \
    u32 place = round ? call % round : call;                                                                             \
    if (place < releases) {                                                                                              \
      Released r = release(s, place);                                                                                    \
      digest = mix(digest, r.answer.number);                                                                             \
      s = r.state;                                                                                                       \
    } else {                                                                                                             \
      Ticked t = tick(s);                                                                                                \
      digest = mix(mix(mix(digest, t.answer.refusal.number), t.answer.token), t.answer.completed);                       \
      s = t.state;                                                                                                       \
    }                                                                                                                    \
  }

u32 make_calls(const u8 *sheet, usize length, u32 releases, u32 round, u32 calls) {
  Reading started = read_sheet(sheet, length);
  State s = {.set = started.set};
  u32 digest = started.refusal.number, call = 0;
#ifdef TWO_CALLERS
  CALL_UP_TO(calls / 2)
#endif
  CALL_UP_TO(calls)
  digest = mix(digest, s.clock);
  for (usize i = 0; i < MOST_ROWS; i++) digest = mix(mix(mix(digest, s.jobs[i].last), s.jobs[i].worst), s.jobs[i].completed);
  return digest;
}
