/* The analysis in plain C: the same algorithm on the same numbers, in columns. It is compiled three times: as it stands, over a set by value;
   with COUNT, which counts what it does; and with NO_SET, where the rows are read straight into an array that nobody copies or
   clears, which is the fastest way that we know for small sheets. */
#include "plain.h"

enum { OWN = 32, LIMIT = 4000000 };

/* A weight, a period and a lead in each place: from 0 the rows of higher-ranked processors, from OWN the higher rows of
   the own processor. */
typedef struct {
  u32 weight[64], period[64], lead[64];
} Columns;

#if defined COUNT
#define analyse count_analyse
#elif defined NO_SET
#define analyse sharp_analyse
#else
#define analyse plain_analyse
#endif

#ifdef COUNT
u64 instances_worked, terms_worked;
#define INSTANCE instances_worked++
#define TERMS(n) terms_worked += (n)
#else
#define INSTANCE (void)0
#define TERMS(n) (void)0
#endif

static inline u64 demand(const Columns *k, usize first, usize count, u32 x) {
  u64 sum = 0;
  TERMS(count);
  for (usize j = first; j < first + count; j++) sum += (u64)((x + k->lead[j]) / k->period[j]) * k->weight[j];
  return sum;
}

/* The busy length; 0 where there is none within the limit. */
static u32 busy_length(const Columns *k, usize ranked, usize higher, const Row *r, u32 blocked) {
  u32 length = r->memory + r->computation, period = r->period;
  u64 x = 1;
  while (x <= LIMIT) {
    TERMS(1);
    u64 y = blocked + demand(k, OWN, higher, x - 1) + (u64)(((u32)x - 1) / period + 1) * length + demand(k, 0, ranked, x);
    if (y == x) return x;
    x = y;
  }
  return 0;
}

static inline u32 memory_end(const Columns *k, usize ranked, usize higher, const Row *r, u64 fixed, u32 x) {
  u64 work, y;
  for (;; x = y) {
    work = fixed + demand(k, OWN, higher, x);
    y = work + demand(k, 0, ranked, x);
    if (y == x) break;
  }
  if (r->memory == 0) return x;
  work += r->memory;
  for (x += r->memory;; x = y) {
    y = work + demand(k, 0, ranked, x);
    if (y == x) return x;
  }
}

/* The first late instance, or -1 and the largest response. */
static u32 judge(const Columns *k, usize ranked, usize higher, const Row *r, u32 blocked, u32 busy, u32 *best) {
  u32 period = r->period, n = (busy + period - 1) / period, from = 0, most = 0;
  u64 length = (u64)r->memory + r->computation;
  for (u32 q = 0; q < n; q++) {
    INSTANCE;
    u32 finish = memory_end(k, ranked, higher, r, blocked + q * length, from) + r->computation;
    u32 response = finish - q * period;
    if (response > r->deadline) return q;
    if (response > most) most = response;
    from = finish;
  }
  *best = most;
  return -1u;
}

void analyse(const u8 *sheet, usize length, u32 *out, usize places, u8 *number, usize *row, u32 *instance) {
  *row = 0, *instance = 0;
#ifdef NO_SET
  if ((*number = header_fault(sheet, length))) return;
  Row rows[MOST_ROWS];
  usize n = sheet[4];
  u32 before = 0;
  for (usize i = 0; i < n; i++) {
    u8 fault = take_row(sheet, i, before, &rows[i]);
    if (fault) { *number = fault; *row = i; return; }
    before = rows[i].processor;
  }
#else
  Reading reading = read_sheet(sheet, length);
  if ((*number = reading.refusal.number)) { *row = reading.refusal.row; return; }
  const Row *rows = reading.set.rows;
  usize n = reading.set.count;
#endif
  if (places < n) { *number = ROOM; return; }
  u32 blocked[MOST_ROWS], bounds[MOST_ROWS];
  for (usize i = n; i-- > 0;) {
    const Row *lower = &rows[i + 1];
    blocked[i] = 0;
    if (i + 1 == n || lower->processor != rows[i].processor) continue;
    u32 e = lower->memory + lower->computation;
    blocked[i] = blocked[i + 1] > e ? blocked[i + 1] : e;
  }
  Columns k;
  usize ranked = 0, pending = 0, first = 0;
  for (usize i = 0; i < n; i++) {
    const Row *r = &rows[i];
    if (i > 0 && r->processor != rows[i - 1].processor) { ranked = pending; first = i; }
    u32 busy = busy_length(&k, ranked, i - first, r, blocked[i]);
    if (busy == 0) { *number = BUSY; *row = i; return; }
    u32 late = judge(&k, ranked, i - first, r, blocked[i], busy, &bounds[i]);
    if (late != -1u) { *number = LATE; *row = i; *instance = late; return; }
    u32 e = r->memory + r->computation;
    usize own = OWN + i - first;
    k.weight[own] = e, k.period[own] = r->period, k.lead[own] = r->period;
    if (r->memory == 0) continue;
    k.weight[pending] = r->memory, k.period[pending] = r->period, k.lead[pending] = bounds[i] - e + r->period - 1;
    pending++;
  }
  for (usize i = 0; i < n; i++) out[i] = bounds[i];
}
