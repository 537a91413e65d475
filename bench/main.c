/* The cases that are timed: analyses, ticks, releases and readings. `check` as the only word compares the answers alone. */
#include "timing.h"

int printf(const char *, ...);
int snprintf(char *, usize, const char *, ...);
int open(const char *, int, ...);
long read(int, void *, usize);
int close(int);
int strcmp(const char *, const char *);

enum { MOST_ROWS = 32, HEADER_BYTES = 5, RECORD_BYTES = 18, CALLS = 30000 };

static u8 sheet[65536];
static char name[80];

/* ---- sheets */

static void put_word(u8 *at, u32 x) { at[0] = x >> 24, at[1] = x >> 16, at[2] = x >> 8, at[3] = x; }

/* A row whose deadline is its period. */
static void put_row(usize i, u32 processor, u32 memory, u32 computation, u32 period) {
  u8 *at = sheet + HEADER_BYTES + RECORD_BYTES * i;
  at[0] = 17, at[1] = processor;
  put_word(at + 2, memory), put_word(at + 6, computation), put_word(at + 10, period), put_word(at + 14, period);
}

static Work with_header(u32 processors, usize count) {
  usize length = HEADER_BYTES + RECORD_BYTES * count;
  sheet[0] = 1, sheet[1] = length >> 8, sheet[2] = length, sheet[3] = processors, sheet[4] = count;
  return (Work){.sheet = sheet, .length = length};
}

/* The same row n times, shared out over eight processors, or over as many as there are rows. */
static Work equal_rows(usize n, u32 memory, u32 computation, u32 period) {
  usize processors = n < 8 ? n : 8;
  for (usize i = 0; i < n; i++) put_row(i, i * processors / n, memory, computation, period);
  return with_header(n ? processors : 1, n);
}

/* One row on each of two processors. */
static Work two_rows(u32 m, u32 c, u32 t, u32 m2, u32 c2, u32 t2) {
  put_row(0, 0, m, c, t), put_row(1, 1, m2, c2, t2);
  return with_header(2, 2);
}

/* ---- analyses */

static u32 analysed(Analysis *analyse, const Work *work, u32 times) {
  u8 number;
  usize row;
  u32 instance, bounds[MOST_ROWS] = {0}, digest = 0;
  for (u32 k = 0; k < times; k++) analyse(work->sheet, work->length, bounds, MOST_ROWS, &number, &row, &instance);
  digest = mix(mix(mix(digest, number), row), instance);
  for (usize i = 0; i < MOST_ROWS; i++) digest = mix(digest, bounds[i]);
  return digest;
}

static u32 plain_analysed(const Work *work, u32 times) { return analysed(plain_analyse, work, times); }
static u32 bench_analysed(const Work *work, u32 times) { return analysed(bench_analyse, work, times); }
static u32 sharp_analysed(const Work *work, u32 times) { return analysed(sharp_analyse, work, times); }

static const Job analysis = {plain_analysed, bench_analysed}, sharp_analysis = {sharp_analysed, bench_analysed};

static void measure_analysis(const char *what, Work work) {
  instances_worked = terms_worked = 0;
  analysed(count_analyse, &work, 1);
  snprintf(name, sizeof name, "  %s: %lu instances, %lu terms", what, instances_worked, terms_worked);
  measure(name, &analysis, &work, 1);
  measure("    beside C without a set", &sharp_analysis, &work, 1);
}

/* Periods in step with the number of rows: a quarter of the memory's time is taken. */
static void analysis_by_rows(void) {
  heading("analysis, by rows");
  for (usize n = 1; n <= MOST_ROWS; n *= 2) {
    char what[16];
    snprintf(what, sizeof what, "%lu", n);
    for (usize i = 0; i < n; i++) put_row(i, i * 8 / n, 1 + i % 3, 2, 8 * n + i);
    measure_analysis(what, with_header(8, n));
  }
}

static void analysis_of_file(const char *what, const char *path) {
  int file = open(path, 0);
  long length = file < 0 ? -1 : read(file, sheet, sizeof sheet);
  if (length < 0) {
    printf("%s can't be read\n", path);
    failed++;
    return;
  }
  close(file);
  measure_analysis(what, (Work){.sheet = sheet, .length = length});
}

/* The rows of many-instances.sheet, with longer periods in one row: its period settles how long each busy interval is. */
static void analysis_by_instances(void) {
  static const u32 periods[] = {6000, 2400, 1900, 1800};
  heading("analysis, by instances");
  for (usize k = 0; k < sizeof periods / sizeof *periods; k++) {
    put_row(0, 0, 1, 0, 2), put_row(1, 0, 1, 0, 5), put_row(2, 1, 1, 7, 28), put_row(3, 1, 2, 1, periods[k]);
    for (usize i = 4; i < 10; i++) put_row(i, i - 2, 0, 10, 38);
    measure_analysis("10 rows", with_header(8, 10));
  }
  analysis_of_file("many-instances.sheet", "bench/vectors/many-instances.sheet");
  analysis_of_file("slow-busy.sheet", "bench/vectors/slow-busy.sheet");
}

/* ---- calls on a board */

static u32 called(Calls *make, const Work *w, u32 times) {
  u32 digest = 0;
  for (u32 k = 0; k < times; k++) digest = mix(digest, make(w->sheet, w->length, w->releases, w->round, w->calls));
  return digest;
}

static u32 plain_called(const Work *work, u32 times) { return called(plain_board, work, times); }
static u32 bench_called(const Work *work, u32 times) { return called(bench_board, work, times); }
static u32 plain_called_twice(const Work *work, u32 times) { return called(plain_callers, work, times); }
static u32 bench_called_twice(const Work *work, u32 times) { return called(bench_callers, work, times); }

static const Job one_caller = {plain_called, bench_called}, two_callers = {plain_called_twice, bench_called_twice};

static void measure_calls(const Job *board, const char *what, Work work, u32 releases, u32 ticks, u32 calls) {
  work.releases = releases, work.round = releases + ticks, work.calls = calls;
  measure(what, board, &work, calls);
}

static void ticks(const char *title, const Job *board) {
  heading(title);
  measure_calls(board, "  example A, 12 to a round", two_rows(1, 1, 4, 2, 3, 12), 2, 12, CALLS);
  measure_calls(board, "  two rows, a job always in hand", two_rows(100, 100, 600, 200, 300, 600), 2, 600, CALLS);
  measure_calls(board, "  32 rows on 8 processors, all busy", equal_rows(32, 20, 130, 700), 32, 700, CALLS);
  measure_calls(board, "  idle, two rows", two_rows(1, 1, 4, 2, 3, 12), 0, 1, CALLS);
  measure_calls(board, "  idle, 32 rows on 8 processors", equal_rows(32, 20, 130, 700), 0, 1, CALLS);
}

static void ticks_by_rows(const char *title, const Job *board) {
  heading(title);
  for (usize n = 1; n <= MOST_ROWS; n *= 2) {
    snprintf(name, sizeof name, "  %lu", n);
    measure_calls(board, name, equal_rows(n, 20, 130, 700), n, 700, CALLS);
  }
}

static void ticks_by_number(void) {
  heading("calls, by their number: 8 rows, 700 ticks to a round");
  for (u32 calls = 1000; calls <= 64000; calls *= 2) {
    snprintf(name, sizeof name, "  %u", calls);
    measure_calls(&one_caller, name, equal_rows(8, 20, 130, 700), 8, 700, calls);
  }
}

static void releases(const char *title, const Job *board) {
  heading(title);
  measure_calls(board, "  two rows, all taken", equal_rows(2, 0, 1, 1), 2, 1, CALLS);
  measure_calls(board, "  32 rows on 8 processors, all taken", equal_rows(32, 0, 1, 4), 32, 4, CALLS);
  measure_calls(board, "  two rows, refused as too early", equal_rows(2, 0, 1, 1), 2, 0, CALLS);
  measure_calls(board, "  32 rows on 8 processors, refused as too early", equal_rows(32, 0, 1, 4), 32, 0, CALLS);
}

/* ---- readings */

static u32 plain_readings(const Work *work, u32 times) { return plain_read(work->sheet, work->length, times); }
static u32 bench_readings(const Work *work, u32 times) { return bench_read(work->sheet, work->length, times); }

static const Job reading = {plain_readings, bench_readings};

static void measure_reading(const char *what, Work work) { measure(what, &reading, &work, 1); }

static void readings(void) {
  heading("read, by rows");
  measure_reading("  0", equal_rows(0, 0, 0, 0));
  for (usize n = 1; n <= MOST_ROWS; n *= 2) {
    snprintf(name, sizeof name, "  %lu", n);
    measure_reading(name, equal_rows(n, 20, 130, 700));
  }
  Work refused = equal_rows(MOST_ROWS, 20, 130, 700);
  put_row(MOST_ROWS - 1, 7, 0, 0, 700);
  measure_reading("  32, the last refused", refused);
}

int main(int words, char **word) {
  only_check = words == 2 && !strcmp(word[1], "check");
  analysis_by_rows();
  analysis_by_instances();
  ticks("ticks, one caller", &one_caller);
  ticks("ticks, two callers", &two_callers);
  ticks_by_rows("ticks, by rows, all busy, one caller", &one_caller);
  ticks_by_rows("ticks, by rows, all busy, two callers", &two_callers);
  ticks_by_number();
  releases("releases, one caller", &one_caller);
  releases("releases, two callers", &two_callers);
  readings();
  printf("%sbench: %u cases, %u failed\n", only_check ? "" : "\n", tried, failed);
  return failed != 0;
}
