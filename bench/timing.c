/* Times both sides in turn, round after round: each round gives a ratio, and the least, the middle and the most are printed. In a
   round the sides take turns too, so that what else the machine does meets both. */
#include "timing.h"

struct timespec { long s, ns; };
int clock_gettime(int, struct timespec *);
int printf(const char *, ...);

enum { PROCESS_TIME = 2, ROUNDS = 9, TURNS = 4, MOST_TIMES = 1 << 20 };

/* What one side has to run in a turn at the least for its time to mean something. */
static const double LEAST_SECONDS = 0.005;

bool only_check;
u32 tried, failed;

static double timed(Side *side, const Work *work, u32 times, u32 *digest) {
  struct timespec begun, ended;
  clock_gettime(PROCESS_TIME, &begun);
  *digest = side(work, times);
  clock_gettime(PROCESS_TIME, &ended);
  return ended.s - begun.s + (ended.ns - begun.ns) * 1e-9;
}

static u32 times_for(const Job *job, const Work *work) {
  u32 times = 1, digest;
  if (only_check) return times;
  while (times < MOST_TIMES && timed(job->plain, work, times, &digest) < LEAST_SECONDS) times *= 2;
  return times;
}

/* Keeps the values in order. */
static void insert(double *sorted, u32 count, double value) {
  for (; count > 0 && sorted[count - 1] > value; count--) sorted[count] = sorted[count - 1];
  sorted[count] = value;
}

void heading(const char *text) {
  if (only_check) return;
  printf("\n%-52s %12s %12s   ratio: least middle most\n", text, "C, us", "Rattle, us");
}

void measure(const char *name, const Job *job, const Work *work, u32 parts) {
  u32 times = times_for(job, work), rounds = only_check ? 1 : ROUNDS, turns = only_check ? 1 : TURNS;
  double ratios[ROUNDS], plain = 1e9, proved = 1e9;
  tried++;
  for (u32 round = 0; round < rounds; round++) {
    double all_c = 0, all_r = 0;
    for (u32 turn = 0; turn < turns; turn++) {
      u32 one, other;
      double c = timed(job->plain, work, times, &one), r = timed(job->proved, work, times, &other);
      if (one != other) {
        printf("%s: the answers differ\n", name);
        failed++;
        return;
      }
      all_c += c, all_r += r;
      if (c < plain) plain = c;
      if (r < proved) proved = r;
    }
    insert(ratios, round, all_r / all_c);
  }
  if (only_check) return;
  double each = 1e6 / times / parts;
  printf("%-52s %12.3f %12.3f          %5.2f  %5.2f %5.2f\n", name, plain * each, proved * each, ratios[0], ratios[ROUNDS / 2], ratios[ROUNDS - 1]);
}
