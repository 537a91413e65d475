/* How two sides of a job are timed and compared. */
#include "bench.h"

/* A sheet, and the calls to make on its board where the job is one of the board's. */
typedef struct { const u8 *sheet; usize length; u32 releases, round, calls; } Work;

/* Does the work so many times and answers a digest of what came out. */
typedef u32 Side(const Work *, u32 times);

typedef struct { Side *plain, *proved; } Job;

/* Whether the answers are compared and nothing is timed. */
extern bool only_check;

/* How many cases there were, and how many could not be tried or had two answers. */
extern u32 tried, failed;

void heading(const char *text);

/* Tries one case and prints its line. The times are of one of the `parts` that the work has. */
void measure(const char *name, const Job *, const Work *, u32 parts);
