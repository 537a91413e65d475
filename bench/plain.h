/* What the jobs in plain C share: a sheet's set, laid out as in Rattle, and its reading. */
#include "bench.h"

enum { MOST_PROCESSORS = 8, MOST_ROWS = 32, MOST_TICKS = 1000000 };
enum { VERSION_READ = 1, HEADER_BYTES = 5, RECORD_BYTES = 18, PART_BYTES = 17 };

enum { CUT = 1, VERSION, LENGTH, COUNTS, RECORD, PROCESSOR, PERIOD, DEADLINE, PHASES, BUSY, LATE, ROOM, STATE, ROW, EARLY, LIVE, CLOCK };

typedef struct { u8 processor; u32 memory, computation, period, deadline; } Row;
typedef struct { u8 processors; usize count; Row rows[MOST_ROWS]; } Set;
typedef struct { u8 number; usize row; u32 instance; } Refusal;
typedef struct { Refusal refusal; Set set; } Reading;

Reading read_sheet(const u8 *sheet, usize length);

/* What is wrong with a sheet's header. */
static inline u8 header_fault(const u8 *sheet, usize length) {
  if (length < HEADER_BYTES) return CUT;
  if (sheet[0] != VERSION_READ) return VERSION;
  usize stated = (usize)sheet[1] << 8 | sheet[2], count = sheet[4];
  if (stated != length || stated != HEADER_BYTES + RECORD_BYTES * count) return LENGTH;
  if (sheet[3] < 1 || sheet[3] > MOST_PROCESSORS || count > MOST_ROWS) return COUNTS;
  return 0;
}

/* What is wrong with a row on so many processors, after a row on the processor `before`. */
static inline u8 row_fault(u32 processors, u32 before, const Row *r) {
  if (r->processor >= processors || r->processor < before) return PROCESSOR;
  if (r->period < 1 || r->period > MOST_TICKS) return PERIOD;
  if (r->deadline < 1 || r->deadline > r->period) return DEADLINE;
  if (r->memory > MOST_TICKS || r->computation > MOST_TICKS || !(r->memory || r->computation)) return PHASES;
  return 0;
}

static inline u32 word(const u8 *b) { return (u32)b[0] << 24 | (u32)b[1] << 16 | (u32)b[2] << 8 | b[3]; }

/* Takes row i of a sheet whose header is whole, and answers what is wrong with it. */
static inline u8 take_row(const u8 *sheet, usize i, u32 before, Row *row) {
  const u8 *b = sheet + HEADER_BYTES + RECORD_BYTES * i;
  if (b[0] != PART_BYTES) return RECORD;
  *row = (Row){b[1], word(b + 2), word(b + 6), word(b + 10), word(b + 14)};
  return row_fault(sheet[3], before, row);
}
