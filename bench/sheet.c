/* Reading in plain C: each record is checked and stored in turn, and the set comes back by value. */
#include "plain.h"

static Reading refused(u8 number, usize row) { return (Reading){.refusal = {number, row, 0}}; }

Reading read_sheet(const u8 *sheet, usize length) {
  u8 fault = header_fault(sheet, length);
  if (fault) return refused(fault, 0);
  usize count = sheet[4];
  Reading reading = {.set = {.processors = sheet[3], .count = count}};
  u32 before = 0;
  for (usize i = 0; i < count; i++) {
    Row row;
    fault = take_row(sheet, i, before, &row);
    if (fault) return refused(fault, i);
    reading.set.rows[i] = row;
    before = row.processor;
  }
  return reading;
}

u32 plain_read(const u8 *sheet, usize length, u32 calls) {
  Reading r = read_sheet(sheet, length);
  u32 digest = 0;
  for (u32 call = 0; call < calls; call++) {
    r = read_sheet(sheet, length);
    digest = mix(mix(mix(digest, r.refusal.number), r.refusal.row), r.refusal.instance);
    digest = mix(mix(digest, r.set.processors), r.set.count);
  }
  for (const Row *row = r.set.rows; row < r.set.rows + MOST_ROWS; row++)
    digest = mix(mix(mix(mix(mix(digest, row->processor), row->memory), row->computation), row->period), row->deadline);
  return digest;
}
