/* What the files of the benchmark share. The toolchain has no C headers, so all is declared here. */
typedef __UINT8_TYPE__ u8;
typedef __UINT32_TYPE__ u32;
typedef __UINT64_TYPE__ u64;
typedef __SIZE_TYPE__ usize;
typedef _Bool bool;

/* One analysis: the bounds, and the refusal's number, row and instance. */
typedef void Analysis(const u8 *sheet, usize length, u32 *bounds, usize places, u8 *number, usize *row, u32 *instance);
/* Calls on one board: in each round the first rows are released, then ticks are made. Answers a digest of all that it saw. */
typedef u32 Calls(const u8 *sheet, usize length, u32 releases, u32 round, u32 calls);
/* Readings of one sheet. Answers a digest of what was read. */
typedef u32 Readings(const u8 *sheet, usize length, u32 calls);

/* Rattle's side, exported by crates/bench_c and crates/bench_callers. In the second, release and tick are called at two places each. */
Analysis bench_analyse;
Calls bench_board, bench_callers;
Readings bench_read;

/* C's side, with an analysis that has no set beside the one that is handed a set by value, and one that counts what it does. */
Analysis plain_analyse, sharp_analyse, count_analyse;
Calls plain_board, plain_callers;
Readings plain_read;
extern u64 instances_worked, terms_worked;

/* A digest with one more number in it. */
static inline u32 mix(u32 digest, u32 number) { return digest * 31 + number; }
