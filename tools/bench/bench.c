/* bench.c: times the reader beside libfdt's full check on the same blob in the same run.
 * bench RUNS FILE...: for each file the medians of RUNS runs, in microseconds. The reader clears its work space inside the timing. */
#include <libfdt.h>
#include <stdint.h>
#include <stdio.h>
#include <stdlib.h>
#include <time.h>

/* made by tools/bench/run: the node count, or 0 for a refusal */
extern uint64_t dhaureshin_read(const uint8_t *blob, size_t len, uint32_t *work, size_t words);

static uint32_t work[16384];

static double now(void)
{
	struct timespec t;
	clock_gettime(CLOCK_MONOTONIC, &t);
	return t.tv_sec * 1e6 + t.tv_nsec / 1e3;
}

static int order(const void *a, const void *b)
{
	double x = *(const double *)a, y = *(const double *)b;
	return (x > y) - (x < y);
}

int main(int argc, char **argv)
{
	int runs = argc > 1 ? atoi(argv[1]) : 0;
	if (runs < 1)
		return 2;
	double *ours = malloc(runs * sizeof *ours), *theirs = malloc(runs * sizeof *theirs);
	for (int k = 2; k < argc; k++) {
		FILE *f = fopen(argv[k], "rb");
		if (!f)
			return 1;
		static uint8_t blob[1 << 21] __attribute__((aligned(8)));
		size_t len = fread(blob, 1, sizeof blob, f);
		fclose(f);
		uint64_t nodes = 0;
		int said = 0;
		for (int i = 0; i < runs; i++) {
			double a = now();
			nodes = dhaureshin_read(blob, len, work, 16384);
			double b = now();
			said = fdt_check_full(blob, len);
			double c = now();
			ours[i] = b - a;
			theirs[i] = c - b;
		}
		qsort(ours, runs, sizeof *ours, order);
		qsort(theirs, runs, sizeof *theirs, order);
		printf("%s: %zu bytes, %llu nodes, %.1f us; fdt_check_full %d, %.1f us; ratio %.2f\n", argv[k], len,
		       (unsigned long long)nodes, ours[runs / 2], said, theirs[runs / 2], ours[runs / 2] / theirs[runs / 2]);
	}
	return 0;
}
