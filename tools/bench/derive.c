/* derive.c: times the derivation, and the given Rust beside it where GIVEN says that it is linked, on the same host in the same run.
 * derive RUNS HOST REQUEST...: for each pair the medians of RUNS runs, in microseconds of processor time; with RUNS 1 the whole
 * derivation only. The derivation clears its work space inside the timing, before and after. "Until 42" has a path that names no node
 * as the last of the configured ones, and so ends when these are looked up; "until 45" lends no room for the list, and so ends when
 * both outputs are measured. A request is lines `c PATH`, `x PATH` and `i NUMBER`, as the command program takes them. */
#include <stdint.h>
#include <stdio.h>
#include <stdlib.h>
#include <string.h>
#include <time.h>

#define WORDS 16384
#define ROOM (1 << 21)

/* made by tools/bench/run: the node count; the guest's length; the list's length; each 0 for a refusal */
extern uint64_t dhaureshin_read(const uint8_t *blob, size_t len, uint32_t *work, size_t words);
extern uint64_t dhaureshin_derive(const uint8_t *host, size_t host_len, const uint8_t *configured, size_t configured_len,
				  const uint8_t *excluded, size_t excluded_len, const uint64_t *ids, size_t ids_len, uint32_t *work,
				  size_t words, uint8_t *list, size_t list_len, uint8_t *guest, size_t guest_len);
extern uint64_t dhaureshin_list(const uint8_t *host, size_t host_len, const uint8_t *configured, size_t configured_len,
				const uint8_t *excluded, size_t excluded_len, const uint64_t *ids, size_t ids_len, uint32_t *work,
				size_t words, uint8_t *list, size_t list_len, uint8_t *guest, size_t guest_len);
#ifdef GIVEN
extern size_t given_derive(const uint8_t *host, size_t host_len, const uint8_t *configured, size_t configured_len,
			   const uint8_t *excluded, size_t excluded_len, const uint64_t *ids, size_t ids_len, uint8_t *out, size_t room,
			   size_t *listed, double *took);
#endif

struct request {
	uint8_t configured[1 << 17], excluded[1 << 17];
	size_t configured_len, excluded_len, ids_len;
	uint64_t ids[64];
	int paths[2];
};

static uint32_t work[WORDS];
static uint8_t host[ROOM] __attribute__((aligned(8))), list[ROOM], guest[ROOM], theirs[2 * ROOM];
static struct request asked, nothing, unknown;

/* processor time, for both sides, so that what else runs on the machine counts less */
double bench_now(void)
{
	struct timespec t;
	clock_gettime(CLOCK_PROCESS_CPUTIME_ID, &t);
	return t.tv_sec * 1e6 + t.tv_nsec / 1e3;
}

static int order(const void *a, const void *b)
{
	double x = *(const double *)a, y = *(const double *)b;
	return (x > y) - (x < y);
}

static double median(double *v, int runs)
{
	qsort(v, runs, sizeof *v, order);
	return v[runs / 2];
}

static int request(const char *file)
{
	char line[2048];
	size_t last = 0;
	FILE *f = fopen(file, "r");
	if (!f)
		return 0;
	memset(&asked, 0, sizeof asked);
	while (fgets(line, sizeof line, f)) {
		line[strcspn(line, "\n")] = 0;
		size_t len = strlen(line + 2) + 1;
		if (line[0] == 'c') {
			last = asked.configured_len;
			memcpy(asked.configured + asked.configured_len, line + 2, len);
			asked.configured_len += len;
			asked.paths[0]++;
		} else if (line[0] == 'x') {
			memcpy(asked.excluded + asked.excluded_len, line + 2, len);
			asked.excluded_len += len;
			asked.paths[1]++;
		} else
			asked.ids[asked.ids_len++] = strtoull(line + 2, 0, 10);
	}
	fclose(f);
	unknown = asked;
	unknown.configured_len = last;
	memcpy(unknown.configured + last, "/unknown", 9);
	unknown.configured_len += 9;
	return 1;
}

#define LENT(q)                                                                                                                   \
	q.configured, q.configured_len, q.excluded, q.excluded_len, q.ids, q.ids_len

static void pair(int runs, const char *name, size_t len)
{
	double *t[10];
	for (int i = 0; i < 10; i++)
		t[i] = malloc(runs * sizeof **t);
	uint64_t nodes = dhaureshin_read(host, len, work, WORDS), copied = 0, listed = 0;
	if (runs > 1)
		listed = dhaureshin_list(host, len, LENT(asked), work, WORDS, list, ROOM, guest, ROOM);
	int alike = 1;
	for (int i = 0; i < runs; i++) {
		double a = bench_now();
		if (runs > 1)
			dhaureshin_derive(host, len, LENT(nothing), work, WORDS, list, ROOM, guest, ROOM);
		double b = bench_now();
		/* refused with 42, and with 45: what stands before these */
		if (runs > 1)
			dhaureshin_derive(host, len, LENT(unknown), work, WORDS, list, ROOM, guest, ROOM);
		double c = bench_now();
		if (runs > 1)
			dhaureshin_derive(host, len, LENT(asked), work, WORDS, list, 0, guest, ROOM);
		double d = bench_now();
		dhaureshin_read(host, len, work, WORDS);
		double e = bench_now();
		copied = dhaureshin_derive(host, len, LENT(asked), work, WORDS, list, ROOM, guest, ROOM);
		double f = bench_now();
		t[0][i] = e - d;
		t[1][i] = b - a;
		t[2][i] = f - e;
		t[8][i] = c - b;
		t[9][i] = d - c;
#ifdef GIVEN
		double took[4];
		size_t their_list, their_guest = given_derive(host, len, LENT(asked), theirs, sizeof theirs, &their_list, took);
		for (int k = 0; k < 4; k++)
			t[3 + k][i] = took[k];
		t[7][i] = took[1] + took[2];
		if (runs == 1)
			listed = their_list;
		alike = alike && their_list == listed && their_guest == copied && !memcmp(theirs, list, listed) &&
			!memcmp(theirs + listed, guest, copied);
#endif
	}
	printf("%s: %zu bytes, %llu nodes, %d configured, %d excluded, list %llu bytes, guest %llu bytes\n", name, len,
	       (unsigned long long)nodes, asked.paths[0], asked.paths[1], (unsigned long long)listed, (unsigned long long)copied);
	double whole = median(t[2], runs);
	if (runs == 1)
		printf("  ours: read %.1f us, whole %.1f us\n", t[0][0], whole);
	else
		printf("  ours: read %.1f us, until 42 %.1f us, until 45 %.1f us, whole %.1f us; with nothing asked %.1f us\n", median(t[0], runs),
		       median(t[8], runs), median(t[9], runs), whole, median(t[1], runs));
#ifdef GIVEN
	double both = median(t[7], runs);
	printf("  the Rust: parse %.1f us, find_all_passthrough_devices %.1f us, crate_guest_fdt %.1f us; of both, copies of all nodes "
	       "%.1f us\n",
	       median(t[3], runs), median(t[4], runs), median(t[5], runs), median(t[6], runs));
	printf("  ratio to both without the parse %.4f; of the least times, %.1f and %.1f us, %.4f; list and guest are %s\n", whole / both,
	       t[2][0], t[7][0], t[2][0] / t[7][0], alike ? "the same" : "NOT the same");
#else
	(void)alike;
	(void)theirs;
#endif
	for (int i = 0; i < 10; i++)
		free(t[i]);
}

int main(int argc, char **argv)
{
	int runs = argc > 1 ? atoi(argv[1]) : 0;
	if (runs < 1)
		return 2;
	for (int k = 2; k + 1 < argc; k += 2) {
		FILE *f = fopen(argv[k], "rb");
		if (!f || !request(argv[k + 1]))
			return 1;
		size_t len = fread(host, 1, sizeof host, f);
		fclose(f);
		pair(runs, argv[k], len);
	}
	return 0;
}
