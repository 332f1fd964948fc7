/* Times a plain look among kept sets, as a yardstick for `cache`.
 *
 *     plain_cache
 *
 * It makes the same families of kept sets and the same queries as `programs/cache_time.txt`, by the same generator. For each row it
 * prints the family, the kind and the size of the queries, how many there were and how many of them some kept set holds, and
 * the nanoseconds of processor time of two looks: one goes along the whole of every kept set beside the query's, and the other
 * from the last kept one on as far as the first that holds it, along each as far as the first station that it lacks. Nothing
 * is made of what is found. Where the two looks disagree it ends with status 1. */
#include <stdio.h>
#include <stdlib.h>
#include <string.h>
#include <time.h>

enum { FIRST = 72, LAST = 3071, OF_ITS_BIT = 2047, BITS = 1024, ROOM = 1024, QUERIES = 200, MOST = 3000 };

struct set {
	int len;
	unsigned stations[MOST];
};

struct row {
	const char *family, *asked;
	int size;
};

static const struct row rows[] = {
	{ "apart", "kept", 10 },	{ "apart", "kept", 100 },	{ "apart", "kept", 300 },
	{ "apart", "drawn", 10 },	{ "apart", "drawn", 100 },	{ "apart", "drawn", 300 },
	{ "core", "with-last", 10 },	{ "core", "with-last", 100 },	{ "core", "with-last", 300 },
	{ "covered", "with-last", 10 }, { "covered", "with-last", 100 }, { "covered", "with-last", 300 },
	{ "region", "kept", 10 },	{ "region", "kept", 100 },	{ "region", "kept", 250 },
	{ "region", "drawn", 100 },	{ "region", "drawn", 290 },	{ "region", "drawn", 300 },
};

/* The family's stations, and its kept sets. */
static struct set stations, kept[ROOM];
static unsigned long long state = 1;

static long now(void)
{
	struct timespec t;
	clock_gettime(CLOCK_PROCESS_CPUTIME_ID, &t);
	return t.tv_sec * 1000000000L + t.tv_nsec;
}

static unsigned below(unsigned most)
{
	state = state * 6364136223846793005ULL + 1442695040888963407ULL;
	return (unsigned)((state >> 33) % most);
}

static void put(struct set *set, unsigned station)
{
	set->stations[set->len++] = station;
}

/* So many of these stations, in their order. */
static void draw(struct set *to, const struct set *from, int count)
{
	unsigned wanted = (unsigned)count;

	to->len = 0;
	for (int i = 0; i < from->len; i++)
		if (below((unsigned)(from->len - i)) < wanted) {
			put(to, from->stations[i]);
			wanted--;
		}
}

/* All stations, or those that have not the last one's bit. */
static void all(struct set *to, int others)
{
	to->len = 0;
	for (unsigned s = FIRST; s <= LAST; s++)
		if (!others || s % BITS != LAST % BITS)
			put(to, s);
}

/* These stations and one more, ascending. */
static void with(struct set *to, const struct set *from, unsigned one)
{
	int i = from->len;

	*to = *from;
	for (; i > 0 && to->stations[i - 1] > one; i--)
		to->stations[i] = to->stations[i - 1];
	to->stations[i] = one;
	to->len++;
}

static int has(const struct set *set, unsigned station)
{
	for (int i = 0; i < set->len; i++)
		if (set->stations[i] == station)
			return 1;
	return 0;
}

static void draw_sets(int least, unsigned numbers)
{
	for (int i = 0; i < ROOM; i++) {
		int count = least + (int)below(numbers);
		draw(&kept[i], &stations, count);
	}
}

/* The stations and one more each, which has not the last one's bit. */
static void sets_round(const struct set *others)
{
	int made = 0;

	for (int i = 0; i < others->len && made < ROOM; i++)
		if (!has(&stations, others->stations[i]))
			with(&kept[made++], &stations, others->stations[i]);
}

static void make(const char *family)
{
	static struct set from, some;

	all(&from, *family == 'c');
	if (!strcmp(family, "apart")) {
		stations = from;
		draw_sets(300, 1);
	} else if (!strcmp(family, "core")) {
		draw(&stations, &from, 299);
		sets_round(&from);
	} else if (!strcmp(family, "covered")) {
		draw(&some, &from, 298);
		with(&stations, &some, OF_ITS_BIT);
		sets_round(&from);
	} else {
		draw(&stations, &from, 300);
		draw_sets(250, 50);
	}
}

static void ask(struct set *query, const struct row *row)
{
	if (!strcmp(row->asked, "kept")) {
		const struct set *from = &kept[below(ROOM)];
		draw(query, from, row->size);
	} else if (!strcmp(row->asked, "drawn")) {
		draw(query, &stations, row->size);
	} else {
		draw(query, &stations, row->size - 1);
		put(query, LAST);
	}
}

/* Whether some kept set holds the query's, where each is gone along whole. */
static int holds_whole(const struct set *query)
{
	int found = 0;

	for (int k = 0; k < ROOM; k++) {
		int i = 0, j = 0, both = 0;
		while (i < query->len && j < kept[k].len) {
			unsigned s = query->stations[i], t = kept[k].stations[j];
			both += s == t;
			i += s <= t;
			j += t <= s;
		}
		found |= both == query->len;
	}
	return found;
}

/* Whether this set holds the query's; it stops at the first station that it lacks. */
static int holds(const struct set *set, const struct set *query)
{
	int j = 0;

	for (int i = 0; i < query->len; i++) {
		while (j < set->len && set->stations[j] < query->stations[i])
			j++;
		if (j == set->len || set->stations[j] != query->stations[i])
			return 0;
		j++;
	}
	return 1;
}

/* The same, where the look stops at the first that does. */
static int holds_some(const struct set *query)
{
	for (int k = ROOM - 1; k >= 0; k--)
		if (holds(&kept[k], query))
			return 1;
	return 0;
}

static void time_row(const struct row *row)
{
	static struct set query;
	long whole = 0, some = 0;
	int answered = 0;

	for (int q = 0; q < QUERIES; q++) {
		ask(&query, row);
		long start = now();
		int found = holds_whole(&query);
		long middle = now();
		int again = holds_some(&query);
		some += now() - middle;
		whole += middle - start;
		if (found != again)
			exit(1);
		answered += found;
	}
	printf("%s %s %d %d %d %ld %ld\n", row->family, row->asked, row->size, QUERIES, answered, whole, some);
}

int main(void)
{
	const char *family = "";

	for (size_t i = 0; i < sizeof rows / sizeof *rows; i++) {
		if (strcmp(family, rows[i].family))
			make(family = rows[i].family);
		time_row(&rows[i]);
	}
	return 0;
}
