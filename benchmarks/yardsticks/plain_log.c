/* Times a plain reader and writer of a proof log in LRAT's lines, as a yardstick for `log_text`.
 *
 *     plain_log CLAUSES < LOG
 *
 * It reads the whole text, parses each line into a list of literals and one of hints, and writes the lines again. It
 * prints the bytes of the text, and the nanoseconds of processor time of a reading and of a writing, the shortest of five
 * each. Where a line is not of the form, or the text that is written isn't the one that was read, it ends with status 1. */
#include <stdio.h>
#include <stdlib.h>
#include <string.h>
#include <time.h>

struct numbers {
	long *items;
	size_t len, cap;
};

struct line {
	struct numbers lits, hints;
};

static struct line *lines;
static size_t line_count, line_cap;

static long now(void)
{
	struct timespec t;
	clock_gettime(CLOCK_PROCESS_CPUTIME_ID, &t);
	return t.tv_sec * 1000000000L + t.tv_nsec;
}

static void fail(const char *why)
{
	fprintf(stderr, "%s\n", why);
	exit(1);
}

static void push(struct numbers *list, long n)
{
	if (list->len == list->cap) {
		list->cap = list->cap ? 2 * list->cap : 4;
		list->items = realloc(list->items, list->cap * sizeof *list->items);
		if (!list->items)
			fail("out of memory");
	}
	list->items[list->len++] = n;
}

/* The number at a place of the text, which goes on behind the byte after it. */
static long number(const char **at)
{
	const char *p = *at;
	int minus = *p == '-';
	unsigned long n = 0;

	p += minus;
	if (*p < '0' || *p > '9')
		fail("no number");
	for (; *p >= '0' && *p <= '9'; p++)
		n = 10 * n + (unsigned long)(*p - '0');
	if (*p != ' ' && *p != '\n')
		fail("no blank behind a number");
	*at = p + 1;
	return minus ? -(long)n : (long)n;
}

static void numbers_to_zero(struct numbers *list, const char **at)
{
	for (long n = number(at); n; n = number(at))
		push(list, n);
}

static void read_lines(const char *text, const char *end, long clauses)
{
	long last = clauses;

	line_count = 0;
	for (const char *at = text; at < end;) {
		long n = number(&at);
		if (n <= last)
			fail("a number that doesn't rise");
		last = n;
		if (line_count == line_cap) {
			line_cap = line_cap ? 2 * line_cap : 4;
			lines = realloc(lines, line_cap * sizeof *lines);
			if (!lines)
				fail("out of memory");
		}
		struct line *line = &lines[line_count++];
		memset(line, 0, sizeof *line);
		numbers_to_zero(&line->lits, &at);
		numbers_to_zero(&line->hints, &at);
		for (size_t i = 0; i < line->hints.len; i++)
			if (line->hints.items[i] < 0 || line->hints.items[i] >= n)
				fail("a hint that names nothing");
	}
}

static void free_lines(void)
{
	for (size_t i = 0; i < line_count; i++) {
		free(lines[i].lits.items);
		free(lines[i].hints.items);
	}
}

static char *put(char *to, long n)
{
	char digits[24];
	int k = 0;
	unsigned long rest = n < 0 ? -(unsigned long)n : (unsigned long)n;

	if (n < 0)
		*to++ = '-';
	do
		digits[k++] = (char)('0' + rest % 10);
	while (rest /= 10);
	while (k)
		*to++ = digits[--k];
	return to;
}

static char *put_list(char *to, const struct numbers *list)
{
	for (size_t i = 0; i < list->len; i++) {
		*to++ = ' ';
		to = put(to, list->items[i]);
	}
	*to++ = ' ';
	*to++ = '0';
	return to;
}

/* The text of the lines, in a buffer that grows. */
static char *write_lines(long first, size_t *len)
{
	size_t cap = 4096, used = 0;
	char *text = malloc(cap);

	for (size_t i = 0; i < line_count; i++) {
		size_t most = 32 + 24 * (lines[i].lits.len + lines[i].hints.len);
		while (cap - used < most)
			text = realloc(text, cap *= 2);
		if (!text)
			fail("out of memory");
		char *to = put(text + used, first + (long)i);
		to = put_list(to, &lines[i].lits);
		to = put_list(to, &lines[i].hints);
		*to++ = '\n';
		used = (size_t)(to - text);
	}
	*len = used;
	return text;
}

int main(int argc, char **argv)
{
	size_t cap = 1 << 28, len, got;
	char *text = malloc(cap);
	long clauses, read = 1L << 62, written = 1L << 62;

	if (argc != 2 || !text)
		fail("plain_log CLAUSES < LOG");
	clauses = atol(argv[1]);
	len = fread(text, 1, cap - 1, stdin);
	text[len] = 0;
	for (int i = 0; i < 5; i++) {
		long start = now();
		read_lines(text, text + len, clauses);
		long middle = now();
		char *again = write_lines(clauses + 1, &got);
		long end = now();
		if (got != len || memcmp(text, again, len))
			fail("another text");
		read = middle - start < read ? middle - start : read;
		written = end - middle < written ? end - middle : written;
		free(again);
		free_lines();
	}
	printf("%zu %ld %ld\n", len, read, written);
	return 0;
}
