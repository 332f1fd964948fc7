/* Checks proof logs in LRAT's lines, forward and by their hints alone, as a yardstick for the check of a transcript.
 *
 *     check_lrat < NAMES
 *
 * Each line of the input is a name N, of a formula in DIMACS's lines in the file N.cnf and of a log in N.lrat, whose lines
 * are numbered on from the clauses. Each line of the log has to follow from the clauses and the lines before by its hints:
 * where its literals are false, each hint but the last names a clause with one literal that isn't false, which is true then,
 * and the last names one whose literals are all false. The last line and no other has no literal. It prints how many logs,
 * lines, literals and hints there were. At the first fault it says where, and ends with status 1.
 *
 * Clauses and lines lie behind one another in one array of literals. A literal is false where it bears the mark of the line
 * that is checked. */
#include <stdint.h>
#include <stdio.h>
#include <stdlib.h>
#include <string.h>

struct array {
	uint64_t *items;
	size_t len, cap;
};

static struct array lits;  /* twice the variable, and 1 more for an opposite */
static struct array starts; /* of clauses and lines, and last the end */
static struct array hints;
static struct array firsts; /* of the lines' hints, and last the end */
static uint64_t *marks;     /* the line in which a literal was made false last */
static size_t mark_cap;
static uint64_t mark, vars, clauses;
static uint64_t line_count, lit_count, hint_count;
static char name[4096];

static void fail(const char *why, uint64_t line)
{
	fprintf(stderr, "%s: %s, line %llu\n", name, why, (unsigned long long)line);
	exit(1);
}

static void push(struct array *array, uint64_t item)
{
	if (array->len == array->cap) {
		array->cap = array->cap ? 2 * array->cap : 1024;
		array->items = realloc(array->items, array->cap * sizeof *array->items);
		if (!array->items)
			fail("out of memory", 0);
	}
	array->items[array->len++] = item;
}

/* The whole text of a file, with a zero behind it. */
static char *text_of(const char *ending)
{
	char path[4112];
	FILE *file;
	char *text;
	long size;

	snprintf(path, sizeof path, "%s%s", name, ending);
	file = fopen(path, "rb");
	if (!file || fseek(file, 0, SEEK_END) || (size = ftell(file)) < 0)
		fail("cannot be read", 0);
	rewind(file);
	text = malloc((size_t)size + 1);
	if (!text || fread(text, 1, (size_t)size, file) != (size_t)size)
		fail("cannot be read", 0);
	text[size] = 0;
	fclose(file);
	return text;
}

/* The number at a place of the text, which goes on behind the byte after it, and whether it has a minus sign. */
static uint64_t number(const char **at, int *minus, uint64_t line)
{
	const char *p = *at;
	uint64_t n = 0;

	*minus = *p == '-';
	p += *minus;
	if (*p < '0' || *p > '9')
		fail("no number", line);
	for (; *p >= '0' && *p <= '9'; p++)
		n = 10 * n + (uint64_t)(*p - '0');
	if (*p != ' ' && *p != '\n')
		fail("no blank behind a number", line);
	*at = p + 1;
	return n;
}

/* The literals up to a 0, as a clause or line more. */
static void read_lits(const char **at, uint64_t line)
{
	int minus;
	uint64_t n;

	while ((n = number(at, &minus, line))) {
		if (n > vars)
			fail("no such variable", line);
		push(&lits, 2 * n + (uint64_t)minus);
	}
	push(&starts, lits.len);
}

static void read_formula(void)
{
	char *text = text_of(".cnf");
	const char *at = text;
	unsigned long long stated_vars, stated;

	if (sscanf(at, "p cnf %llu %llu", &stated_vars, &stated) != 2)
		fail("no header", 1);
	vars = stated_vars;
	clauses = stated;
	at = strchr(at, '\n') + 1;
	lits.len = starts.len = hints.len = firsts.len = 0;
	push(&starts, 0);
	for (uint64_t i = 0; i < clauses; i++)
		read_lits(&at, i + 2);
	if (*at)
		fail("more clauses than stated", clauses + 2);
	free(text);
}

static void read_log(void)
{
	char *text = text_of(".lrat");
	const char *at = text;
	int minus;
	uint64_t n;

	push(&firsts, 0);
	for (uint64_t line = 1; *at; line++) {
		if (number(&at, &minus, line) != clauses + line || minus)
			fail("another number", line);
		read_lits(&at, line);
		while ((n = number(&at, &minus, line))) {
			if (minus)
				fail("a step that isn't by units", line);
			push(&hints, n);
		}
		push(&firsts, hints.len);
	}
	free(text);
}

/* How many literals of a clause aren't false, 2 at most, and the last of them. */
static int open_in(uint64_t clause, uint64_t *last)
{
	int open = 0;

	for (uint64_t i = starts.items[clause - 1]; i < starts.items[clause] && open < 2; i++)
		if (marks[lits.items[i]] != mark) {
			*last = lits.items[i];
			open++;
		}
	return open;
}

static void check_line(uint64_t line)
{
	uint64_t own = clauses + line, unit = 0;
	uint64_t end = firsts.items[line];

	mark++;
	for (uint64_t i = starts.items[own - 1]; i < starts.items[own]; i++) {
		uint64_t lit = lits.items[i];

		if (marks[lit] == mark || marks[lit ^ 1] == mark)
			fail("a literal twice", line);
		marks[lit] = mark;
	}
	if (firsts.items[line - 1] == end)
		fail("no hint", line);
	for (uint64_t i = firsts.items[line - 1]; i < end; i++) {
		if (hints.items[i] >= own)
			fail("no such clause", line);
		if (open_in(hints.items[i], &unit) != (i + 1 < end))
			fail("a hint that doesn't show it", line);
		if (i + 1 == end)
			break;
		if (marks[unit ^ 1] == mark)
			fail("a hint whose literal is true", line);
		marks[unit ^ 1] = mark;
	}
}

static void check_log(void)
{
	uint64_t lines = firsts.len - 1;

	if (2 * (vars + 1) > mark_cap) {
		free(marks);
		mark_cap = 2 * (vars + 1);
		marks = calloc(mark_cap, sizeof *marks);
		if (!marks)
			fail("out of memory", 0);
	}
	for (uint64_t line = 1; line <= lines; line++) {
		int is_empty = starts.items[clauses + line - 1] == starts.items[clauses + line];

		check_line(line);
		if (is_empty != (line == lines))
			fail("empty too early, or not at the end", line);
	}
	if (!lines)
		fail("no line", 0);
	line_count += lines;
	lit_count += lits.len - starts.items[clauses];
	hint_count += hints.len;
}

int main(void)
{
	uint64_t logs = 0;

	for (; fgets(name, sizeof name, stdin); logs++) {
		name[strcspn(name, "\n")] = 0;
		read_formula();
		read_log();
		check_log();
	}
	printf("%llu %llu %llu %llu\n", (unsigned long long)logs, (unsigned long long)line_count,
	       (unsigned long long)lit_count, (unsigned long long)hint_count);
	return 0;
}
