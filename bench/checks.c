/* checks ROUNDS LIMITS ROOM TABLE.. -- CHAIN.. -- WALK..: the time of check_design on each table against a plain C walk and the reference
 * checker; that of loading the text LIMITS, of writing it again without marks, and of writing ROOM with them, the last two also against a load;
 * that of advancing by 1 over the states of each table that has 65,536; that of making a measure for each table and chain, also against our
 * check; and that of check_design on each of the tables WALK against a plain C walk alone, with the geometric mean of each group, which is what
 * a table's name begins with. All are run in turn, ROUNDS times; the least time of each counts, as that with the least other work beside it. A
 * ratio is our time over theirs. Ends with 1 where plain C has another verdict than check_design, or another state that fails. */
#define _POSIX_C_SOURCE 200809L
#include <math.h>
#include <time.h>
#include "../include/checker.h"
#include "../compare/reference_c/reference.h"
#include "walk_plain.h"

/* What the static library of the crate desk_c has. */
uint32_t bench_load(const uint8_t *text, size_t text_len);
uint64_t bench_advances(const uint8_t *text, size_t text_len, uint64_t n);

enum { OURS, PLAIN, REFERENCE, SORTS };

struct text {
    uint8_t bytes[65536];
    size_t len;
};

/* What is timed: a text, one with the same rows that is accepted, the first as a table, its verdict, and for each of the sorts what is done
 * with them; 0 is a fault. */
struct job {
    struct text text, accepted;
    struct table table;
    uint32_t verdict;
    int (*run[SORTS])(const struct job *);
};

/* ---- what is timed ---- */

static int ours(const struct job *j)
{
    uint8_t report[CHECK_REPORT_BYTES];
    return check_design(j->text.bytes, j->text.len, report, sizeof report) == j->verdict;
}

static int reference(const struct job *j)
{
    uint8_t report[CHECK_REPORT_BYTES];
    return reference_check(j->text.bytes, j->text.len, report, sizeof report) == j->verdict;
}

static int plain(const struct job *j) { return plain_check(&j->table).verdict == j->verdict; }

static int our_load(const struct job *j) { return bench_load(j->text.bytes, j->text.len) == 0; }

static int reference_loads(const struct job *j)
{
    struct reference_desk *desk = reference_desk();
    uint32_t number = reference_load(desk, j->text.bytes, j->text.len);
    reference_free(desk);
    return number == 0;
}

typedef size_t writer(const uint8_t *text, size_t text_len, uint8_t *buffer, size_t buffer_len, uint32_t *number);

static size_t written_by(writer *write, const struct job *j)
{
    uint8_t buffer[MARK_RESULT_BYTES];
    uint32_t number;
    return write(j->text.bytes, j->text.len, buffer, sizeof buffer, &number);
}

static int our_mark(const struct job *j) { return written_by(mark_design, j) > j->text.len; }

static int reference_marks(const struct job *j) { return written_by(reference_mark, j) > j->text.len; }

static int our_unmark(const struct job *j) { return written_by(unmark_design, j) == j->text.len; }

static int reference_unmarks(const struct job *j) { return written_by(reference_unmark, j) == j->text.len; }

static int our_advances(const struct job *j) { return bench_advances(j->text.bytes, j->text.len, 1) == j->table.states; }

static int reference_advances(const struct job *j)
{
    struct reference_desk *desk = reference_desk();
    uint64_t made = 1, number;
    uint32_t stands = 0;
    reference_load(desk, j->text.bytes, j->text.len);
    while ((stands = reference_advance(desk, 1, &number)) == REFERENCE_OPEN) made++;
    reference_free(desk);
    return (stands == REFERENCE_ACCEPTED || stands == REFERENCE_ACCEPTED_AFTER_INTERNAL) && made == j->table.states;
}

static int plain_advances(const struct job *j)
{
    static struct plain p;
    decode_table(&j->table, &p);
    for (size_t i = 0; i < j->table.states; i++)
        if (plain_walk(&p, i, 1) == i) return 0;
    return 1;
}

static uint16_t slice[65536];

static int our_measure(const struct job *j)
{
    uint32_t number;
    return measure_design(j->text.bytes, j->text.len, slice, j->table.states, &number) == MEASURE_FILLED;
}

static int reference_measures(const struct job *j)
{
    uint32_t number;
    return reference_measure(j->text.bytes, j->text.len, slice, j->table.states, &number) == REFERENCE_FILLED;
}

/* Whether both write the same. */
static int same_measures(const struct job *j)
{
    static uint16_t other[65536];
    if (!reference_measures(j)) return 0;
    memcpy(other, slice, j->table.states * sizeof *slice);
    memset(slice, 255, sizeof slice);
    return our_measure(j) && !memcmp(slice, other, j->table.states * sizeof *slice);
}

static int our_walk(const struct job *j)
{
    uint8_t report[CHECK_REPORT_BYTES];
    return CHECK_IS_ACCEPTED(check_design(j->accepted.bytes, j->accepted.len, report, sizeof report));
}

/* ---- the clock ---- */

static double now(void)
{
    struct timespec t;
    clock_gettime(CLOCK_PROCESS_CPUTIME_ID, &t);
    return t.tv_sec + t.tv_nsec * 1e-9;
}

/* The time of one run, as the mean of so many. */
static double once(const char *name, const struct job *j, int sort, long times)
{
    double start = now();
    for (long i = 0; i < times; i++)
        if (!j->run[sort](j)) { fprintf(stderr, "%s: not as it has to be\n", name); exit(1); }
    return (now() - start) / times;
}

/* Runs each sort in turn, and gives the least times. What takes under a hundredth of a second is run as often as fills it. */
static void take_turns(const char *name, const struct job *j, int rounds, double least[SORTS])
{
    long times[SORTS] = {0};
    for (int r = 0; r < rounds; r++)
        for (int k = 0; k < SORTS; k++) {
            if (!j->run[k]) continue;
            if (r == 0) {
                double first = once(name, j, k, 1);
                times[k] = first < 0.01 ? (long)(0.01 / (first + 1e-9)) + 1 : 1;
            }
            double took = once(name, j, k, times[k]);
            if (r == 0 || took < least[k]) least[k] = took;
        }
}

/* Prints our time and the ratios. */
static void measure(const char *name, const struct job *j, int rounds)
{
    double least[SORTS];
    take_turns(name, j, rounds, least);
    printf("%-32s %8zu %12.3f", name, j->table.states, 1e3 * least[OURS]);
    for (int k = 1; k < SORTS; k++)
        if (j->run[k]) printf(" %10.2f", least[OURS] / least[k]);
        else printf(" %10s", "-");
    printf("\n");
    fflush(stdout);
}

/* ---- the texts ---- */

static void read_job(const char *path, struct job *j)
{
    FILE *f = fopen(path, "rb");
    if (!f) { perror(path); exit(2); }
    j->text.len = fread(j->text.bytes, 1, sizeof j->text.bytes, f);
    fclose(f);
    read_table(path, &j->table);
}

/* Looks at the verdict, and that plain C has the same one, and the same state where it fails. */
static void agree(const char *path, struct job *j, int accepted)
{
    uint8_t bytes[CHECK_REPORT_BYTES];
    struct check_report report = {0};
    j->verdict = check_design(j->text.bytes, j->text.len, bytes, sizeof bytes);
    if (read_report(bytes, &report) || j->verdict == CHECK_TURNED_DOWN || CHECK_IS_ACCEPTED(j->verdict) != accepted) {
        fprintf(stderr, "%s: not as it has to be: %.30s\n", path, (const char *)bytes);
        exit(1);
    }
    struct plain_answer answer = plain_check(&j->table);
    if (answer.verdict != report.verdict || answer.state != report.state) {
        fprintf(stderr, "%s: two answers: check_design has verdict %u, state %u, plain C verdict %u, state %zu\n", path, report.verdict, report.state,
            answer.verdict, answer.state);
        exit(1);
    }
}

/* The text itself, or if its measure doesn't do, the text with its one internal row unmarked. */
static void find_accepted(struct job *j)
{
    static const char unmarked[] = "     8    11\n";
    j->accepted = j->text;
    if (our_walk(j)) return;
    memcpy(j->accepted.bytes + j->accepted.len, unmarked, sizeof unmarked - 1);
    j->accepted.len += sizeof unmarked - 1;
}

static const char *last_name(const char *path)
{
    const char *slash = strrchr(path, '/');
    return slash ? slash + 1 : path;
}

typedef int run(const struct job *);

/* The head of the next lines, the column before the last being this. */
static void head(const char *second, const char *last)
{
    printf("%-32s %8s %12s %10s %10s\n", "our time over that of", "states", "ours, ms", second, last);
}

static void time_it(const char *what, const char *path, struct job *j, int rounds, run *const sorts[SORTS])
{
    char name[64];
    memcpy(j->run, sorts, sizeof j->run);
    snprintf(name, sizeof name, "%s %s", what, last_name(path));
    measure(name, j, rounds);
}

/* ---- the tables for the walk ---- */

enum { GROUPS = 16 };

struct group { char name[16]; double logs; int tables; };

/* The group of a table, a new one if it is the first of it. */
static struct group *group_of(const char *path, struct group groups[GROUPS])
{
    const char *name = last_name(path);
    char start[sizeof groups->name];
    int i = 0;
    snprintf(start, sizeof start, "%.*s", (int)strcspn(name, "_"), name);
    while (groups[i].tables && strcmp(groups[i].name, start)) i++;
    if (i == GROUPS - 1) { fprintf(stderr, "%s: too many groups\n", path); exit(2); }
    memcpy(groups[i].name, start, sizeof start);
    return groups + i;
}

static void time_walks(int n, char **paths, struct job *j, int rounds)
{
    static run *const walks[SORTS] = {ours, plain, NULL};
    static struct group groups[GROUPS];
    double highest = 0;
    const char *highest_name = "";
    head("C", "C, ms");
    memcpy(j->run, walks, sizeof j->run);
    for (int i = 0; i < n; i++) {
        struct group *group = group_of(paths[i], groups);
        double least[SORTS];
        read_job(paths[i], j);
        agree(paths[i], j, strcmp(group->name, "failing") != 0);
        take_turns(paths[i], j, rounds, least);
        double ratio = least[OURS] / least[PLAIN];
        printf("%-32s %8zu %12.3f %10.3f %10.3f\n", last_name(paths[i]), j->table.states, 1e3 * least[OURS], ratio, 1e3 * least[PLAIN]);
        fflush(stdout);
        group->logs += log(ratio);
        group->tables++;
        if (ratio > highest) { highest = ratio; highest_name = last_name(paths[i]); }
    }
    for (struct group *g = groups; g->tables; g++) printf("%-10s %3d tables, geometric mean %8.3f\n", g->name, g->tables, exp(g->logs / g->tables));
    if (n) printf("the highest ratio is %.3f, of %s\n", highest, highest_name);
}

/* The place of the next `--` from here on, or n. */
static int next_part(int n, char **words, int from)
{
    while (from < n && strcmp(words[from], "--")) from++;
    return from;
}

int main(int n, char **words)
{
    static run *const checks[SORTS] = {ours, plain, reference}, *const loads[SORTS] = {our_load, NULL, reference_loads},
        *const unmarks[SORTS] = {our_unmark, our_load, reference_unmarks}, *const marks[SORTS] = {our_mark, our_load, reference_marks},
        *const advances[SORTS] = {our_advances, plain_advances, reference_advances},
        *const measures[SORTS] = {our_measure, our_walk, reference_measures};
    static struct job j;
    int rounds = n > 4 ? atoi(words[1]) : 0, chains = next_part(n, words, 4), walks = next_part(n, words, chains + 1);
    if (rounds < 1 || walks >= n) { fprintf(stderr, "usage: checks ROUNDS LIMITS ROOM TABLE.. -- CHAIN.. -- WALK..\n"); return 2; }
    if (chains > 4) head("C", "reference");
    for (int i = 4; i < chains; i++) {
        read_job(words[i], &j);
        agree(words[i], &j, 1);
        time_it("check", words[i], &j, rounds, checks);
    }
    for (int i = 4; i < chains; i++) {
        read_job(words[i], &j);
        if (j.table.states == 65536) time_it("advances by 1,", words[i], &j, rounds, advances);
    }
    if (walks > 5) head("our check", "reference");
    for (int i = 4; i < walks; i++) {
        if (i == chains) continue;
        read_job(words[i], &j);
        find_accepted(&j);
        if (!same_measures(&j)) { fprintf(stderr, "%s: two measures\n", words[i]); return 1; }
        time_it("measure", words[i], &j, rounds, measures);
    }
    head("our load", "reference");
    read_job(words[2], &j);
    time_it("load", words[2], &j, rounds, loads);
    time_it("unmark", words[2], &j, rounds, unmarks);
    read_job(words[3], &j);
    time_it("mark", words[3], &j, rounds, marks);
    time_walks(n - walks - 1, words + walks + 1, &j, rounds);
}
