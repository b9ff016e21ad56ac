/* linkcheck: the price link checker at a terminal and in scripts. Here are its arguments; run.c has the check of a list of files. */
#define _POSIX_C_SOURCE 200809L
#include "../include/checker.h"
#include "duty.h"
#include "explain.h"
#include "input.h"
#include "measure.h"
#include "names.h"
#include "picture.h"
#include "run.h"
#include "show.h"
#include "walk.h"
#include "watch.h"

#include <errno.h>
#include <fcntl.h>
#include <stdlib.h>
#include <string.h>
#include <sys/socket.h>
#include <unistd.h>

enum { STATUS_USAGE = 64 };

static const char help[] =
    "linkcheck checks tables: whether a board may replace the price link controller of a fuel pump.\n"
    "\n"
    "  linkcheck [--duty FILE] [--timeout S] [--report | --json] [-j N] [--typed] FILE|FOLDER ...\n"
    "      One line for each table: accepted; accepted after a first internal step, with the first such step that\n"
    "      is enabled in the initial state; failed, where and by what; or turned down, by which rule, in which line\n"
    "      and what is wrong there, and which further lines are wrong by that rule; --show and --json tell of each\n"
    "      of these. \"The board\" is the implementation. The specification is the one in the table itself: only with\n"
    "      --duty is that known to be yours. Terms are as with --show. A last line has the counts. In a\n"
    "      folder the files named *.txt are taken for tables, in name order, folders in it too; names that begin\n"
    "      with a dot are left out. A file that is named itself is always taken.\n"
    "      -  is standard input, given once.\n"
    "      --duty FILE     the specification of each table, its lines of kinds 2 and 4, has to be that of this design\n"
    "                      text, field by field; one that has another is not checked, and the first line that\n"
    "                      differs is named. It goes with --show too.\n"
    "      --timeout S     a table whose check takes longer than S seconds is given up and named as not finished;\n"
    "                      the run to a failing state is looked for within the same time, else it isn't told.\n"
    "                      It goes with --show too.\n"
    "      --glob PATTERN  in folders the files whose names fit the pattern instead of *.txt\n"
    "      --report        the 31 bytes of each report and nothing else; 31 bytes that are no report, with 9 in the\n"
    "                      first field, for what could not be read, has another duty or isn't finished\n"
    "      --json          one JSON object for each table, each on a line\n"
    "      --junit FILE    beside the lines a file of JUnit XML, for a build server\n"
    "      -q              no line for a table that is accepted, as it is or after a first internal step\n"
    "      -j N, --jobs N  in N processes, 1 to 256; the order of the lines is the same\n"
    "      --color WHEN    auto, always or never: verdicts in colours; auto is at a terminal, if NO_COLOR is not set\n"
    "      --typed   the files are typed: numbers with any blanks between them (space, tab, CR, VT, FF), leading\n"
    "                zeros or not, comments from # to the end of a line, empty lines. What is checked is their\n"
    "                six-column text; lines that are named are those of the file. One that has something else\n"
    "                than numbers, or over 1,048,576 bytes, is turned down without a number; its report is 2 and\n"
    "                zeros. --typed goes with everything below too, and with the file of --duty.\n"
    "  linkcheck --show FILE\n"
    "      The table for a person, with its terms in infix, and its verdict. Parameters of the implementation\n"
    "      are p0, p1, .., of the specification q0, q1, ..; s is the sum value. Of a row's next values only those\n"
    "      that change are shown; an internal row has its mark beside it. Sums and differences are modulo 65536;\n"
    "      x mod 0 has no value. Of a text that is turned down, every line that is wrong by that rule.\n"
    "  linkcheck --walk FILE\n"
    "      Steps through the table: shows a state, whether the invariant holds, its mapping and measure, the board's\n"
    "      steps with what the criteria say of each, and the specification's at the mapped state. Lines of input say where\n"
    "      to go: the number of a step, b back, g N to state N, s to the start, ? help, q quit.\n"
    "  linkcheck --columns [FILE]\n"
    "      Lines of numbers with any blanks between them as six-column text; with --typed there may be comments.\n"
    "      Empty lines and leading zeros go, so what is checked then is the text that comes out, not the one that\n"
    "      went in.\n"
    "  linkcheck --mark FILE\n"
    "  linkcheck --unmark FILE\n"
    "      The text with a line of kind 8 at its end, which marks all internal steps, as a text without it does; and\n"
    "      the text without the line, if each of its formulas is 10. A text that is so already is copied. The\n"
    "      verdict stays the same.\n"
    "  linkcheck --measure [--json] FILE\n"
    "      The smallest measure that meets criterion 5, which in each state is the length of the longest run of\n"
    "      marked internal steps: its largest number, and whether the text's own measure has values and meets\n"
    "      criterion 5, and how far it is above the smallest, where the invariant holds. Or a loop of such steps, if\n"
    "      there is one, as no measure meets criterion 5 then.\n"
    "      --json    one JSON object, with the numbers of all states or the steps of the loop\n"
    "  linkcheck --aut impl|spec FILE\n"
    "      The transition system of the implementation or of the specification in the Aldebaran format: the states\n"
    "      that the initial state reaches inside the sizes and, for impl, the invariant; steps that lead outside\n"
    "      or lack a value are left out. Labels are \"tau\" and an action with its data, as \"a2(1)\". At most 65,536\n"
    "      states, as many as a board can have.\n"
    "  linkcheck --aut-states impl|spec FILE\n"
    "      A line for each of these states: its number in the Aldebaran format, for impl the one in reports, and\n"
    "      its values.\n"
    "  linkcheck --dot [--around STATE[,STEPS]] [impl|spec] FILE\n"
    "      Both systems, or one of them, as a Graphviz picture (linkcheck --dot FILE | dot -Tsvg), up to 1,000 states\n"
    "      each. A state of the board has its number in reports, its values and those of the state that it is\n"
    "      mapped to. Focus points have a double line, internal steps are gray, and dashed if they are not marked.\n"
    "      The state that fails is an octagon, its step thick. A step that leads outside or lacks a value ends in\n"
    "      a dotted box that says so.\n"
    "      --around  only the states that up to STEPS steps, 2 if not given, lead to from this state of the board,\n"
    "                or from which so many lead to it, and what these are mapped to\n"
    "  linkcheck --version\n"
    "  linkcheck --help, -h\n"
    "\n"
    "Exit status: 0 all accepted as they are, 4 some accepted after a first internal step, 1 some failed, 5 some have\n"
    "another duty, 2 some turned down, 6 some not finished, 3 something could not be read, checked or written, as a\n"
    "folder without a table or the file of --duty, and a message says what: the last of these that holds, in this\n"
    "order; 64 wrong arguments.\n"
    "With --walk, --columns, --mark, --unmark, --aut, --aut-states and --dot 0 is done, 2 is a text that is no table,\n"
    "or by --mark and --unmark one that has no such result, and 1 is a system that cannot be written. With --measure\n"
    "0 is a measure, 1 a loop, 2 a text that is no table, or one where criterion 3 fails, or 10 otherwise than by the\n"
    "measure.\n";

/* The exit status once all is written; another if it could not be. */
static int finished(int status) {
    int error = output_close(&standard_output);
    return error ? complain(STATUS_UNREAD, "cannot write", strerror(error)) : status;
}

enum mode { CHECK, SHOW, WALK, TYPED_COLUMNS, MARK, UNMARK, MAKE_MEASURE, AUT, AUT_STATES, DOT };

enum { USUAL_STEPS = 2, MOST_STEPS = 100 };

struct arguments {
    enum mode mode;
    const char *mode_name;  /* the option that gave the mode; NULL for none */
    struct request asked;   /* of a check */
    const char *pattern;    /* of --glob; NULL if not given */
    const char *duty;       /* the file of --duty; NULL for none */
    const char *colour;     /* auto, always or never; NULL if not given */
    struct drawing drawing; /* what --around asks for */
    char **operand;
    int operands;
};

/* ---- arguments ---- */

static _Noreturn void usage(const char *what, const char *which) {
    struct output *m = message();
    put(m, what);
    if (which) {
        put(m, ": ");
        put_name(m, which);
    }
    put(m, "\nlinkcheck --help tells what can be asked.");
    message_sent(m, STATUS_USAGE);
    exit(STATUS_USAGE);
}

static size_t process_count(const char *number) {
    char *end = NULL;
    if (!number) usage("-j needs a number of processes", NULL);
    long count = *number >= '0' && *number <= '9' ? strtol(number, &end, 10) : 0;
    if (!end || *end || count < 1 || count > MOST_PROCESSES) usage("-j takes a number from 1 to 256", number);
    return (size_t)count;
}

/* Decimal digits, with a point among them or not. */
static double timeout_of(const char *number) {
    const size_t digits = strspn(number, "0123456789"), point = number[digits] == '.', more = strspn(number + digits + point, "0123456789");
    const double seconds = strtod(number, NULL);
    if (digits + more == 0 || number[digits + point + more] || !(seconds > 0) || seconds > 1e9)
        usage("--timeout takes a number of seconds above 0", number);
    return seconds;
}

static const char *colour_of(const char *when) {
    if (strcmp(when, "auto") != 0 && strcmp(when, "always") != 0 && strcmp(when, "never") != 0)
        usage("--color takes auto, always or never", when);
    return when;
}

/* The number that begins here, at most `most`; `end` is set after it. Something else is a wrong argument. */
static unsigned long number_in(const char *words, const char *at, char **end, unsigned long most) {
    errno = 0;
    const unsigned long number = *at >= '0' && *at <= '9' ? strtoul(at, end, 10) : most + 1;
    if (errno || number > most) usage("--around takes a state's number, and with a comma a number of steps up to 100", words);
    return number;
}

/* STATE or STATE,STEPS. */
static void set_around(struct arguments *a, const char *words) {
    char *end = NULL;
    if (!words) usage("--around needs a state's number", NULL);
    a->drawing.around = true;
    a->drawing.state = number_in(words, words, &end, MAX_STATES - 1);
    a->drawing.steps = *end == ',' ? (unsigned)number_in(words, end + 1, &end, MOST_STEPS) : USUAL_STEPS;
    if (*end) number_in(words, "", &end, 0);
}

static void set_mode(struct arguments *a, enum mode mode, const char *name) {
    if (a->mode_name) usage("one of these options at a time", name);
    a->mode = mode;
    a->mode_name = name;
}

static void set_format(struct arguments *a, enum format format) {
    if (a->asked.format != WORDS) usage("--report or --json, once", NULL);
    a->asked.format = format;
}

static void take_option(struct arguments *a, const char *option) {
    if (strcmp(option, "--report") == 0) set_format(a, REPORT);
    else if (strcmp(option, "--json") == 0) set_format(a, JSON);
    else if (strcmp(option, "--typed") == 0) typed_files = true;
    else if (strcmp(option, "--show") == 0) set_mode(a, SHOW, option);
    else if (strcmp(option, "--walk") == 0) set_mode(a, WALK, option);
    else if (strcmp(option, "--columns") == 0) set_mode(a, TYPED_COLUMNS, option);
    else if (strcmp(option, "--mark") == 0) set_mode(a, MARK, option);
    else if (strcmp(option, "--unmark") == 0) set_mode(a, UNMARK, option);
    else if (strcmp(option, "--measure") == 0) set_mode(a, MAKE_MEASURE, option);
    else if (strcmp(option, "--aut") == 0) set_mode(a, AUT, option);
    else if (strcmp(option, "--aut-states") == 0) set_mode(a, AUT_STATES, option);
    else if (strcmp(option, "--dot") == 0) set_mode(a, DOT, option);
    else usage("unknown option", option);
}

/* ---- which go together ---- */

static void expect_going_together(const struct arguments *a) {
    if (a->drawing.around && a->mode != DOT) usage("--around goes with --dot", NULL);
    if (a->duty && a->mode != CHECK && a->mode != SHOW) usage("--duty does not go with", a->mode_name);
    if (watch.seconds > 0 && a->mode != CHECK && a->mode != SHOW) usage("--timeout does not go with", a->mode_name);
    if (a->asked.format != WORDS && (a->asked.quiet || a->asked.junit)) usage("-q and --junit do not go with --report and --json", NULL);
    if ((a->asked.quiet || a->asked.junit || a->pattern || a->colour) && a->mode != CHECK)
        usage("-q, --junit, --glob and --color do not go with", a->mode_name);
    const bool measure_as_json = a->mode == MAKE_MEASURE && a->asked.format == JSON;
    if (a->mode == CHECK || ((a->asked.format == WORDS || measure_as_json) && a->asked.processes == 1)) return;
    usage(a->mode == MAKE_MEASURE ? "--report and -j do not go with" : "--report, --json and -j do not go with", a->mode_name);
}

/* ---- one after the other ---- */

/* Where the taking of arguments is. */
struct taking {
    char **argument;
    int count, at;
};

/* If the argument is this option, its value: after an equals sign, or the next argument. Gives NULL if it is another. */
static const char *value_of(struct taking *k, const char *option) {
    const char *arg = k->argument[k->at];
    const size_t length = strlen(option);
    if (strncmp(arg, option, length) != 0) return NULL;
    if (arg[length] == '=') return arg + length + 1;
    if (arg[length] != 0) return NULL;
    if (k->at + 1 >= k->count) usage("something is needed after", option);
    return k->argument[++k->at];
}

/* Takes an option that has a value. Gives whether it is one. */
static bool take_value(struct arguments *a, struct taking *k) {
    const char *value;
    if ((value = value_of(k, "--duty"))) a->duty = value;
    else if ((value = value_of(k, "--timeout"))) watch.seconds = timeout_of(value);
    else if ((value = value_of(k, "--glob"))) a->pattern = value;
    else if ((value = value_of(k, "--junit"))) a->asked.junit = value;
    else if ((value = value_of(k, "--color"))) a->colour = colour_of(value);
    else if ((value = value_of(k, "--jobs"))) a->asked.processes = process_count(value);
    return value != NULL;
}

static void take_argument(struct arguments *a, struct taking *k) {
    const char *arg = k->argument[k->at];
    if (strcmp(arg, "--help") == 0 || strcmp(arg, "-h") == 0) {
        put(&standard_output, help);
        exit(finished(0));
    } else if (strcmp(arg, "--version") == 0) {
        put(&standard_output, "linkcheck " CHECKER_VERSION "\n");
        exit(finished(0));
    } else if (strncmp(arg, "-j", 2) == 0) {
        a->asked.processes = process_count(arg[2] ? arg + 2 : k->at + 1 < k->count ? k->argument[++k->at] : NULL);
    } else if (strcmp(arg, "-q") == 0) {
        a->asked.quiet = true;
    } else if (strcmp(arg, "--around") == 0) {
        set_around(a, k->at + 1 < k->count ? k->argument[++k->at] : NULL);
    } else if (!take_value(a, k)) {
        take_option(a, arg);
    }
}

/* Takes the options and moves the operands to the front. */
static struct arguments take_arguments(int count, char **argument) {
    struct arguments a = {.asked.processes = 1, .operand = argument + 1};
    bool options_end = false;
    for (struct taking k = {argument, count, 1}; k.at < count; k.at++) {
        char *arg = argument[k.at];
        if (options_end || arg[0] != '-' || arg[1] == 0) a.operand[a.operands++] = arg;
        else if (strcmp(arg, "--") == 0) options_end = true;
        else take_argument(&a, &k);
    }
    expect_going_together(&a);
    return a;
}

static void expect_operands(const struct arguments *a, int least, int most) {
    if (a->operands < least) usage(a->mode_name ? "more is needed after" : "a file or folder is needed", a->mode_name);
    if (a->operands > most) usage("too many arguments", a->operand[most]);
}

static enum side side_of(const char *word) {
    if (strcmp(word, "impl") != 0 && strcmp(word, "spec") != 0) usage("impl or spec is due, not", word);
    return word[0] == 'i' ? IMPLEMENTATION : SPECIFICATION;
}

/* ---- one table ---- */

static int show(const char *name, const struct verdict *v) {
    struct output *out = &standard_output;
    if (v->whole) show_table(out, &v->table);
    put_name(out, name);
    put(out, "  ");
    print_result(out, v, WHOLE_RUN);
    if (result_of(v) == TURNED_DOWN) print_places(out, &v->fault);
    put(out, "\n");
    return exit_status(result_of(v));
}

/* Reads a table and checks it. Gives 0, or the exit status after a message that it couldn't be read. */
static int read_verdict(struct verdict *v, const char *name) {
    static struct text text;
    int error = text_read(&text, name);
    if (error) return complain(STATUS_UNREAD, name, strerror(error));
    return verdict_of(v, &text) ? 0 : complain(STATUS_UNREAD, name, other_rules);
}

static int show_one(const char *name) {
    static struct verdict verdict;
    const int status = read_verdict(&verdict, name);
    return status ? status : show(name, &verdict);
}

/* Writes what can be written of a table that is one: the system of a side, its states, or a picture. */
static int write_system(const char *name, enum mode mode, enum side side, const struct drawing *d) {
    static struct verdict verdict;
    const int status = read_verdict(&verdict, name);
    if (status) return status;
    if (verdict.outcome == CHECK_TURNED_DOWN) return turn_down(name, &verdict.fault);
    if (!verdict.whole) return complain(STATUS_UNREAD, name, other_rules);
    const char *why = mode == AUT   ? write_aut(&standard_output, &verdict.table, side)
                      : mode == DOT ? write_dot(&standard_output, name, &verdict, d)
                                    : write_aut_states(&standard_output, &verdict.table, side);
    return why ? complain(1, name, why) : 0;
}

static int system_of_side(const struct arguments *a) {
    if (a->operands == 1) usage("impl or spec is due before the file, after", a->mode_name);
    expect_operands(a, 2, 2);
    return write_system(a->operand[1], a->mode, side_of(a->operand[0]), NULL);
}

static int picture_of(const struct arguments *a) {
    struct drawing d = a->drawing;
    expect_operands(a, 1, 2);
    d.board = a->operands == 1 || side_of(a->operand[0]) == IMPLEMENTATION;
    d.ours = a->operands == 1 || !d.board;
    if (d.around && !d.board) usage("--around is for states of the implementation, not of", a->operand[0]);
    return write_system(a->operand[a->operands - 1], DOT, IMPLEMENTATION, &d);
}

/* ---- all of it ---- */

static void expect_one_standard_input(const struct arguments *a) {
    int given = 0;
    for (int i = 0; i < a->operands; i++) given += strcmp(a->operand[i], "-") == 0;
    if (a->duty) given += strcmp(a->duty, "-") == 0;
    if (given > 1) usage("standard input can be given once", "-");
}

/* Colours are for a terminal, unless NO_COLOR is set, or something else is asked for. */
static bool coloured(const struct arguments *a) {
    const char *no_color = getenv("NO_COLOR"), *terminal = getenv("TERM");
    if (a->asked.format != WORDS) return false;
    if (a->colour && strcmp(a->colour, "auto") != 0) return strcmp(a->colour, "always") == 0;
    return !(no_color && *no_color) && !(terminal && strcmp(terminal, "dumb") == 0) && isatty(STDOUT_FILENO);
}

static int check(const struct arguments *a) {
    struct paths paths = {.pattern = a->pattern ? a->pattern : "*.txt"};
    struct request asked = a->asked;
    asked.coloured = coloured(a);
    for (int i = 0; i < a->operands; i++) paths_add(&paths, a->operand[i]);
    int status = run(&paths, &asked);
    paths_free(&paths);
    return status;
}

/* The duty comes first: nothing is checked without it. */
static int with_duty(const struct arguments *a) {
    expect_operands(a, 1, a->mode == SHOW ? 1 : a->operands);
    expect_one_standard_input(a);
    const int status = a->duty ? duty_read(a->duty) : 0;
    if (status) return status;
    return a->mode == SHOW ? show_one(a->operand[0]) : check(a);
}

static int perform(const struct arguments *a) {
    switch (a->mode) {
    case WALK:
        expect_operands(a, 1, 1);
        if (strcmp(a->operand[0], "-") == 0) usage("standard input has the commands; the table is to be in a file", a->mode_name);
        return walk(&standard_output, a->operand[0]);
    case TYPED_COLUMNS:
        expect_operands(a, 0, 1);
        return write_columns(&standard_output, a->operands ? a->operand[0] : "-");
    case MARK:
    case UNMARK:
        expect_operands(a, 1, 1);
        return write_sort(&standard_output, a->operand[0], a->mode == MARK ? MARKED : UNMARKED);
    case MAKE_MEASURE:
        expect_operands(a, 1, 1);
        return write_measure(&standard_output, a->operand[0], a->asked.format);
    case AUT:
    case AUT_STATES: return system_of_side(a);
    case DOT: return picture_of(a);
    default: return with_duty(a);
    }
}

/* Opens a descriptor 0, 1 or 2 that is closed on nothing, as a file would get its number else: on a socket without another end, which can
 * be neither read nor written, nor opened once more under a name like /dev/stdin. */
static void fill_standard(void) {
    static const char *const names[] = {"standard input", "standard output", "standard error"};
    for (int file = STDIN_FILENO; file <= STDERR_FILENO; file++) {
        if (fcntl(file, F_GETFD) >= 0) continue;
        if (socket(AF_UNIX, SOCK_STREAM, 0) != file) exit(complain(STATUS_UNREAD, names[file], strerror(errno)));
        if (file == STDIN_FILENO) standard_input.error = EBADF;
        if (file == STDOUT_FILENO) standard_output.error = EBADF;
    }
}

int main(int count, char **argument) {
    fill_standard();
    const struct arguments a = take_arguments(count, argument);
    return finished(perform(&a));
}
