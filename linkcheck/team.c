/* Several processes. They share a little memory, by which each takes the next file and says how far it has come, and send their answers
 * through pipes to the first process, which keeps those that come before their turn. */
#define _DEFAULT_SOURCE /* for MAP_ANONYMOUS */
#define _POSIX_C_SOURCE 200809L
#include "team.h"
#include "run.h"
#include "watch.h"

#include <errno.h>
#include <poll.h>
#include <signal.h>
#include <stdatomic.h>
#include <stdlib.h>
#include <sys/mman.h>
#include <sys/types.h>
#include <sys/wait.h>
#include <unistd.h>

enum { NONE = -1 };

struct worker {
    pid_t process;
    int answers; /* the reading end of its pipe; NONE after its end, or after something else than an answer came */
};

/* How far a process has come with a file, counted from 1; 0 while that is written. */
struct place {
    _Atomic size_t file, examined, states;
};

struct shared {
    _Atomic size_t next; /* the first file that no process has taken */
    struct place place[MOST_PROCESSES];
    _Atomic uint16_t taken_by[]; /* for each file: the process that has taken it, counted from 1; 0 if none has */
};

/* The answer to a file, which is kept until its turn comes. */
struct slot {
    bool answered;
    struct answer answer;
};

struct team {
    const struct paths *paths;
    enum format format;
    bool telling;
    struct shared *shared;
    struct slot *slot; /* by file */
    size_t started, running, answered;
    struct worker worker[MOST_PROCESSES];
};

/* ---- a process ---- */

static int answers_to;          /* the writing end of a worker's pipe */
static struct place *own_place; /* where it says how far it has come */
static size_t own_file;         /* with which file, counted from 1 */

/* A worker ends when nobody can read its answers any more, as the first process is gone. It looks every second. */
static void look_for_reader(int alarm_signal) {
    const int kept = errno;
    struct pollfd end = {.fd = answers_to};
    (void)alarm_signal;
    if (poll(&end, 1, 0) > 0) _exit(STATUS_UNREAD);
    alarm(1);
    errno = kept;
}

static void end_with_reader(int to) {
    struct sigaction look = {.sa_handler = look_for_reader, .sa_flags = SA_RESTART};
    sigset_t alarms;
    answers_to = to;
    sigemptyset(&alarms);
    sigaddset(&alarms, SIGALRM);
    sigaction(SIGALRM, &look, NULL);
    sigprocmask(SIG_UNBLOCK, &alarms, NULL);
    alarm(1);
}

static void tell_place(size_t examined, size_t states) {
    own_place->file = 0;
    own_place->examined = examined;
    own_place->states = states;
    own_place->file = own_file;
}

static _Noreturn void work(const struct team *t, size_t k, int to) {
    struct shared *s = t->shared;
    end_with_reader(to);
    own_place = &s->place[k];
    if (t->telling) watch.tell = tell_place;
    for (size_t i; (i = atomic_fetch_add(&s->next, 1)) < t->paths->count;) {
        s->taken_by[i] = (uint16_t)(k + 1);
        own_file = i + 1;
        struct answer a = answer_to(&t->paths->path[i], t->format);
        if (!send_answer(to, i, &a)) _exit(STATUS_UNREAD);
        free(a.words);
    }
    _exit(0);
}

/* Starts worker k. It holds the writing end of its own pipe, and no end of another's. */
static bool start_worker(struct team *t, size_t k) {
    int ends[2];
    if (pipe(ends) != 0) return false;
    t->worker[k] = (struct worker){.process = fork(), .answers = ends[0]};
    if (t->worker[k].process == 0) {
        for (size_t other = 0; other <= k; other++) close(t->worker[other].answers);
        work(t, k, ends[1]);
    }
    close(ends[1]);
    if (t->worker[k].process < 0) close(ends[0]);
    return t->worker[k].process > 0;
}

/* ---- the first process ---- */

static size_t shared_size(const struct paths *paths) {
    return sizeof(struct shared) + paths->count * sizeof(_Atomic uint16_t);
}

static void team_free(struct team *t) {
    munmap(t->shared, shared_size(t->paths));
    free(t->slot);
    free(t);
}

struct team *team_start(const struct paths *paths, enum format format, size_t processes, bool telling) {
    void *shared = mmap(NULL, shared_size(paths), PROT_READ | PROT_WRITE, MAP_SHARED | MAP_ANONYMOUS, -1, 0);
    if (shared == MAP_FAILED) return NULL;
    struct team *t = calloc(1, sizeof *t);
    if (!t) no_memory();
    *t = (struct team){.paths = paths, .format = format, .telling = telling, .shared = shared};
    t->slot = calloc(paths->count, sizeof *t->slot);
    if (!t->slot) no_memory();
    while (t->started < processes && start_worker(t, t->started)) t->started++;
    t->running = t->started;
    if (t->started > 0) return t;
    team_free(t);
    return NULL;
}

static void keep_answer(struct team *t, size_t file, struct answer a) {
    t->slot[file] = (struct slot){true, a};
    t->answered++;
}

static void keep_not_checked(struct team *t, size_t file) {
    keep_answer(t, file, unread("not checked, as the process for it failed"));
}

/* Nothing more comes from a worker: what it has taken and not answered is not checked. */
static void dismiss(struct team *t, size_t k) {
    close(t->worker[k].answers);
    t->worker[k].answers = NONE;
    t->running--;
    for (size_t i = 0; i < t->paths->count; i++)
        if (t->shared->taken_by[i] == k + 1 && !t->slot[i].answered) keep_not_checked(t, i);
}

/* Takes what a worker has sent. */
static void take_from(struct team *t, size_t k) {
    struct answer a;
    size_t file;
    if (!take_answer(t->worker[k].answers, t->paths, &file, &a)) {
        dismiss(t, k);
    } else if (t->shared->taken_by[file] != k + 1 || t->slot[file].answered) {
        free(a.words);
        dismiss(t, k);
    } else {
        keep_answer(t, file, a);
    }
}

/* Waits until some worker has sent something, or has ended. */
static void wait_for_some(struct team *t, bool a_second) {
    struct pollfd end[MOST_PROCESSES];
    for (size_t k = 0; k < t->started; k++) end[k] = (struct pollfd){.fd = t->worker[k].answers, .events = POLLIN};
    if (poll(end, (nfds_t)t->started, a_second ? 1000 : -1) <= 0) return;
    for (size_t k = 0; k < t->started; k++)
        if (end[k].revents) take_from(t, k);
}

bool team_answer(struct team *t, size_t file, struct answer *a, bool a_second) {
    do {
        if (!t->slot[file].answered && t->running == 0) keep_not_checked(t, file);
        if (t->slot[file].answered) {
            *a = t->slot[file].answer;
            return true;
        }
        wait_for_some(t, a_second);
    } while (!a_second);
    return false;
}

size_t team_done(const struct team *t) {
    return t->answered;
}

struct team_place team_place(const struct team *t, size_t file) {
    const size_t k = t->shared->taken_by[file];
    if (k == 0) return (struct team_place){0};
    const struct place *p = &t->shared->place[k - 1];
    const bool before = p->file == file + 1;
    const struct team_place at = {p->examined, p->states};
    return before && p->file == file + 1 ? at : (struct team_place){0};
}

void team_end(struct team *t) {
    for (size_t k = 0; k < t->started; k++) {
        if (t->worker[k].answers != NONE) close(t->worker[k].answers);
        while (waitpid(t->worker[k].process, NULL, 0) < 0 && errno == EINTR) continue;
    }
    team_free(t);
}
