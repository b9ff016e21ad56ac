/* A library to be preloaded (LD_PRELOAD) that makes one call of one function of the system go wrong, or every call of it. The environment
 * says which:
 *
 *   FAULT_CALL     the function's name
 *   FAULT_AT       the number of the call, from 1, counted over all processes; 0 for every call
 *   FAULT_HOW      an errno's number; or "short", by which read and write move one byte; "kill", by which the process is killed; "flip K",
 *                  by which write changes byte K of what it is given
 *   FAULT_IN       "worker" if calls of the first process don't count
 *   FAULT_REACHED  a file that gets a byte when the call is reached
 *
 * A process that has not ended after a minute is killed by SIGALRM, so that a test can't hang. */
#define _GNU_SOURCE
#include <dirent.h>
#include <dlfcn.h>
#include <errno.h>
#include <fcntl.h>
#include <signal.h>
#include <stdarg.h>
#include <stdatomic.h>
#include <stdbool.h>
#include <stdio.h>
#include <stdlib.h>
#include <string.h>
#include <sys/mman.h>
#include <sys/socket.h>
#include <sys/stat.h>
#include <sys/syscall.h>
#include <sys/wait.h>
#include <unistd.h>

static const char *wanted, *how, *reached;
static long at;
static bool in_workers;
static pid_t first;
static atomic_long *count; /* shared by all processes; NULL as long as nothing is counted */

static const char *setting(const char *name) {
    const char *value = getenv(name);
    return value ? value : "";
}

__attribute__((constructor)) static void start(void) {
    wanted = setting("FAULT_CALL");
    how = setting("FAULT_HOW");
    reached = setting("FAULT_REACHED");
    at = atol(setting("FAULT_AT"));
    in_workers = strcmp(setting("FAULT_IN"), "worker") == 0;
    first = getpid();
    alarm(60);
    void *shared = mmap(NULL, sizeof *count, PROT_READ | PROT_WRITE, MAP_SHARED | MAP_ANONYMOUS, -1, 0);
    if (shared != MAP_FAILED) count = shared;
}

/* By system calls alone, as the functions are those of this library. */
static void tell(void) {
    long file = syscall(SYS_openat, AT_FDCWD, reached, O_CREAT | O_WRONLY, 0600);
    syscall(SYS_write, file, "x", 1);
    syscall(SYS_close, file);
}

/* Whether this call is to go wrong; errno is set then, if it is to fail by one. */
static bool struck(const char *call) {
    if (!count || strcmp(call, wanted) != 0 || (in_workers && getpid() == first)) return false;
    long number = atomic_fetch_add(count, 1) + 1;
    if (at != 0 && number != at) return false;
    if (*reached) tell();
    if (strcmp(how, "kill") == 0) kill(getpid(), SIGKILL);
    errno = atoi(how);
    return true;
}

/* The function that would be called without this library. */
#define THE_REAL(name) ((__typeof__(&name))real(#name))

static void *real(const char *name) {
    void *function = dlsym(RTLD_NEXT, name);
    if (!function) abort();
    return function;
}

/* ---- bytes ---- */

ssize_t read(int file, void *bytes, size_t length) {
    if (!struck("read")) return THE_REAL(read)(file, bytes, length);
    return strcmp(how, "short") == 0 ? THE_REAL(read)(file, bytes, length > 1 ? 1 : length) : -1;
}

static ssize_t write_flipped(int file, const void *bytes, size_t length, size_t place) {
    unsigned char flipped[1 << 16];
    if (length > sizeof flipped) abort();
    memcpy(flipped, bytes, length);
    if (place < length) flipped[place] ^= 0xFF;
    return THE_REAL(write)(file, flipped, length);
}

ssize_t write(int file, const void *bytes, size_t length) {
    if (!struck("write")) return THE_REAL(write)(file, bytes, length);
    if (strcmp(how, "short") == 0) return THE_REAL(write)(file, bytes, length > 1 ? 1 : length);
    return strncmp(how, "flip ", 5) == 0 ? write_flipped(file, bytes, length, (size_t)atol(how + 5)) : -1;
}

/* The descriptor is closed also where that goes wrong, as on Linux. */
int close(int file) {
    bool fails = struck("close");
    int error = errno, result = THE_REAL(close)(file);
    if (!fails) return result;
    errno = error;
    return -1;
}

/* ---- memory ---- */

/* What is asked for before the real functions are known comes from here, and stays. */
static void *early_memory(size_t size) {
    static _Alignas(16) char memory[1 << 14];
    static size_t used;
    size_t start = used;
    used += (size + 15) / 16 * 16;
    return used <= sizeof memory ? memory + start : NULL;
}

static bool looking; /* for the real functions, which may need memory itself */

static void *real_memory(const char *name) {
    looking = true;
    void *function = real(name);
    looking = false;
    return function;
}

void *malloc(size_t size) {
    static void *(*the_real)(size_t);
    if (looking) return early_memory(size);
    if (!the_real) the_real = (void *(*)(size_t))real_memory("malloc");
    return struck("malloc") ? NULL : the_real(size);
}

void *calloc(size_t number, size_t size) {
    static void *(*the_real)(size_t, size_t);
    if (looking) return early_memory(number * size);
    if (!the_real) the_real = (void *(*)(size_t, size_t))real_memory("calloc");
    return struck("calloc") ? NULL : the_real(number, size);
}

void *realloc(void *memory, size_t size) {
    static void *(*the_real)(void *, size_t);
    if (!the_real) the_real = (void *(*)(void *, size_t))real_memory("realloc");
    return struck("realloc") ? NULL : the_real(memory, size);
}

/* ---- files and processes ---- */

int open(const char *path, int flags, ...) {
    va_list more;
    va_start(more, flags);
    const mode_t mode = flags & O_CREAT ? va_arg(more, mode_t) : 0;
    va_end(more);
    return struck("open") ? -1 : THE_REAL(open)(path, flags, mode);
}

int rename(const char *from, const char *to) {
    return struck("rename") ? -1 : THE_REAL(rename)(from, to);
}

int fsync(int file) {
    return struck("fsync") ? -1 : THE_REAL(fsync)(file);
}

void *mmap(void *at, size_t length, int protection, int flags, int file, off_t offset) {
    return struck("mmap") ? MAP_FAILED : THE_REAL(mmap)(at, length, protection, flags, file, offset);
}

int fcntl(int file, int command, ...) {
    return struck("fcntl") ? -1 : THE_REAL(fcntl)(file, command, 0);
}

int stat(const char *path, struct stat *file) {
    return struck("stat") ? -1 : THE_REAL(stat)(path, file);
}

int lstat(const char *path, struct stat *file) {
    return struck("lstat") ? -1 : THE_REAL(lstat)(path, file);
}

int scandir(const char *folder, struct dirent ***list, int (*filter)(const struct dirent *),
            int (*order)(const struct dirent **, const struct dirent **)) {
    return struck("scandir") ? -1 : THE_REAL(scandir)(folder, list, filter, order);
}

int socket(int domain, int type, int protocol) {
    return struck("socket") ? -1 : THE_REAL(socket)(domain, type, protocol);
}

int pipe(int ends[2]) {
    return struck("pipe") ? -1 : THE_REAL(pipe)(ends);
}

pid_t fork(void) {
    return struck("fork") ? -1 : THE_REAL(fork)();
}

pid_t waitpid(pid_t process, int *status, int options) {
    return struck("waitpid") ? -1 : THE_REAL(waitpid)(process, status, options);
}
