/* Refuses allocations of the program that it is loaded into, for scripts/refuse-memory.

At each call that asks for memory it lets two children go on without. Of each it writes to the file REFUSALS a line and then the bytes
that the child wrote: the call's number, whether all calls after it were refused too, the child's status or the signal that ended it
below 0, how many bytes had been written before, and how many the child wrote to its output and to its error output. */
#define _GNU_SOURCE
#include <dlfcn.h>
#include <fcntl.h>
#include <stdio.h>
#include <stdlib.h>
#include <sys/mman.h>
#include <sys/sendfile.h>
#include <sys/stat.h>
#include <sys/wait.h>
#include <unistd.h>
enum { FILES = 16, SECONDS = 60 };
static unsigned long calls, every = 1;
static int records = -1, child_out, child_err, is_child, is_lasting, is_busy;
static void *(*real_malloc)(size_t), *(*real_calloc)(size_t, size_t), *(*real_realloc)(void *, size_t);
static int (*real_memalign)(void **, size_t, size_t);
__attribute__((constructor)) static void begin(void) {
    real_malloc = dlsym(RTLD_NEXT, "malloc");
    real_calloc = dlsym(RTLD_NEXT, "calloc");
    real_realloc = dlsym(RTLD_NEXT, "realloc");
    real_memalign = dlsym(RTLD_NEXT, "posix_memalign");
    const char *name = getenv("REFUSALS");
    if (!name) return;
    if (getenv("EVERY")) every = strtoul(getenv("EVERY"), NULL, 10);
    child_out = fcntl(memfd_create("out", 0), F_DUPFD_CLOEXEC, FILES);
    child_err = fcntl(memfd_create("err", 0), F_DUPFD_CLOEXEC, FILES);
    records = fcntl(open(name, O_WRONLY | O_CREAT | O_TRUNC, 0600), F_DUPFD_CLOEXEC, FILES);
    if (records < 0 || child_out < 0 || child_err < 0) abort();
}
static void empty(int file) {
    if (ftruncate(file, 0) || lseek(file, 0, SEEK_SET)) abort();
}
static long length_of(int file) {
    struct stat found;
    return fstat(file, &found) ? -1 : (long)found.st_size;
}
static void copy(int from, long length) {
    off_t place = 0;
    while (place < length)
        if (sendfile(records, from, &place, length - place) <= 0) abort();
}
static void note(int status) {
    char line[160];
    long out = length_of(child_out), err = length_of(child_err);
    int ended = WIFEXITED(status) ? WEXITSTATUS(status) : -WTERMSIG(status);
    int length = snprintf(line, sizeof line, "%lu %d %d %ld %ld %ld\n", calls, is_lasting, ended, (long)lseek(1, 0, SEEK_CUR), out, err);
    if (write(records, line, length) != length) abort();
    copy(child_out, out);
    copy(child_err, err);
}
/* Whether this is the child. It shares the places in open files, so they are set back when it has ended. */
static int go_on_without(int lasting) {
    off_t places[FILES];
    int status;
    for (int file = 0; file < FILES; file++) places[file] = lseek(file, 0, SEEK_CUR);
    empty(child_out);
    empty(child_err);
    is_lasting = lasting;
    pid_t child = fork();
    if (child == 0) {
        is_child = 1;
        dup2(child_out, 1);
        dup2(child_err, 2);
        alarm(SECONDS);
        return 1;
    }
    if (child < 0 || waitpid(child, &status, 0) != child) abort();
    for (int file = 0; file < FILES; file++)
        if (places[file] >= 0) lseek(file, places[file], SEEK_SET);
    note(status);
    return 0;
}
static int is_refused(void) {
    if (is_child) return is_lasting;
    if (records < 0 || is_busy) return 0;
    if (++calls % every) return 0;
    is_busy = 1;
    if (go_on_without(0) || go_on_without(1)) return 1;
    is_busy = 0;
    return 0;
}
void *malloc(size_t size) {
    if (!real_malloc) real_malloc = dlsym(RTLD_NEXT, "malloc");
    return is_refused() ? NULL : real_malloc(size);
}
void *calloc(size_t count, size_t size) {
    if (!real_calloc) return NULL;
    return is_refused() ? NULL : real_calloc(count, size);
}
void *realloc(void *old, size_t size) { return is_refused() ? NULL : real_realloc(old, size); }
int posix_memalign(void **to, size_t align, size_t size) { return is_refused() ? 12 : real_memalign(to, align, size); }
