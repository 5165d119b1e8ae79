/* A library to be preloaded: it refuses the Nth request for memory that the program makes, or that and all behind it, or the Nth thread
   that it starts, and tells how many of both there were.

     REFUSE_REQUEST   N, counted from 1 (none: no request is refused)
     REFUSE_ON        is there: all requests behind the Nth are refused too
     REFUSE_THREAD    N, counted from 1 (none: each thread is started); the Nth is answered EAGAIN
     REFUSE_LINE      is there: a line says on standard output that a request is refused, as it is
     REFUSE_TOLD      a file that is to get the number of requests and that of threads, in one line, once the program ends
     REFUSE_SERVE     is there: the program is run as often as it is asked for, each run in a process of its own, which is made where
                      the program would begin. A line 'N ON T' on standard input asks for a run with these as REFUSE_REQUEST,
                      REFUSE_ON, if that isn't 0, and REFUSE_THREAD. Its standard input and outputs are the files REFUSE_STDIN,
                      REFUSE_STDOUT and REFUSE_STDERR. How it ended, as wait tells it, comes in a line on standard output. A run that
                      takes more than REFUSE_SECONDS ends by SIGALRM

   A request is a malloc or a realloc, which is all that the program's allocator calls. Threads may make some at once, so which one is
   the Nth then is another each time. A program with threads ends by _exit, which runs no destructor, so that is told there. */
#define _GNU_SOURCE
#include <dlfcn.h>
#include <errno.h>
#include <fcntl.h>
#include <pthread.h>
#include <stdio.h>
#include <stdlib.h>
#include <sys/syscall.h>
#include <sys/wait.h>
#include <unistd.h>

extern void *__libc_malloc(size_t size);
extern void *__libc_realloc(void *old, size_t size);

typedef int (*create_thread)(pthread_t *, const pthread_attr_t *, void *(*)(void *), void *);

static unsigned long requests;
static unsigned long refused;
static int goes_on;
static int has_line;
static unsigned long threads;
static unsigned long refused_thread;
static create_thread create;

static unsigned long number_in(const char *name) {
    const char *number = getenv(name);
    return number ? strtoul(number, NULL, 10) : 0;
}

__attribute__((noreturn)) static void leave(int status) {
    for (;;)
        syscall(SYS_exit_group, status);
}

/* The file that a variable names, in the place of a descriptor. Without it the run would be of something else, so it ends. */
static void use_file(const char *name, int flags, int place) {
    const char *path = getenv(name);
    int file = path ? open(path, flags, 0600) : -1;
    if (file < 0 || dup2(file, place) < 0)
        leave(99);
    close(file);
}

static void begin_run(void) {
    use_file("REFUSE_STDIN", O_RDONLY, STDIN_FILENO);
    use_file("REFUSE_STDOUT", O_WRONLY | O_TRUNC, STDOUT_FILENO);
    use_file("REFUSE_STDERR", O_WRONLY | O_TRUNC, STDERR_FILENO);
    if (truncate(getenv("REFUSE_TOLD"), 0))
        leave(99);
    alarm(number_in("REFUSE_SECONDS"));
}

/* A line of standard input, byte by byte, as there is no more than one at a time. False at its end. */
static int read_line(char *line, size_t room) {
    size_t length = 0;
    for (; length + 1 < room && read(STDIN_FILENO, line + length, 1) == 1; length++)
        if (line[length] == '\n') {
            line[length] = 0;
            return 1;
        }
    return 0;
}

/* Comes back in each run, and never where it serves. Only a run has anything refused. */
static void serve(void) {
    char line[80];
    unsigned long request, thread;
    int on, status;
    while (read_line(line, sizeof line) && sscanf(line, "%lu %d %lu", &request, &on, &thread) == 3) {
        pid_t run = fork();
        if (run == 0) {
            begin_run();
            refused = request;
            goes_on = on;
            refused_thread = thread;
            return;
        }
        if (run < 0 || waitpid(run, &status, 0) != run)
            break;
        dprintf(STDOUT_FILENO, "%d\n", status);
    }
    leave(0);
}

__attribute__((constructor)) static void begin(void) {
    create = (create_thread)dlsym(RTLD_NEXT, "pthread_create");
    refused_thread = number_in("REFUSE_THREAD");
    goes_on = getenv("REFUSE_ON") != NULL;
    has_line = getenv("REFUSE_LINE") != NULL;
    refused = number_in("REFUSE_REQUEST");
    if (getenv("REFUSE_SERVE"))
        serve();
    requests = 0;
}

static int is_refused(void) {
    unsigned long number = __atomic_add_fetch(&requests, 1, __ATOMIC_RELAXED);
    int is = number == refused || (goes_on && refused && number > refused);
    if (is && has_line)
        dprintf(STDOUT_FILENO, "a request is refused\n");
    return is;
}

void *malloc(size_t size) {
    return is_refused() ? NULL : __libc_malloc(size);
}

void *realloc(void *old, size_t size) {
    return is_refused() ? NULL : __libc_realloc(old, size);
}

int pthread_create(pthread_t *thread, const pthread_attr_t *attributes, void *(*begins)(void *), void *given) {
    unsigned long number = __atomic_add_fetch(&threads, 1, __ATOMIC_RELAXED);
    return number == refused_thread ? EAGAIN : create(thread, attributes, begins, given);
}

__attribute__((destructor)) static void tell(void) {
    unsigned long made = requests, started = threads;
    const char *path = getenv("REFUSE_TOLD");
    int file = path ? open(path, O_WRONLY | O_CREAT | O_TRUNC, 0644) : -1;
    if (file >= 0) {
        dprintf(file, "%lu %lu\n", made, started);
        close(file);
    }
}

void _exit(int status) {
    tell();
    leave(status);
}
