/* A heap that refuses one growth. tests/program.d/growths preloads it into crates/memory_trials,
   whose watch.rt names the growth, and into the program itself.

   The program is run again and again, in a process of its own each time, where REFUSED says
   "growths" or "starts": once with ample memory, and then with its first growth of all threads
   together, or start of a thread, refused, with its second, and so on, until none is. Each run in
   which one was refused has to end with status 4 and the line "no memory", and may have written
   nothing but answers to edits. One that doesn't is told, with status 70. If all do, what the run
   with ample memory wrote is written, and its status is given; and to descriptor 9 how many were
   refused. The last run, in which none was refused, has to write the same.

   For memory_trials requests of two kinds of sizes, which no heap can meet, are messages. ARM +
   (thread << 24) + growth: from now on this growth of this thread is refused, the thread that asks
   being 0 and those that are started since then 1, 2 and so on; for thread 255 the start of this
   number is refused. ASK: answered with a block where a growth was refused since then, with none
   where not. What a start itself asks for isn't counted. */
#define _GNU_SOURCE
#include <dlfcn.h>
#include <errno.h>
#include <pthread.h>
#include <stdatomic.h>
#include <stddef.h>
#include <stdint.h>
#include <stdio.h>
#include <stdlib.h>
#include <string.h>
#include <sys/mman.h>
#include <sys/wait.h>
#include <unistd.h>

#define ARM 0x5EED00000000u
#define ASK 0x5EEE00000000u
#define STARTS 255

extern void *__libc_malloc(size_t size);
extern void *__libc_realloc(void *block, size_t size);

static atomic_uint armed_thread, armed_growth, refused, started;
/* The number of this thread since growths were named, how many it has asked for, and whether it is
   starting another. */
static _Thread_local unsigned number, asked;
static _Thread_local int is_starting;

/* The growth and the start that are refused to this process, or 0; how many growths all of its
   threads have asked for; and whether one of either was refused, in memory that it shares with the
   process that looks at it. */
static unsigned named, named_start;
static atomic_uint asked_by_all;
static atomic_uint *was_refused;

/* Whether this growth is the one that is refused to this process. */
static int is_named(void) {
    if (is_starting || atomic_fetch_add(&asked_by_all, 1) + 1 != named)
        return 0;
    atomic_store(was_refused, 1);
    return 1;
}

/* Whether this growth is the one to be refused. */
static int is_refused(void) {
    if (named != 0)
        return is_named();
    if (is_starting || atomic_load(&armed_growth) == 0 || number != atomic_load(&armed_thread))
        return 0;
    if (++asked != atomic_load(&armed_growth))
        return 0;
    atomic_store(&refused, 1);
    return 1;
}

static void *message(size_t size) {
    if (size == ASK) {
        unsigned was = atomic_exchange(&refused, 0);
        atomic_store(&armed_growth, 0);
        return was ? __libc_malloc(1) : NULL;
    }
    atomic_store(&armed_thread, (unsigned)((size - ARM) >> 24));
    atomic_store(&armed_growth, (unsigned)((size - ARM) & 0xFFFFFF));
    atomic_store(&refused, 0);
    atomic_store(&started, 0);
    number = 0;
    asked = 0;
    return NULL;
}

static int is_message(size_t size) {
    return (size >= ARM && size < ARM + 0x100000000u) || size == ASK;
}

void *malloc(size_t size) {
    if (is_message(size))
        return message(size);
    return is_refused() ? NULL : __libc_malloc(size);
}

void *realloc(void *block, size_t size) {
    if (is_message(size))
        return message(size);
    return is_refused() ? NULL : __libc_realloc(block, size);
}

/* A start: its routine, and the number that its thread gets. As many as run at once. */
struct start {
    void *(*routine)(void *);
    void *argument;
    unsigned number;
};

static struct start starts[4096];
static atomic_uint next_start;

static void *run_numbered(void *given) {
    struct start *start = given;
    number = start->number;
    asked = 0;
    return start->routine(start->argument);
}

static int (*create)(pthread_t *, const pthread_attr_t *, void *(*)(void *), void *);

/* What a run has ended with. */
struct run {
    int status, out, err;
};

/* Runs the program in a process of its own, and waits for its end. There it returns, with nothing
   of the run. */
static int run_with(unsigned growth, unsigned start, struct run *run) {
    run->out = memfd_create("out", 0);
    run->err = memfd_create("err", 0);
    /* The lines of a session are read anew. */
    lseek(0, 0, SEEK_SET);
    atomic_store(was_refused, 0);
    pid_t process = fork();
    if (process == 0) {
        dup2(run->out, 1);
        dup2(run->err, 2);
        named = growth;
        named_start = start;
        return 0;
    }
    waitpid(process, &run->status, 0);
    run->status = WIFEXITED(run->status) ? WEXITSTATUS(run->status) : 128 + WTERMSIG(run->status);
    return 1;
}

/* What was written, and a 0 behind it. */
static char *text_in(int file, size_t *size) {
    *size = (size_t)lseek(file, 0, SEEK_END);
    char *text = __libc_malloc(*size + 1);
    text[pread(file, text, *size, 0)] = 0;
    close(file);
    return text;
}

/* Whether a text is the front of another, and one that the command may leave: none, lines of
   answers to edits, or the first lines of a table or of a session. */
static int is_front(const char *command, const char *text, size_t size, const char *whole,
                    size_t all) {
    if (size > all || memcmp(text, whole, size) != 0)
        return 0;
    if (strcmp(command, "table") == 0 || strcmp(command, "session") == 0)
        return size == 0 || text[size - 1] == '\n';
    if (strcmp(command, "whatif") != 0)
        return size == 0;
    for (const char *line = text; *line != 0; line = strchr(line, '\n') + 1)
        if (strncmp(line, "EDIT ", 5) != 0 || strchr(line, '\n') == NULL)
            return 0;
    return 1;
}

static void end(int status) {
    fflush(NULL);
    _exit(status);
}

/* Runs the program with each growth or start refused in turn. It returns in the process of each
   run, and in no other. */
static void refuse_each(int is_start, const char *command) {
    struct run run;
    size_t all, all_err, size, size_err;
    if (run_with(0, 0, &run) == 0)
        return;
    int status = run.status;
    char *whole = text_in(run.out, &all), *whole_err = text_in(run.err, &all_err);
    for (unsigned number = 1;; number++) {
        if (run_with(is_start ? 0 : number, is_start ? number : 0, &run) == 0)
            return;
        char *out = text_in(run.out, &size), *err = text_in(run.err, &size_err);
        int is_last = !atomic_load(was_refused);
        int is_right = is_last ? run.status == status && size == all &&
                                     memcmp(out, whole, all) == 0 && strcmp(err, whole_err) == 0
                               : run.status == 4 && strcmp(err, "no memory\n") == 0 &&
                                     is_front(command, out, size, whole, all);
        if (!is_right) {
            fprintf(stderr, "with %u refused: status %d: %.300s%.300s\n", number, run.status, err,
                    out);
            end(70);
        }
        if (is_last) {
            fwrite(whole, 1, all, stdout);
            fwrite(whole_err, 1, all_err, stderr);
            dprintf(9, "%u\n", number - 1);
            end(status);
        }
        free(out);
        free(err);
    }
}

/* Before main, since looking up a name may ask for memory. */
__attribute__((constructor)) static void begin(int count, char **words) {
    create = (int (*)(pthread_t *, const pthread_attr_t *, void *(*)(void *), void *))dlsym(
        RTLD_NEXT, "pthread_create");
    const char *what = getenv("REFUSED");
    was_refused = mmap(NULL, sizeof *was_refused, PROT_READ | PROT_WRITE,
                       MAP_SHARED | MAP_ANONYMOUS, -1, 0);
    if (what != NULL)
        refuse_each(strcmp(what, "starts") == 0, count > 1 ? words[1] : "");
}

int pthread_create(pthread_t *thread, const pthread_attr_t *attributes, void *(*routine)(void *),
                   void *argument) {
    unsigned mine = atomic_fetch_add(&started, 1) + 1;
    if (atomic_load(&armed_thread) == STARTS && atomic_load(&armed_growth) == mine) {
        atomic_store(&refused, 1);
        return EAGAIN;
    }
    if (mine == named_start) {
        atomic_store(was_refused, 1);
        return EAGAIN;
    }
    struct start *start = &starts[atomic_fetch_add(&next_start, 1) % 4096];
    *start = (struct start){routine, argument, mine};
    is_starting = 1;
    int status = create(thread, attributes, run_numbered, start);
    is_starting = 0;
    return status;
}
