// Stands in for `read` and `write` in the program `watch`, where tools/try-streams preloads it: it makes the faults that the
// environment asks for on standard input and standard output, and leaves all other calls and programs alone.
//
//   FAULTY_PARTS=1         no call moves more than 1 to 7 bytes, in turn
//   FAULTY_INTERRUPTS=N    N calls are interrupted (EINTR) before each that is not
//   FAULTY_READ_FAILS=N    reads fail (EIO) once N bytes were read
//   FAULTY_WRITE_FAILS=N   writes fail (ENOSPC) once N bytes were written
//   FAULTY_WRITE_IDLES=N   writes take nothing, and do not fail, once N bytes were written
//   FAULTY_MADE=FILE       the program's end writes there which faults were made, a line for each kind
#define _GNU_SOURCE
#include <errno.h>
#include <stdbool.h>
#include <stdio.h>
#include <stdlib.h>
#include <string.h>
#include <sys/syscall.h>
#include <unistd.h>

// More calls than any run needs that goes on after each of them: a program that calls for ever is ended.
enum { MOST_CALLS = 1000000 };

enum fault { SHORT, INTERRUPTED, FAILED, IDLE, FAULTS };
static const char *const fault_names[FAULTS] = {"short", "interrupted", "failed", "idle"};

struct stream {
    const char *name;
    long call;          // the system's number of the call
    long calls;         // so far, with those that were interrupted
    long interrupted;   // since the last call that was not
    size_t through;     // calls that the system was asked for
    long left;          // bytes until every call fails or is idle; negative: it never is so
    int error;          // what such a call fails with; 0: it is idle
    bool made[FAULTS];
};

static struct stream input = {.name = "read", .call = SYS_read, .left = -1};
static struct stream output = {.name = "write", .call = SYS_write, .left = -1};
static bool steered, parts;
static long interrupts;

// The number that a variable of the environment holds; -1 where it is not set.
static long asked(const char *name)
{
    const char *text = getenv(name);
    return text ? strtol(text, NULL, 10) : -1;
}

static void end_after(struct stream *s, const char *name, int error)
{
    long bytes = asked(name);
    if (bytes >= 0) {
        s->left = bytes;
        s->error = error;
    }
}

__attribute__((constructor)) static void begin(void)
{
    // ./watch is a script, and the shell and the tools that it runs are preloaded too
    steered = strcmp(program_invocation_short_name, "watch") == 0;
    parts = asked("FAULTY_PARTS") > 0;
    interrupts = asked("FAULTY_INTERRUPTS");
    end_after(&input, "FAULTY_READ_FAILS", EIO);
    end_after(&output, "FAULTY_WRITE_FAILS", ENOSPC);
    end_after(&output, "FAULTY_WRITE_IDLES", 0);
}

static void tell(FILE *made, const struct stream *s)
{
    for (int f = 0; f < FAULTS; f++)
        if (s->made[f]) fprintf(made, "%s %s\n", fault_names[f], s->name);
}

__attribute__((destructor)) static void end(void)
{
    const char *path = getenv("FAULTY_MADE");
    FILE *made = steered && path ? fopen(path, "w") : NULL;
    if (!made) return;
    tell(made, &input);
    tell(made, &output);
    fclose(made);
}

static ssize_t failed(struct stream *s, enum fault fault, int error)
{
    s->made[fault] = true;
    errno = error;
    return -1;
}

static ssize_t idle(struct stream *s)
{
    s->made[IDLE] = true;
    return 0;
}

// How many of so many bytes the next call may move.
static size_t part_of(struct stream *s, size_t count)
{
    size_t most = parts ? 1 + s->through % 7 : count;
    if (s->left >= 0 && (size_t)s->left < most) most = s->left;
    if (most >= count) return count;
    s->made[SHORT] = true;
    return most;
}

static ssize_t move(struct stream *s, int fd, void *bytes, size_t count)
{
    if (++s->calls > MOST_CALLS) {
        dprintf(STDERR_FILENO, "faulty-streams: calls of %s without end\n", s->name);
        _exit(3);
    }
    if (s->interrupted < interrupts) {
        s->interrupted++;
        return failed(s, INTERRUPTED, EINTR);
    }
    s->interrupted = 0;
    if (s->left == 0) return s->error ? failed(s, FAILED, s->error) : idle(s);
    ssize_t moved = syscall(s->call, fd, bytes, part_of(s, count));
    s->through++;
    if (moved > 0 && s->left > 0) s->left -= moved;
    return moved;
}

ssize_t read(int fd, void *bytes, size_t count)
{
    return steered && fd == STDIN_FILENO ? move(&input, fd, bytes, count) : syscall(SYS_read, fd, bytes, count);
}

ssize_t write(int fd, const void *bytes, size_t count)
{
    return steered && fd == STDOUT_FILENO ? move(&output, fd, (void *)bytes, count) : syscall(SYS_write, fd, bytes, count);
}
