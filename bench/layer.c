/* Makes the calls of a trace, and says on standard error how many, in how many nanoseconds, and in how many of the processor's:
   `layer FILE TRACE [LINES [FILE..]]`. Each line of the trace is a kind and two numbers:
   `r POSITION LENGTH`, `w POSITION LENGTH`, `s 0 0`: a read, a write and a sync of the first file, or of the one that was chosen last
   by `f NUMBER 0`: the file of this number, counted from 0; it may be a folder;
   `t 0 LENGTH`: so many bytes are asked of standard input; `p 0 LENGTH`: so many bytes, the next of the file LINES, go to standard output. */
#define _GNU_SOURCE
#include <fcntl.h>
#include <stdio.h>
#include <stdlib.h>
#include <time.h>
#include <unistd.h>

struct call {
    char kind;
    int file;
    long pos;
    unsigned long len;
};

static char bytes[1 << 20];

static int make(const struct call *c, const char **lines)
{
    if (c->kind == 'r')
        return pread(c->file, bytes, c->len, c->pos) == (ssize_t)c->len;
    if (c->kind == 'w')
        return pwrite(c->file, bytes, c->len, c->pos) == (ssize_t)c->len;
    if (c->kind == 's')
        return fdatasync(c->file) == 0;
    if (c->kind == 't')
        return read(0, bytes, c->len) >= 0;
    *lines += c->len;
    return write(1, *lines - c->len, c->len) == (ssize_t)c->len;
}

static int open_any(const char *name)
{
    int file = open(name, O_RDWR);
    return file < 0 ? open(name, O_RDONLY) : file;
}

/* All bytes of a file, and in `left` their number. */
static char *loaded(const char *name, size_t *left)
{
    int file = open(name, O_RDONLY);
    off_t size = file < 0 ? -1 : lseek(file, 0, SEEK_END);
    char *all = size < 0 ? NULL : malloc(size + 1);
    for (off_t at = 0; all && at < size; ) {
        ssize_t got = pread(file, all + at, size - at, at);
        if (got <= 0)
            return NULL;
        at += got;
    }
    *left = size;
    return all;
}

/* The calls of a trace, and in `count` their number; each with its file. */
static struct call *traced(FILE *trace, const int *files, int last, size_t left, size_t *count)
{
    size_t room = 4096;
    int file = files[0];
    struct call *all = malloc(room * sizeof *all), next;
    for (*count = 0; fscanf(trace, " %c %ld %lu", &next.kind, &next.pos, &next.len) == 3; ) {
        if (next.kind == 'f') {
            if (next.pos < 0 || next.pos > last)
                return NULL;
            file = files[next.pos];
            continue;
        }
        if (*count == room)
            all = realloc(all, (room *= 2) * sizeof *all);
        if (!all || next.len > sizeof bytes || (next.kind == 'p' && next.len > left))
            return NULL;
        left -= next.kind == 'p' ? next.len : 0;
        next.file = file;
        all[(*count)++] = next;
    }
    return all;
}

static long long nanos(clockid_t clock)
{
    struct timespec now;
    clock_gettime(clock, &now);
    return now.tv_sec * 1000000000LL + now.tv_nsec;
}

int main(int count, char **words)
{
    int files[16], last = 0;
    if (count < 3 || count > 18)
        return 2;
    FILE *trace = fopen(words[2], "r");
    files[0] = open_any(words[1]);
    for (int n = 4; n < count; n++)
        files[++last] = open_any(words[n]);
    for (int n = 0; n <= last; n++)
        if (files[n] < 0)
            return 1;
    size_t left = 0, number;
    const char *lines = count > 3 ? loaded(words[3], &left) : "";
    struct call *all = trace && lines ? traced(trace, files, last, left, &number) : NULL;
    if (!all)
        return 1;
    long long spent = nanos(CLOCK_PROCESS_CPUTIME_ID), from = nanos(CLOCK_MONOTONIC);
    for (size_t i = 0; i < number; i++)
        if (!make(&all[i], &lines))
            return 1;
    from = nanos(CLOCK_MONOTONIC) - from;
    spent = nanos(CLOCK_PROCESS_CPUTIME_ID) - spent;
    fprintf(stderr, "%zu %lld %lld\n", number, from, spent);
    return 0;
}
