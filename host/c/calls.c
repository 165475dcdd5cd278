/* Counts the calls of read on standard input and of write on standard output. A program is lent this by LD_PRELOAD.
   At its exit the two counts go to the file that CALLS_FILE names.
   CALLS_SIZES may hold numbers with a comma between them: a read then gives no more bytes than the next of them says, and
   after the last comes the first again. CALLS_FAIL may hold a number: after so many bytes every read fails. CALLS_WRITE may hold
   a number: a write then takes no more bytes than that. */
#define _GNU_SOURCE
#include <dlfcn.h>
#include <errno.h>
#include <stdio.h>
#include <stdlib.h>
#include <unistd.h>

typedef ssize_t read_call(int file, void *bytes, size_t length);
typedef ssize_t write_call(int file, const void *bytes, size_t length);

static unsigned long reads;
static size_t given;
static unsigned long writes;

static size_t least(size_t one, size_t other)
{
    return one < other ? one : other;
}

/* The number that a variable holds, or the largest. */
static size_t number(const char *name)
{
    const char *text = getenv(name);

    return text == NULL ? (size_t)-1 : strtoul(text, NULL, 10);
}

static size_t next_size(size_t length)
{
    static const char *next = "";
    const char *sizes = getenv("CALLS_SIZES");
    char *end;
    size_t size;

    if (sizes == NULL || *sizes == '\0')
        return length;
    if (*next == '\0')
        next = sizes;
    size = strtoul(next, &end, 10);
    next = *end == ',' ? end + 1 : end;
    return least(length, size);
}

ssize_t read(int file, void *bytes, size_t length)
{
    read_call *call = (read_call *)dlsym(RTLD_NEXT, "read");
    size_t left = number("CALLS_FAIL") - given;
    ssize_t result;

    if (file != STDIN_FILENO)
        return call(file, bytes, length);
    reads++;
    if (left == 0) {
        errno = EIO;
        return -1;
    }
    result = call(file, bytes, least(next_size(length), left));
    if (result > 0)
        given += (size_t)result;
    return result;
}

ssize_t write(int file, const void *bytes, size_t length)
{
    write_call *call = (write_call *)dlsym(RTLD_NEXT, "write");

    if (file != STDOUT_FILENO)
        return call(file, bytes, length);
    writes++;
    return call(file, bytes, least(length, number("CALLS_WRITE")));
}

__attribute__((destructor)) static void tell(void)
{
    const char *name = getenv("CALLS_FILE");
    FILE *file = name == NULL ? NULL : fopen(name, "w");

    if (file == NULL)
        return;
    fprintf(file, "%lu %lu\n", reads, writes);
    fclose(file);
}
