/* A C library in front of the real one, for tools/failures: `read` and `write` on descriptors 0 and 1 move fewer bytes than asked, are
 * interrupted or not ready now and then, and from a given call on fail. FAULTS is "SEED READS WRITES": the numbers of the calls from which
 * on each fails, 0 for never. */
#define _GNU_SOURCE
#include <dlfcn.h>
#include <errno.h>
#include <stdio.h>
#include <stdlib.h>
#include <unistd.h>

typedef ssize_t (*reader)(int, void *, size_t);
typedef ssize_t (*writer)(int, const void *, size_t);

static unsigned long dice = 1, calls[2], last[2];

static void begin(void)
{
    static int begun;
    const char *faults = getenv("FAULTS");
    if (!begun && faults)
        sscanf(faults, "%lu %lu %lu", &dice, &last[0], &last[1]);
    begun = 1;
}

static unsigned long roll(unsigned long n)
{
    dice = dice * 6364136223846793005UL + 1442695040888963407UL;
    return (dice >> 33) % n;
}

/* how many bytes of n a call may move, or -1 with the error set */
static ssize_t fate(int fd, size_t n)
{
    begin();
    calls[fd]++;
    if (last[fd] && calls[fd] >= last[fd]) {
        errno = EIO;
        return -1;
    }
    switch (roll(5)) {
    case 0:
        errno = EINTR;
        return -1;
    case 1:
        errno = EAGAIN;
        return -1;
    case 2:
        return n ? 1 : 0;
    default:
        return n ? (ssize_t)(1 + roll(n)) : 0;
    }
}

ssize_t read(int fd, void *buffer, size_t n)
{
    reader real = (reader)dlsym(RTLD_NEXT, "read");
    ssize_t most = (ssize_t)n;
    if (fd == 0 && (most = fate(fd, n)) < 0)
        return -1;
    return real(fd, buffer, (size_t)most);
}

ssize_t write(int fd, const void *buffer, size_t n)
{
    writer real = (writer)dlsym(RTLD_NEXT, "write");
    ssize_t most = (ssize_t)n;
    if (fd == 1 && (most = fate(fd, n)) < 0)
        return -1;
    return real(fd, buffer, (size_t)most);
}
