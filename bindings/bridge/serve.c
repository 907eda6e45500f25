/* The far side of the bridge: an x86-64 program with the proved library in it, which runs under the emulator. It takes a call, makes it over
 * the lists in the shared memory, and answers with the number that came back, until the near side, calls.c, closes the line.
 *
 * usage: serve MEMORY LINE, the numbers of two open files */
#include "bridge.h"
#include "dustmap.h"
#include <signal.h>
#include <stdio.h>
#include <stdlib.h>
#include <string.h>
#include <sys/mman.h>
#include <unistd.h>

static unsigned char *memory;
static size_t mapped;

static int32_t made(const struct bridge_call *call)
{
    const uint64_t *n = call->counts;
    const int32_t *told = call->numbers;
    void *list[BRIDGE_LISTS];
    double d[BRIDGE_DOUBLES];
    for (int i = 0; i < BRIDGE_LISTS; i++)
        list[i] = memory + call->starts[i];
    memcpy(d, call->doubles, sizeof d);
    switch (call->function) {
    case BRIDGE_BLANK:
        return dustmap_blank(list[0], n[0]);
    case BRIDGE_BLANK_AS:
        return dustmap_blank_as(list[0], n[0], told[0], told[1]);
    case BRIDGE_CHECK:
        return dustmap_check(list[0], n[0]);
    case BRIDGE_CALL:
        return dustmap_call(list[0], n[0], list[1], n[1], list[2], n[2], list[3], n[3], list[4], n[4]);
    case BRIDGE_CALL_AS:
        return dustmap_call_as(list[0], n[0], list[1], n[1], list[2], n[2], list[3], n[3], list[4], n[4], told[0]);
    case BRIDGE_ROOM:
        return dustmap_room(list[0], n[0], list[1], list[2]);
    case BRIDGE_BOX:
        return dustmap_box(d[0], d[1], d[2], d[3], list[0]);
    case BRIDGE_POINT:
        return dustmap_point(d[0], d[1], list[0]);
    case BRIDGE_DISC:
        return dustmap_disc(d[0], d[1], d[2], list[0]);
    case BRIDGE_WRITE:
        return dustmap_write(list[0], n[0], list[1], n[1], list[2]);
    case BRIDGE_READ:
        return dustmap_read(list[0], n[0], list[1], n[1], list[2], n[2]);
    case BRIDGE_READ_AS:
        return dustmap_read_as(list[0], n[0], list[1], n[1], list[2], n[2], told[0], told[1]);
    }
    fprintf(stderr, "dustmap bridge: no function %llu\n", (unsigned long long)call->function);
    exit(1);
}

/* maps the memory again where it has grown */
static void map(int file, size_t size)
{
    if (size == mapped)
        return;
    if (mapped)
        munmap(memory, mapped);
    memory = mmap(NULL, size, PROT_READ | PROT_WRITE, MAP_SHARED, file, 0);
    if (memory == MAP_FAILED) {
        perror("dustmap bridge: the lists cannot be mapped");
        exit(1);
    }
    mapped = size;
}

int main(int argc, char **argv)
{
    struct bridge_call call;
    if (argc != 3) {
        fprintf(stderr, "usage: serve MEMORY LINE\n");
        return 2;
    }
    signal(SIGINT, SIG_IGN); /* an interrupt from the terminal is for the near side, which may go on */
    int file = atoi(argv[1]), line = atoi(argv[2]);
    while (read(line, &call, sizeof call) == (ssize_t)sizeof call) {
        map(file, call.memory);
        int32_t number = made(&call);
        if (write(line, &number, sizeof number) != (ssize_t)sizeof number)
            return 1;
    }
    return 0;
}
