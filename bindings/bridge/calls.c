/* The near side of the bridge. The proved library is x86-64 code. On a machine with another processor, a program that is to call it links this
 * file in its place: the same functions of dustmap.h, each of which hands its call to the library in another process, serve.c, which
 * the kit's emulator runs. So the Rust crate, the Python module and every test call the same proved code there as on x86-64.
 *
 * A call copies every list into memory that both processes share, and copies those that the function may write back, whole. Between the lists
 * lie guards, at least GUARD bytes before and after each. A guard that has changed after the call, or a list lent for reading, means that
 * the function wrote where it must not: that is said, and the program ends.
 *
 * What it does not do: a pointer that is not valid for its length cannot be told, nor can lists that overlap; a write further away than
 * a guard may go unseen; and times measured through it are those of the emulator and of the copies, and not those of the library.
 *
 * SERVER, the file of the compiled serve.c, and EMULATOR are given when this is compiled. The server is kept in here, so that a program
 * has with it the very library that it was linked with. */
#include "bridge.h"
#include "dustmap.h"
#include <errno.h>
#include <pthread.h>
#include <spawn.h>
#include <stdio.h>
#include <stdlib.h>
#include <string.h>
#include <sys/mman.h>
#include <sys/socket.h>
#include <unistd.h>

enum { GUARD = 64, LEAST_MEMORY = 1 << 20 };

/* A list that a call is lent. */
struct list {
    void *items;
    size_t count, size; /* of an item in bytes */
    int written;        /* whether the function may write it */
};

__asm__(".pushsection .rodata\n"
        "bridge_server: .incbin \"" SERVER "\"\n"
        "bridge_server_end: .byte 0\n"
        ".popsection\n");
extern const char bridge_server[] __attribute__((visibility("hidden")));
extern const char bridge_server_end[] __attribute__((visibility("hidden")));
extern char **environ;

static pthread_mutex_t busy = PTHREAD_MUTEX_INITIALIZER; /* one call at a time */
static pid_t starter;                                    /* the process that started the server */
static int file, line;                                   /* the shared memory, and the line to the server */
static unsigned char *memory;
static size_t mapped;
static enum bridge_function function; /* of the call that is being made */

static _Noreturn void fail(const char *what, int error)
{
    static const char *const names[] = {"blank", "blank_as", "check", "call",  "call_as", "room",
                                        "box",   "point",    "disc",  "write", "read",    "read_as"};
    fprintf(stderr, "dustmap_%s, through the bridge: %s%s%s\n", names[function], what, error ? ": " : "", error ? strerror(error) : "");
    abort();
}

/* ---- the server */

/* the server's program as an open file, which the emulator opens again by its number */
static int server_program(void)
{
    int program = memfd_create("dustmap-server", MFD_CLOEXEC);
    size_t left = (size_t)(bridge_server_end - bridge_server);
    if (program < 0)
        fail("no file for the server", errno);
    for (const char *at = bridge_server; left > 0;) {
        ssize_t wrote = write(program, at, left);
        if (wrote < 0)
            fail("the server cannot be written", errno);
        at += wrote;
        left -= (size_t)wrote;
    }
    return program;
}

/* Runs the server under the emulator. It is to have three of our files; to copy a file onto its own number says that it stays open there. */
static void spawn(int program, int its_line)
{
    static char emulator[] = EMULATOR;
    char name[32], memory_number[16], line_number[16];
    char *words[] = {emulator, name, memory_number, line_number, NULL};
    posix_spawn_file_actions_t files;
    pid_t server;
    snprintf(name, sizeof name, "/proc/self/fd/%d", program);
    snprintf(memory_number, sizeof memory_number, "%d", file);
    snprintf(line_number, sizeof line_number, "%d", its_line);
    int error = posix_spawn_file_actions_init(&files);
    for (int i = 0; i < 3 && !error; i++) {
        int kept = (int[]){program, file, its_line}[i];
        error = posix_spawn_file_actions_adddup2(&files, kept, kept);
    }
    if (!error)
        error = posix_spawn(&server, emulator, &files, NULL, words, environ);
    if (error)
        fail("the emulator cannot be started, " EMULATOR, error);
    posix_spawn_file_actions_destroy(&files);
}

static void lock(void)
{
    pthread_mutex_lock(&busy);
}

static void unlock(void)
{
    pthread_mutex_unlock(&busy);
}

/* Sees that this process has a server. A child that was forked has its parent's files, but must not speak on its parent's line. */
static void have_server(void)
{
    int ends[2];
    if (starter == getpid())
        return;
    if (starter) {
        close(line);
        close(file);
        munmap(memory, mapped);
        mapped = 0;
    } else if (pthread_atfork(lock, unlock, unlock) != 0) { /* no child is to begin in the middle of a call */
        fail("no room", ENOMEM);
    }
    if (socketpair(AF_UNIX, SOCK_SEQPACKET | SOCK_CLOEXEC, 0, ends) != 0)
        fail("no line to the server", errno);
    file = memfd_create("dustmap-lists", MFD_CLOEXEC);
    if (file < 0)
        fail("no memory to share", errno);
    int program = server_program();
    spawn(program, ends[1]);
    close(program);
    close(ends[1]);
    line = ends[0];
    starter = getpid();
}

/* sends a call and waits for its number */
static int32_t asked(const struct bridge_call *call)
{
    ssize_t moved;
    int32_t number;
    do
        moved = send(line, call, sizeof *call, MSG_NOSIGNAL);
    while (moved < 0 && errno == EINTR);
    if (moved != (ssize_t)sizeof *call)
        fail("the server cannot be asked", moved < 0 ? errno : 0);
    do
        moved = recv(line, &number, sizeof number, 0);
    while (moved < 0 && errno == EINTR);
    if (moved != (ssize_t)sizeof number)
        fail("the server has ended in the middle of a call", moved < 0 ? errno : 0);
    return number;
}

/* ---- the lists in the shared memory */

/* places the lists, with a guard around each, and returns how much memory that takes */
static size_t placed(struct bridge_call *call, const struct list *lists)
{
    size_t at = 0;
    for (int i = 0; i < BRIDGE_LISTS; i++) {
        at = (at + GUARD + GUARD - 1) / GUARD * GUARD;
        call->starts[i] = at;
        call->counts[i] = lists[i].count;
        at += lists[i].count * lists[i].size;
    }
    return at + GUARD;
}

static void have_memory(size_t size)
{
    size_t wanted = mapped ? mapped : LEAST_MEMORY;
    while (wanted < size)
        wanted *= 2;
    if (wanted == mapped)
        return;
    if (mapped)
        munmap(memory, mapped);
    mapped = wanted;
    if (ftruncate(file, (off_t)mapped) != 0)
        fail("the lists are too long to be shared", errno);
    memory = mmap(NULL, mapped, PROT_READ | PROT_WRITE, MAP_SHARED, file, 0);
    if (memory == MAP_FAILED)
        fail("the lists cannot be mapped", errno);
}

/* what a guard has at a place: other bytes at each of the places near it */
static unsigned char pattern(size_t at)
{
    return (unsigned char)(at * 167 + 41);
}

/* Writes a guard, or sees that it is as it was written. */
static void guard(size_t from, size_t to, int written)
{
    for (size_t at = from; at < to; at++) {
        if (!written)
            memory[at] = pattern(at);
        else if (memory[at] != pattern(at))
            fail("it wrote beyond one of its lists", 0);
    }
}

static void guards(const struct bridge_call *call, const struct list *lists, int written)
{
    size_t end = 0;
    for (int i = 0; i < BRIDGE_LISTS; i++) {
        guard(end, call->starts[i], written);
        end = call->starts[i] + lists[i].count * lists[i].size;
    }
    guard(end, end + GUARD, written);
}

static void copy_in(const struct bridge_call *call, const struct list *lists)
{
    for (int i = 0; i < BRIDGE_LISTS; i++)
        if (lists[i].count)
            memcpy(memory + call->starts[i], lists[i].items, lists[i].count * lists[i].size);
}

static void copy_back(const struct bridge_call *call, const struct list *lists)
{
    for (int i = 0; i < BRIDGE_LISTS; i++) {
        const unsigned char *left = memory + call->starts[i];
        size_t bytes = lists[i].count * lists[i].size;
        if (bytes && lists[i].written)
            memcpy(lists[i].items, left, bytes);
        else if (bytes && memcmp(lists[i].items, left, bytes) != 0)
            fail("it wrote to a list that is lent for reading", 0);
    }
}

/* ---- the functions */

static int32_t make(struct bridge_call call, const struct list lists[BRIDGE_LISTS])
{
    lock();
    function = call.function;
    have_server();
    have_memory(placed(&call, lists));
    call.memory = mapped;
    copy_in(&call, lists);
    guards(&call, lists, 0);
    int32_t number = asked(&call);
    guards(&call, lists, 1);
    copy_back(&call, lists);
    unlock();
    return number;
}

/* a list whose length counts items of the size of T: written by the function, or only read */
#define WRITTEN(T, items, count) {items, count, sizeof(T), 1}
#define READ(T, items, count) {(void *)(uintptr_t)(items), count, sizeof(T), 0}

int32_t dustmap_blank(int32_t *pool, size_t pool_len)
{
    struct list lists[BRIDGE_LISTS] = {WRITTEN(int32_t, pool, pool_len)};
    return make((struct bridge_call){.function = BRIDGE_BLANK}, lists);
}

int32_t dustmap_blank_as(int32_t *pool, size_t pool_len, int32_t edition, int32_t rule)
{
    struct list lists[BRIDGE_LISTS] = {WRITTEN(int32_t, pool, pool_len)};
    return make((struct bridge_call){.function = BRIDGE_BLANK_AS, .numbers = {edition, rule}}, lists);
}

int32_t dustmap_check(const int32_t *pool, size_t pool_len)
{
    struct list lists[BRIDGE_LISTS] = {READ(int32_t, pool, pool_len)};
    return make((struct bridge_call){.function = BRIDGE_CHECK}, lists);
}

int32_t dustmap_call(int32_t *pool, size_t pool_len, int32_t *work, size_t work_len,
                     const struct dustmap_request *requests, size_t n_requests,
                     struct dustmap_answer *answers, size_t n_answers,
                     struct dustmap_found *found, size_t n_found)
{
    struct list lists[BRIDGE_LISTS] = {
        WRITTEN(int32_t, pool, pool_len),
        WRITTEN(int32_t, work, work_len),
        READ(struct dustmap_request, requests, n_requests),
        WRITTEN(struct dustmap_answer, answers, n_answers),
        WRITTEN(struct dustmap_found, found, n_found),
    };
    return make((struct bridge_call){.function = BRIDGE_CALL}, lists);
}

int32_t dustmap_call_as(int32_t *pool, size_t pool_len, int32_t *work, size_t work_len,
                        const struct dustmap_request *requests, size_t n_requests,
                        struct dustmap_answer *answers, size_t n_answers,
                        struct dustmap_found *found, size_t n_found, int32_t owner)
{
    struct list lists[BRIDGE_LISTS] = {
        WRITTEN(int32_t, pool, pool_len),
        WRITTEN(int32_t, work, work_len),
        READ(struct dustmap_request, requests, n_requests),
        WRITTEN(struct dustmap_answer, answers, n_answers),
        WRITTEN(struct dustmap_found, found, n_found),
    };
    return make((struct bridge_call){.function = BRIDGE_CALL_AS, .numbers = {owner}}, lists);
}

int32_t dustmap_room(const int32_t *pool, size_t pool_len, const int32_t rect[4], uint32_t slots[2])
{
    struct list lists[BRIDGE_LISTS] = {
        READ(int32_t, pool, pool_len),
        READ(int32_t, rect, 4),
        WRITTEN(uint32_t, slots, 2),
    };
    return make((struct bridge_call){.function = BRIDGE_ROOM}, lists);
}

/* a function of doubles, which writes a rectangle */
static int32_t surveyed(enum bridge_function asked_for, const double doubles[BRIDGE_DOUBLES], int32_t rect[4])
{
    struct list lists[BRIDGE_LISTS] = {WRITTEN(int32_t, rect, 4)};
    struct bridge_call call = {.function = asked_for};
    memcpy(call.doubles, doubles, sizeof call.doubles);
    return make(call, lists);
}

int32_t dustmap_box(double low_x, double low_y, double high_x, double high_y, int32_t rect[4])
{
    return surveyed(BRIDGE_BOX, (double[]){low_x, low_y, high_x, high_y}, rect);
}

int32_t dustmap_point(double x, double y, int32_t rect[4])
{
    return surveyed(BRIDGE_POINT, (double[BRIDGE_DOUBLES]){x, y}, rect);
}

int32_t dustmap_disc(double x, double y, double radius, int32_t rect[4])
{
    return surveyed(BRIDGE_DISC, (double[BRIDGE_DOUBLES]){x, y, radius}, rect);
}

int32_t dustmap_write(const int32_t *pool, size_t pool_len, uint8_t *bytes, size_t n_bytes, uint64_t *length)
{
    struct list lists[BRIDGE_LISTS] = {
        READ(int32_t, pool, pool_len),
        WRITTEN(uint8_t, bytes, n_bytes),
        WRITTEN(uint64_t, length, 1),
    };
    return make((struct bridge_call){.function = BRIDGE_WRITE}, lists);
}

int32_t dustmap_read(int32_t *pool, size_t pool_len, int32_t *work, size_t work_len, const uint8_t *bytes, size_t n_bytes)
{
    struct list lists[BRIDGE_LISTS] = {
        WRITTEN(int32_t, pool, pool_len),
        WRITTEN(int32_t, work, work_len),
        READ(uint8_t, bytes, n_bytes),
    };
    return make((struct bridge_call){.function = BRIDGE_READ}, lists);
}

int32_t dustmap_read_as(int32_t *pool, size_t pool_len, int32_t *work, size_t work_len, const uint8_t *bytes, size_t n_bytes,
                        int32_t edition, int32_t rule)
{
    struct list lists[BRIDGE_LISTS] = {
        WRITTEN(int32_t, pool, pool_len),
        WRITTEN(int32_t, work, work_len),
        READ(uint8_t, bytes, n_bytes),
    };
    return make((struct bridge_call){.function = BRIDGE_READ_AS, .numbers = {edition, rule}}, lists);
}
