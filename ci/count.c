/* A library to be preloaded: it counts the bytes that the program has asked for and not given back. Each time that the program writes to
   standard output, the file COUNT_TOLD gets a line with two numbers: the bytes now, and the most since the line before.

   A request is a malloc or a realloc, which is all that the program's allocator calls. The count is of the bytes that were asked for, and not of
   those that the C library takes for them. It is for a program with one thread. */
#define _GNU_SOURCE
#include <fcntl.h>
#include <stdint.h>
#include <stdio.h>
#include <stdlib.h>
#include <sys/syscall.h>
#include <sys/uio.h>
#include <unistd.h>

extern void *__libc_malloc(size_t size);
extern void *__libc_realloc(void *old, size_t size);
extern void __libc_free(void *old);

/* The blocks by their addresses. A place whose block was given back keeps the address, with no bytes. */
enum { PLACES = 1 << 20 };
static struct {
    void *block;
    size_t size;
} blocks[PLACES];

static size_t bytes;
static size_t most;
static int told = -1;

__attribute__((noreturn)) static void give_up(const char *why) {
    dprintf(STDERR_FILENO, "count.c: %s\n", why);
    for (;;)
        syscall(SYS_exit_group, 99);
}

/* The place of a block, or the free one where it is to be. */
static size_t place_of(void *block) {
    size_t place = (uintptr_t)block / 16 * 0x9e3779b97f4a7c15u >> 44;
    for (size_t tries = 0; tries < PLACES; tries++, place = (place + 1) % PLACES)
        if (!blocks[place].block || blocks[place].block == block)
            return place;
    give_up("more blocks than there are places");
}

static void count(void *block, size_t size) {
    if (!block)
        return;
    size_t place = place_of(block);
    bytes += size - blocks[place].size;
    blocks[place].block = block;
    blocks[place].size = size;
    if (bytes > most)
        most = bytes;
}

void *malloc(size_t size) {
    void *block = __libc_malloc(size);
    count(block, size);
    return block;
}

void *realloc(void *old, size_t size) {
    void *block = __libc_realloc(old, size);
    if (block && block != old)
        count(old, 0);
    count(block, size);
    return block;
}

void free(void *old) {
    count(old, 0);
    __libc_free(old);
}

static void tell(int file) {
    if (file != STDOUT_FILENO || told < 0)
        return;
    dprintf(told, "%zu %zu\n", bytes, most);
    most = bytes;
}

ssize_t write(int file, const void *text, size_t length) {
    tell(file);
    return syscall(SYS_write, file, text, length);
}

ssize_t writev(int file, const struct iovec *parts, int count_of_parts) {
    tell(file);
    return syscall(SYS_writev, file, parts, count_of_parts);
}

__attribute__((constructor)) static void begin(void) {
    const char *path = getenv("COUNT_TOLD");
    told = path ? open(path, O_WRONLY | O_CREAT | O_TRUNC | O_CLOEXEC, 0600) : -1;
    if (told < 0)
        give_up("COUNT_TOLD names no file that can be written");
}
