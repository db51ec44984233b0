/* What the measured boot, exec and core have to do with their bytes, and nothing else: what a loader can hope for.

       bare boot|exec OUT SIZE PAGES HEAD FILE..
       bare core OUT SIZE PAGES HEAD MEMORY

   Reads each FILE into a buffer of its own, the first with room for SIZE bytes, laid out as a memory file. The last FILE has
   HEAD bytes and then the PAGES pages of the new kernel. boot copies these to the last frames that SIZE has room for,
   compares, and moves these frames to the first ones. exec compares the pages with the last frames that were read; in the
   measured exec each is its own source already, and nothing moves. The first SIZE bytes of the first buffer are written to
   OUT. core copies the last PAGES frames of MEMORY behind HEAD bytes of a buffer of SIZE bytes, which is written to OUT.
   There is no list, no table and no test of a rule. */
#include <fcntl.h>
#include <stdio.h>
#include <stdlib.h>
#include <string.h>
#include <sys/stat.h>
#include <unistd.h>

enum { PAGE = 4096, SLOT = 4104, HEAD = 24, PIECE = 65536, HUGE_PAGE = 2097152 };

struct bytes {
    char *at;
    size_t count;
};

static void fail(const char *what) {
    perror(what);
    exit(1);
}

/* As the program does: whole huge pages, less one page for the allocator. */
static size_t room_for(size_t bytes) {
    return bytes < HUGE_PAGE ? bytes : (bytes + PAGE + HUGE_PAGE - 1) / HUGE_PAGE * HUGE_PAGE - PAGE;
}

static struct bytes read_file(const char *name, size_t room) {
    struct stat status;
    int file = open(name, O_RDONLY);
    if (file < 0 || fstat(file, &status))
        fail(name);
    size_t size = (size_t)status.st_size > room ? (size_t)status.st_size : room;
    struct bytes bytes = {malloc(room_for(size + PIECE)), 0};
    if (!bytes.at)
        fail("malloc");
    ssize_t count;
    while ((count = read(file, bytes.at + bytes.count, PIECE)) > 0)
        bytes.count += (size_t)count;
    if (count < 0)
        fail(name);
    close(file);
    return bytes;
}

static void write_file(const char *name, const char *at, size_t size) {
    int file = open(name, O_WRONLY | O_CREAT | O_TRUNC, 0644);
    if (file < 0)
        fail(name);
    while (size > 0) {
        ssize_t count = write(file, at, size);
        if (count <= 0)
            fail(name);
        at += count;
        size -= (size_t)count;
    }
    close(file);
}

static int write_core(const char *out, size_t size, size_t pages, size_t head, struct bytes memory) {
    size_t frames = memory.count / SLOT;
    char *core = malloc(room_for(size));
    if (!core || frames < pages || size < head + pages * PAGE) {
        fputs("bare: too few bytes for so many pages\n", stderr);
        return 1;
    }
    memset(core, 0, head);
    for (size_t i = 0; i < pages; i++)
        memcpy(core + head + i * PAGE, memory.at + HEAD + (frames - pages + i) * SLOT, PAGE);
    write_file(out, core, size);
    return 0;
}

int main(int count, char **words) {
    if (count < 7) {
        fputs("usage: bare boot|exec|core OUT SIZE PAGES HEAD FILE..\n", stderr);
        return 2;
    }
    int loads = !strcmp(words[1], "boot");
    size_t size = strtoull(words[3], 0, 10), pages = strtoull(words[4], 0, 10), head = strtoull(words[5], 0, 10);
    if (!strcmp(words[1], "core"))
        return write_core(words[2], size, pages, head, read_file(words[6], 0));
    struct bytes memory = read_file(words[6], size), last = memory;
    for (int k = 7; k < count; k++)
        last = read_file(words[k], 0);
    size_t frames = (loads ? size : memory.count) / SLOT;
    if (frames < pages || last.count < head + pages * PAGE) {
        fputs("bare: too few bytes for so many pages\n", stderr);
        return 1;
    }
    const char *wanted = last.at + head;
    char *sources = memory.at + HEAD + (frames - pages) * SLOT;
    if (loads)
        for (size_t i = 0; i < pages; i++)
            memcpy(sources + i * SLOT, wanted + i * PAGE, PAGE);
    for (size_t i = 0; i < pages; i++)
        if (memcmp(sources + i * SLOT, wanted + i * PAGE, PAGE)) {
            fprintf(stderr, "bare: page %zu differs\n", i);
            return 1;
        }
    if (loads)
        for (size_t i = 0; i < pages; i++)
            memmove(memory.at + HEAD + i * SLOT, sources + i * SLOT, PAGE);
    write_file(words[2], memory.at, size);
    return 0;
}
