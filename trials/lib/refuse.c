// Makes allocations of the program fail that this library is preloaded into.
//
// REFUSED_REQUEST lists the numbers of the allocations that fail, counted from 1: rising, with commas
// between them. With REFUSED_BYTES, REFUSED_REQUEST is one number, and later allocations of so many
// bytes or more fail at random, one in four, by the seed REFUSED_SEED. Each failure prints `refused` on
// standard error. With ASKED_BYTES, each allocation of N bytes prints `asked N`. Only allocations by the
// program's own code count, not those that its libraries make on their own.
#define _GNU_SOURCE
#include <dlfcn.h>
#include <errno.h>
#include <link.h>
#include <stdint.h>
#include <stdio.h>
#include <stdlib.h>
#include <unistd.h>

// The addresses of the program's code.
static uintptr_t start, end;

// How many allocations were made, the next one that fails, or 0 if no other does, and the rest of the
// list.
static unsigned long asked, refused;
static char *behind;

// The state of the random numbers, and the fewest bytes of an allocation that fails at random, or 0 if
// none does.
static uint64_t chance;
static size_t fewest;

// Whether each allocation is printed.
static int prints;

// Notes the addresses of the first object, which is the program.
static int note_program(struct dl_phdr_info *info, size_t size, void *unused) {
    (void)size;
    (void)unused;
    start = UINTPTR_MAX;
    for (int i = 0; i < info->dlpi_phnum; i++) {
        const ElfW(Phdr) *part = &info->dlpi_phdr[i];
        if (part->p_type == PT_LOAD && part->p_flags & PF_X) {
            uintptr_t from = info->dlpi_addr + part->p_vaddr;
            start = from < start ? from : start;
            end = from + part->p_memsz > end ? from + part->p_memsz : end;
        }
    }
    return 1;
}

// Reads the next number of the list, after a comma if there is one.
static void next_refused(void) {
    refused = behind ? strtoul(behind + (*behind == ','), &behind, 10) : 0;
}

// The number in an environment variable, or 0.
static unsigned long number_of(const char *name) {
    const char *number = getenv(name);
    return number ? strtoul(number, NULL, 10) : 0;
}

__attribute__((constructor)) static void begin(void) {
    behind = getenv("REFUSED_REQUEST");
    next_refused();
    chance = number_of("REFUSED_SEED");
    fewest = number_of("REFUSED_BYTES");
    prints = getenv("ASKED_BYTES") != NULL;
    dl_iterate_phdr(note_program, NULL);
}

// Whether this allocation is one of the list, or chosen at random.
static int is_chosen(size_t size) {
    asked++;
    if (fewest > 0) {
        if (asked <= refused || size < fewest) {
            return 0;
        }
        chance = chance * 6364136223846793005 + 1442695040888963407;
        return chance >> 62 == 0;
    }
    if (asked != refused) {
        return 0;
    }
    next_refused();
    return 1;
}

// Writes some bytes to standard error.
static void say(const char *said, size_t len) {
    if (write(STDERR_FILENO, said, len) < 0) {
        _exit(99);
    }
}

// Whether this allocation fails. It counts if its return address is in the program's code.
static int is_refused(void *back, size_t size) {
    if ((uintptr_t)back < start || (uintptr_t)back >= end) {
        return 0;
    }
    if (prints) {
        char line[40];
        say(line, (size_t)snprintf(line, sizeof line, "asked %zu\n", size));
    }
    if (!is_chosen(size)) {
        return 0;
    }
    static const char said[] = "refused\n";
    say(said, sizeof said - 1);
    return 1;
}

#define IS_REFUSED(size) is_refused(__builtin_return_address(0), size)

// The function of this name that this library hides.
#define NEXT(type, name) ((type)dlsym(RTLD_NEXT, name))

static void *none(void) {
    errno = ENOMEM;
    return NULL;
}

void *malloc(size_t size) {
    static void *(*next)(size_t);
    next = next ? next : NEXT(void *(*)(size_t), "malloc");
    return IS_REFUSED(size) ? none() : next(size);
}

void *calloc(size_t count, size_t size) {
    static void *(*next)(size_t, size_t);
    next = next ? next : NEXT(void *(*)(size_t, size_t), "calloc");
    return IS_REFUSED(count * size) ? none() : next(count, size);
}

void *realloc(void *old, size_t size) {
    static void *(*next)(void *, size_t);
    next = next ? next : NEXT(void *(*)(void *, size_t), "realloc");
    return IS_REFUSED(size) ? none() : next(old, size);
}

void *aligned_alloc(size_t alignment, size_t size) {
    static void *(*next)(size_t, size_t);
    next = next ? next : NEXT(void *(*)(size_t, size_t), "aligned_alloc");
    return IS_REFUSED(size) ? none() : next(alignment, size);
}

int posix_memalign(void **made, size_t alignment, size_t size) {
    static int (*next)(void **, size_t, size_t);
    next = next ? next : NEXT(int (*)(void **, size_t, size_t), "posix_memalign");
    return IS_REFUSED(size) ? ENOMEM : next(made, alignment, size);
}
