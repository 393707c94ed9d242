/* Makes one allocation of a program fail, and counts them: loaded before a built program (LD_PRELOAD) by bench/memory.
 *
 * MEMORY_FAIL    the number of the allocation that fails, from 1; 0 or nothing: none
 * MEMORY_COUNT   a file of 8 bytes that has the number of allocations so far, as this machine writes numbers
 *
 * Only calls of malloc and realloc from the program's own code count, by the address that they return to: none of the C library's. */
#define _GNU_SOURCE
#include <errno.h>
#include <fcntl.h>
#include <link.h>
#include <stdatomic.h>
#include <stdint.h>
#include <stdlib.h>
#include <sys/mman.h>
#include <unistd.h>

extern void *__libc_malloc(size_t size);
extern void *__libc_realloc(void *place, size_t size);

static _Atomic uint64_t own, *count = &own;
static uint64_t failing;
static uintptr_t low = UINTPTR_MAX, high;

/* The first object is the program. */
static int find_program(struct dl_phdr_info *info, size_t size, void *none) {
    for (int i = 0; i < info->dlpi_phnum; i++) {
        const ElfW(Phdr) *part = &info->dlpi_phdr[i];
        if (part->p_type == PT_LOAD && (part->p_flags & PF_X)) {
            uintptr_t from = info->dlpi_addr + part->p_vaddr, to = from + part->p_memsz;
            low = from < low ? from : low;
            high = to > high ? to : high;
        }
    }
    return 1;
}

__attribute__((constructor)) static void begin(void) {
    const char *number = getenv("MEMORY_FAIL");
    failing = number ? strtoull(number, NULL, 10) : 0;
    const char *name = getenv("MEMORY_COUNT");
    int file = name ? open(name, O_RDWR) : -1;
    void *shared = file < 0 ? MAP_FAILED : mmap(NULL, sizeof own, PROT_READ | PROT_WRITE, MAP_SHARED, file, 0);
    if (shared != MAP_FAILED) {
        count = shared;
    }
    if (file >= 0) {
        close(file);
    }
    dl_iterate_phdr(find_program, NULL);
}

static int fails(void *caller) {
    uintptr_t at = (uintptr_t)caller;
    return at >= low && at < high && atomic_fetch_add(count, 1) + 1 == failing;
}

void *malloc(size_t size) {
    if (fails(__builtin_return_address(0))) {
        errno = ENOMEM;
        return NULL;
    }
    return __libc_malloc(size);
}

void *realloc(void *place, size_t size) {
    if (fails(__builtin_return_address(0))) {
        errno = ENOMEM;
        return NULL;
    }
    return __libc_realloc(place, size);
}
