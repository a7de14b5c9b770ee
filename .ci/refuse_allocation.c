/* Refuses one allocation of a program: the one whose number, from 1, stands in ATS_REFUSE. Only the program's own calls
   count, and none of the C library and of the loader. Their number so far stands in the file of eight bytes that
   ATS_COUNT names. Built and loaded (LD_PRELOAD) by .ci/allocations. */
#define _GNU_SOURCE
#include <errno.h>
#include <fcntl.h>
#include <link.h>
#include <stdint.h>
#include <stdlib.h>
#include <sys/mman.h>
#include <unistd.h>

extern void *__libc_malloc(size_t);
extern void *__libc_calloc(size_t, size_t);
extern void *__libc_realloc(void *, size_t);
extern void *__libc_memalign(size_t, size_t);

static uintptr_t program_begin, program_end;
static uint64_t refused;
static uint64_t *count;

/* The first of the loaded objects is the program. */
static int note_program(struct dl_phdr_info *object, size_t size, void *unused)
{
    (void)size, (void)unused;
    program_begin = UINTPTR_MAX;
    for (int i = 0; i < object->dlpi_phnum; i++) {
        const ElfW(Phdr) *part = &object->dlpi_phdr[i];
        if (part->p_type != PT_LOAD)
            continue;
        uintptr_t begin = object->dlpi_addr + part->p_vaddr;
        if (begin < program_begin)
            program_begin = begin;
        if (begin + part->p_memsz > program_end)
            program_end = begin + part->p_memsz;
    }
    return 1;
}

__attribute__((constructor)) static void begin(void)
{
    const char *number = getenv("ATS_REFUSE"), *path = getenv("ATS_COUNT");
    int file = path ? open(path, O_RDWR) : -1;
    if (!number || file < 0)
        _exit(99);
    refused = strtoull(number, 0, 10);
    count = mmap(0, sizeof *count, PROT_READ | PROT_WRITE, MAP_SHARED, file, 0);
    if (count == MAP_FAILED)
        _exit(99);
    close(file);
    dl_iterate_phdr(note_program, 0);
}

/* Whether this call is the one to refuse. */
static int is_refused(void *caller)
{
    uintptr_t at = (uintptr_t)caller;
    if (at < program_begin || at >= program_end || ++*count != refused)
        return 0;
    errno = ENOMEM;
    return 1;
}

void *malloc(size_t size)
{
    return is_refused(__builtin_return_address(0)) ? 0 : __libc_malloc(size);
}

void *calloc(size_t number, size_t size)
{
    return is_refused(__builtin_return_address(0)) ? 0 : __libc_calloc(number, size);
}

void *realloc(void *old, size_t size)
{
    return is_refused(__builtin_return_address(0)) ? 0 : __libc_realloc(old, size);
}

void *aligned_alloc(size_t alignment, size_t size)
{
    return is_refused(__builtin_return_address(0)) ? 0 : __libc_memalign(alignment, size);
}

int posix_memalign(void **given, size_t alignment, size_t size)
{
    if (is_refused(__builtin_return_address(0)))
        return ENOMEM;
    *given = __libc_memalign(alignment, size);
    return *given ? 0 : ENOMEM;
}
