/*
 * Preloaded under a program (LD_PRELOAD), counts the growths that the program itself asks for: each
 * malloc, calloc, realloc and aligned allocation that is called from the program's own code and not from
 * the C library or the loader. The one whose number, counted from 1, the variable REFUSE_GROWTH names is
 * refused: it answers NULL with ENOMEM. All others are made.
 *
 * GROWTHS_FILE names a file of 16 bytes at least. Two numbers of 8 bytes stand in it, of this machine's
 * byte order: how many growths there were, and how many of them were refused. The file is shared with
 * the program's memory, so that the numbers are there however the program ends.
 *
 * It takes what it was told out of the environment, so that what the program starts runs without it.
 *
 * It prints nothing, and ends the program with status 125 where it cannot count.
 */
#define _GNU_SOURCE
#include <errno.h>
#include <fcntl.h>
#include <link.h>
#include <stddef.h>
#include <stdint.h>
#include <stdlib.h>
#include <sys/mman.h>
#include <unistd.h>

enum { CANNOT_COUNT = 125 };

void *__libc_malloc(size_t size);
void *__libc_calloc(size_t count, size_t size);
void *__libc_realloc(void *block, size_t size);
void *__libc_memalign(size_t alignment, size_t size);

struct numbers {
    uint64_t growths;
    uint64_t refused;
};

static struct numbers *numbers;
static uint64_t refused_number;
static uintptr_t program_start;
static uintptr_t program_end;

/* The loader names the program first. */
static int find_program(struct dl_phdr_info *object, size_t size, void *unused)
{
    (void)size;
    (void)unused;
    for (int i = 0; i < object->dlpi_phnum; i++) {
        const ElfW(Phdr) *part = &object->dlpi_phdr[i];
        if (part->p_type == PT_LOAD && (part->p_flags & PF_X)) {
            program_start = object->dlpi_addr + part->p_vaddr;
            program_end = program_start + part->p_memsz;
        }
    }
    return 1;
}

static struct numbers *shared_numbers(const char *path)
{
    int file = path == NULL ? -1 : open(path, O_RDWR);
    if (file < 0)
        _exit(CANNOT_COUNT);
    void *shared = mmap(NULL, sizeof *numbers, PROT_READ | PROT_WRITE, MAP_SHARED, file, 0);
    if (shared == MAP_FAILED)
        _exit(CANNOT_COUNT);
    close(file);
    return shared;
}

__attribute__((constructor)) static void begin(void)
{
    const char *number = getenv("REFUSE_GROWTH");
    refused_number = number == NULL ? 0 : strtoull(number, NULL, 10);
    dl_iterate_phdr(find_program, NULL);
    numbers = shared_numbers(getenv("GROWTHS_FILE"));
    unsetenv("LD_PRELOAD");
    unsetenv("REFUSE_GROWTH");
    unsetenv("GROWTHS_FILE");
}

/* Counts a growth that the code at this address asks for; whether it is refused. */
static int is_refused(const void *caller)
{
    uintptr_t address = (uintptr_t)caller;
    if (numbers == NULL || address < program_start || address >= program_end)
        return 0;
    if (__atomic_add_fetch(&numbers->growths, 1, __ATOMIC_SEQ_CST) != refused_number)
        return 0;
    __atomic_add_fetch(&numbers->refused, 1, __ATOMIC_SEQ_CST);
    return 1;
}

static void *refusal(void)
{
    errno = ENOMEM;
    return NULL;
}

void *malloc(size_t size)
{
    return is_refused(__builtin_return_address(0)) ? refusal() : __libc_malloc(size);
}

void *calloc(size_t count, size_t size)
{
    return is_refused(__builtin_return_address(0)) ? refusal() : __libc_calloc(count, size);
}

void *realloc(void *block, size_t size)
{
    return is_refused(__builtin_return_address(0)) ? refusal() : __libc_realloc(block, size);
}

void *memalign(size_t alignment, size_t size)
{
    return is_refused(__builtin_return_address(0)) ? refusal() : __libc_memalign(alignment, size);
}

void *aligned_alloc(size_t alignment, size_t size)
{
    return is_refused(__builtin_return_address(0)) ? refusal() : __libc_memalign(alignment, size);
}

int posix_memalign(void **block, size_t alignment, size_t size)
{
    void *made = is_refused(__builtin_return_address(0)) ? NULL : __libc_memalign(alignment, size);
    if (made == NULL)
        return ENOMEM;
    *block = made;
    return 0;
}
