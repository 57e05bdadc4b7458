/* Refuses one request for memory that the program itself makes: the one of the number REFUSED, from 1. It then makes the
   file that REFUSED_TOLD names. Requests of the C library are left alone. Loaded before that by LD_PRELOAD:

   cc -O2 -shared -fPIC -o refuse.so refuse.c */

#define _GNU_SOURCE
#include <errno.h>
#include <fcntl.h>
#include <link.h>
#include <stdatomic.h>
#include <stdlib.h>
#include <unistd.h>

void *__libc_malloc(size_t size);
void *__libc_realloc(void *block, size_t size);

static atomic_long requests;
static long refused;
static ElfW(Addr) first, last;

/* The first object is the program. */
static int note_program(struct dl_phdr_info *info, size_t size, void *data)
{
    (void)size, (void)data;
    for (int i = 0; i < info->dlpi_phnum; i++) {
        const ElfW(Phdr) *part = &info->dlpi_phdr[i];
        if (part->p_type == PT_LOAD && (part->p_flags & PF_X)) {
            first = info->dlpi_addr + part->p_vaddr;
            last = first + part->p_memsz;
        }
    }
    return 1;
}

__attribute__((constructor)) static void begin(void)
{
    const char *number = getenv("REFUSED");
    refused = number ? atol(number) : 0;
    dl_iterate_phdr(note_program, NULL);
}

static int is_refused(void *caller)
{
    ElfW(Addr) from = (ElfW(Addr))caller;
    if (from < first || last <= from || atomic_fetch_add(&requests, 1) + 1 != refused)
        return 0;
    const char *told = getenv("REFUSED_TOLD");
    if (told)
        close(open(told, O_CREAT | O_WRONLY, 0600));
    errno = ENOMEM;
    return 1;
}

void *malloc(size_t size)
{
    return is_refused(__builtin_return_address(0)) ? NULL : __libc_malloc(size);
}

void *realloc(void *block, size_t size)
{
    return is_refused(__builtin_return_address(0)) ? NULL : __libc_realloc(block, size);
}
