/* Loaded before the C library, refuses one allocation of the program: the one whose number, from 0, REFUSED gives.
   Only calls that the program itself makes are counted, none of the C library's own. A refusal is told by one byte
   on file descriptor 9. */
#define _GNU_SOURCE
#include <dlfcn.h>
#include <errno.h>
#include <link.h>
#include <stdint.h>
#include <stdlib.h>
#include <unistd.h>

struct range {
    uintptr_t start, end;
};

/* The program is the first that is handed in: the walk ends there. */
static int first_object(struct dl_phdr_info *info, size_t size, void *data)
{
    struct range *program = data;
    (void)size;
    for (int i = 0; i < info->dlpi_phnum; i++) {
        const ElfW(Phdr) *part = &info->dlpi_phdr[i];
        if (part->p_type == PT_LOAD && (part->p_flags & PF_X)) {
            program->start = info->dlpi_addr + part->p_vaddr;
            program->end = program->start + part->p_memsz;
        }
    }
    return 1;
}

static int is_refused(void *caller)
{
    static struct range program;
    static long made;
    static long refused = -1;
    if (program.end == 0) {
        const char *number = getenv("REFUSED");
        refused = number ? atol(number) : -1;
        dl_iterate_phdr(first_object, &program);
    }
    if ((uintptr_t)caller < program.start || (uintptr_t)caller >= program.end || made++ != refused)
        return 0;
    if (write(9, "!", 1) < 0)
        _exit(71);
    errno = ENOMEM;
    return 1;
}

void *malloc(size_t size)
{
    static void *(*next)(size_t);
    if (!next)
        next = (void *(*)(size_t))dlsym(RTLD_NEXT, "malloc");
    return is_refused(__builtin_return_address(0)) ? NULL : next(size);
}

void *realloc(void *old, size_t size)
{
    static void *(*next)(void *, size_t);
    if (!next)
        next = (void *(*)(void *, size_t))dlsym(RTLD_NEXT, "realloc");
    return is_refused(__builtin_return_address(0)) ? NULL : next(old, size);
}
