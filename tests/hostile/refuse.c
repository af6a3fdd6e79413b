/* Refuses one growth of memory of the program into which it is loaded before the C library: of the calls of malloc and realloc
   that the program's own code makes, in all its threads, the one with the number that REFUSE says, from 1 on. A file with the
   name that REFUSED says is made when that happens, so a run without the file made fewer calls. */
#define _GNU_SOURCE
#include <errno.h>
#include <fcntl.h>
#include <link.h>
#include <stdatomic.h>
#include <stdint.h>
#include <stdlib.h>
#include <unistd.h>

extern void *__libc_malloc(size_t size);
extern void *__libc_realloc(void *block, size_t size);

static uintptr_t first, last; /* where the program's own code lies */
static unsigned long number;
static const char *mark;
static atomic_ulong calls;

static int note_program(struct dl_phdr_info *object, size_t size, void *nothing) {
    (void)size;
    (void)nothing;
    first = UINTPTR_MAX;
    for (int part = 0; part < object->dlpi_phnum; part++) {
        const ElfW(Phdr) *it = &object->dlpi_phdr[part];
        if (it->p_type == PT_LOAD && (it->p_flags & PF_X)) {
            uintptr_t begin = object->dlpi_addr + it->p_vaddr;
            first = begin < first ? begin : first;
            last = begin + it->p_memsz > last ? begin + it->p_memsz : last;
        }
    }
    return 1; /* the program comes first, and no other object is looked at */
}

__attribute__((constructor)) static void begin(void) {
    const char *text = getenv("REFUSE");
    mark = getenv("REFUSED");
    if (text && mark) {
        dl_iterate_phdr(note_program, NULL);
        number = strtoul(text, NULL, 10);
    }
}

static int is_refused(void *caller) {
    uintptr_t from = (uintptr_t)caller;
    if (number == 0 || from < first || from >= last || atomic_fetch_add(&calls, 1) + 1 != number)
        return 0;
    int file = open(mark, O_CREAT | O_WRONLY | O_CLOEXEC, 0600);
    if (file >= 0)
        close(file);
    errno = ENOMEM;
    return 1;
}

void *malloc(size_t size) {
    return is_refused(__builtin_return_address(0)) ? NULL : __libc_malloc(size);
}

void *realloc(void *block, size_t size) {
    return is_refused(__builtin_return_address(0)) ? NULL : __libc_realloc(block, size);
}
