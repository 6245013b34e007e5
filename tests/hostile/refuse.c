/* Refuses one request of a program, or several in a row: requests for memory or threads, reads of its input, or writes of
   its output.
   tests/hostile/run builds it and puts it before the C library with LD_PRELOAD. Of requests for memory it counts those that
   the program's own code makes: not those of the dynamic loader or of the C library.

   REFUSED_KIND is `memory`, `thread`, `read` or `write`. Reads and writes then pass one byte each.
   REFUSED_REQUEST has the numbers of the first and the last request that are refused, from 1, with a blank between.
   REFUSED_ERROR is the number of the error with which they are refused.
   REFUSED_COUNTS is a file of three words of 8 bytes: how many requests were made, how many of them were refused, and how
   many threads were started. */

#define _GNU_SOURCE
#include <dlfcn.h>
#include <errno.h>
#include <fcntl.h>
#include <link.h>
#include <pthread.h>
#include <stdatomic.h>
#include <stdint.h>
#include <stdlib.h>
#include <sys/mman.h>
#include <sys/syscall.h>
#include <unistd.h>

extern void *__libc_malloc(size_t size);
extern void *__libc_calloc(size_t count, size_t size);
extern void *__libc_realloc(void *old, size_t size);
extern void *__libc_memalign(size_t align, size_t size);

struct counts {
    _Atomic uint64_t made, refused, started;
};

static struct counts *counts;
static char kind; /* the first letter of REFUSED_KIND */
static uint64_t first, last;
static int error;
static uintptr_t code_start, code_end;

/* Finds the loaded parts of the program, which stands first; the search ends with it. */
static int find_code(struct dl_phdr_info *info, size_t size, void *none) {
    (void)size, (void)none;
    code_start = UINTPTR_MAX;
    for (int i = 0; i < info->dlpi_phnum; i++) {
        const ElfW(Phdr) *part = &info->dlpi_phdr[i];
        uintptr_t start = info->dlpi_addr + part->p_vaddr;
        if (part->p_type != PT_LOAD) continue;
        if (start < code_start) code_start = start;
        if (start + part->p_memsz > code_end) code_end = start + part->p_memsz;
    }
    return 1;
}

__attribute__((constructor)) static void begin(void) {
    const char *name = getenv("REFUSED_KIND"), *request = getenv("REFUSED_REQUEST");
    const char *number = getenv("REFUSED_ERROR"), *path = getenv("REFUSED_COUNTS");
    if (!name || !request || !number || !path) return;
    char *behind;
    kind = name[0];
    first = strtoull(request, &behind, 10);
    last = strtoull(behind, NULL, 10);
    error = atoi(number);
    int file = open(path, O_RDWR);
    void *page = file < 0 ? MAP_FAILED : mmap(NULL, sizeof *counts, PROT_READ | PROT_WRITE, MAP_SHARED, file, 0);
    if (page == MAP_FAILED) _exit(70);
    close(file);
    dl_iterate_phdr(find_code, NULL);
    counts = page;
}

/* Counts a request, and tells whether it is refused. */
static int is_refused(void) {
    uint64_t number = atomic_fetch_add(&counts->made, 1) + 1;
    if (number < first || number > last) return 0;
    atomic_fetch_add(&counts->refused, 1);
    errno = error;
    return 1;
}

/* The same of a request for memory, if it comes from the program's own code. */
static int is_memory_refused(void *place) {
    if (!counts || kind != 'm' || (uintptr_t)place < code_start || (uintptr_t)place >= code_end) return 0;
    return is_refused();
}

void *malloc(size_t size) {
    return is_memory_refused(__builtin_return_address(0)) ? NULL : __libc_malloc(size);
}

void *calloc(size_t count, size_t size) {
    return is_memory_refused(__builtin_return_address(0)) ? NULL : __libc_calloc(count, size);
}

void *realloc(void *old, size_t size) {
    return is_memory_refused(__builtin_return_address(0)) ? NULL : __libc_realloc(old, size);
}

void *aligned_alloc(size_t align, size_t size) {
    return is_memory_refused(__builtin_return_address(0)) ? NULL : __libc_memalign(align, size);
}

int posix_memalign(void **place, size_t align, size_t size) {
    if (is_memory_refused(__builtin_return_address(0))) return error;
    *place = __libc_memalign(align, size);
    return *place ? 0 : ENOMEM;
}

int pthread_create(pthread_t *thread, const pthread_attr_t *how, void *(*code)(void *), void *data) {
    if (counts && kind == 't' && is_refused()) return error;
    int (*create)(pthread_t *, const pthread_attr_t *, void *(*)(void *), void *) = dlsym(RTLD_NEXT, "pthread_create");
    int failed = create(thread, how, code, data);
    if (counts && !failed) atomic_fetch_add(&counts->started, 1);
    return failed;
}

ssize_t read(int file, void *bytes, size_t size) {
    if (counts && kind == 'r' && file == STDIN_FILENO) {
        if (is_refused()) return -1;
        if (size > 1) size = 1;
    }
    return syscall(SYS_read, file, bytes, size);
}

ssize_t write(int file, const void *bytes, size_t size) {
    if (counts && kind == 'w' && file == STDOUT_FILENO) {
        if (is_refused()) return -1;
        if (size > 1) size = 1;
    }
    return syscall(SYS_write, file, bytes, size);
}
