/* Refuses requests for memory and for threads, which are the calls of malloc, realloc and pthread_create that the program itself makes;
   what its libraries ask for is let through. REFUSE_AT=n refuses the n-th, REFUSE_FROM=n that and all after it. At the end it writes to
   the file REFUSE_SEEN how many it saw, how many it refused, how many threads were started, how many of these were joined, how many bytes
   the program has not given back, how many requests it saw between the last start of a thread and the first join, how many bytes were
   asked for in all, at once, and at most held. Loaded with LD_PRELOAD. */
#define _GNU_SOURCE
#include <dlfcn.h>
#include <errno.h>
#include <fcntl.h>
#include <link.h>
#include <malloc.h>
#include <pthread.h>
#include <stdatomic.h>
#include <stdio.h>
#include <stdlib.h>
#include <sys/syscall.h>
#include <unistd.h>

static atomic_long seen, refused, started, joined, held, since_start, asked, largest, most_held;
static atomic_int is_joining;
static long refuse_at = -1, refuse_from;
static char *low, *high; /* where the program's own code lies */

static int find_program(struct dl_phdr_info *info, size_t size, void *unused) {
    (void)size;
    (void)unused;
    for (int i = 0; i < info->dlpi_phnum; i++) {
        const ElfW(Phdr) *part = &info->dlpi_phdr[i];
        if (part->p_type == PT_LOAD && (part->p_flags & PF_X)) {
            low = (char *)info->dlpi_addr + part->p_vaddr;
            high = low + part->p_memsz;
        }
    }
    return 1; /* the first object is the program */
}

static long number(const char *name) {
    const char *word = getenv(name);
    return word ? atol(word) : 0;
}

__attribute__((constructor)) static void begin(void) {
    dl_iterate_phdr(find_program, 0);
    atomic_store(&seen, 0);
    refuse_from = number("REFUSE_FROM");
    refuse_at = number("REFUSE_AT");
}

__attribute__((destructor)) static void end(void) {
    const char *file = getenv("REFUSE_SEEN");
    if (!file) return;
    const atomic_long *told[] = {&seen, &refused, &started, &joined, &held, &since_start, &asked, &largest, &most_held};
    char text[240];
    int length = 0;
    for (size_t i = 0; i < sizeof told / sizeof *told; i++) length += sprintf(text + length, "%ld ", atomic_load(told[i]));
    int to = open(file, O_WRONLY | O_CREAT | O_TRUNC, 0644);
    if (to < 0) return;
    if (write(to, text, length) < 0) abort();
    close(to);
}

/* a program with threads ends here, without destructors */
void _exit(int status) {
    end();
    syscall(SYS_exit_group, status);
    __builtin_unreachable();
}

static int is_own(void *caller) {
    return refuse_at >= 0 && (char *)caller >= low && (char *)caller < high;
}

static int is_refused(void *caller) {
    if (!is_own(caller)) return 0;
    long request = atomic_fetch_add(&seen, 1) + 1;
    if (!atomic_load(&is_joining)) atomic_fetch_add(&since_start, 1);
    int refuse = request == refuse_at || (refuse_from && request >= refuse_from);
    if (refuse) atomic_fetch_add(&refused, 1);
    return refuse;
}

static void raise_to(atomic_long *most, long value) {
    long before = atomic_load(most);
    while (before < value && !atomic_compare_exchange_weak(most, &before, value)) continue;
}

static void *kept(void *caller, void *block, size_t size) {
    if (block && is_own(caller)) {
        long usable = (long)malloc_usable_size(block);
        raise_to(&most_held, atomic_fetch_add(&held, usable) + usable);
        raise_to(&largest, (long)size);
        atomic_fetch_add(&asked, (long)size);
    }
    return block;
}

static void given_back(void *caller, void *block) {
    if (block && is_own(caller)) atomic_fetch_sub(&held, (long)malloc_usable_size(block));
}

extern void *__libc_malloc(size_t);
extern void *__libc_realloc(void *, size_t);
extern void __libc_free(void *);

void *malloc(size_t size) {
    if (is_refused(__builtin_return_address(0))) {
        errno = ENOMEM;
        return 0;
    }
    return kept(__builtin_return_address(0), __libc_malloc(size), size);
}

void free(void *block) {
    given_back(__builtin_return_address(0), block);
    __libc_free(block);
}

void *realloc(void *old, size_t size) {
    if (is_refused(__builtin_return_address(0))) {
        errno = ENOMEM;
        return 0;
    }
    size_t before = old ? malloc_usable_size(old) : 0;
    void *block = __libc_realloc(old, size);
    if (block && is_own(__builtin_return_address(0))) atomic_fetch_sub(&held, (long)before);
    return kept(__builtin_return_address(0), block, size);
}

int pthread_create(pthread_t *thread, const pthread_attr_t *attributes, void *(*run)(void *), void *argument) {
    static int (*real)(pthread_t *, const pthread_attr_t *, void *(*)(void *), void *);
    if (!real) *(void **)&real = dlsym(RTLD_NEXT, "pthread_create");
    if (is_refused(__builtin_return_address(0))) return EAGAIN;
    atomic_store(&since_start, 0);
    int status = real(thread, attributes, run, argument);
    if (status == 0) atomic_fetch_add(&started, 1);
    return status;
}

int pthread_join(pthread_t thread, void **value) {
    static int (*real)(pthread_t, void **);
    if (!real) *(void **)&real = dlsym(RTLD_NEXT, "pthread_join");
    atomic_store(&is_joining, 1);
    int status = real(thread, value);
    if (status == 0) atomic_fetch_add(&joined, 1);
    return status;
}
