/* A heap that refuses growths by number, preloaded into a program that asks the C library for memory. Its environment says more:
   REFUSE_AT    which growths are refused: numbers with commas between, counted from 1, or 0
   REFUSE_ALL   where it is there, all growths from the first of these on are refused
   REFUSE_IN    only in the program of this path
   REFUSE_NOTE  a file that is written at the end: how many growths there were, how many were refused, and how many blocks of the
                program's own are left, which it took and has not given back */
#define _GNU_SOURCE
#include <fcntl.h>
#include <limits.h>
#include <link.h>
#include <stdatomic.h>
#include <stdint.h>
#include <stdio.h>
#include <stdlib.h>
#include <string.h>
#include <sys/syscall.h>
#include <unistd.h>

extern void *__libc_malloc(size_t);
extern void *__libc_realloc(void *, size_t);
extern void __libc_free(void *);

enum { MOST = 16 };

static long at[MOST], count;
static int counts, all;
static const char *note;
static atomic_long met, refused, left;
/* Where the program's own code lies. */
static uintptr_t first, last;

/* The first object that is loaded is the program. */
static int find(struct dl_phdr_info *object, size_t size, void *nothing) {
    (void)size, (void)nothing;
    first = UINTPTR_MAX;
    for (int i = 0; i < object->dlpi_phnum; i++) {
        const ElfW(Phdr) *part = &object->dlpi_phdr[i];
        if (part->p_type != PT_LOAD) continue;
        uintptr_t begin = object->dlpi_addr + part->p_vaddr;
        if (begin < first) first = begin;
        if (begin + part->p_memsz > last) last = begin + part->p_memsz;
    }
    return 1;
}

/* What lists a program's tests is not meant, nor what starts them. */
static int is_meant(int words, char **word) {
    char self[PATH_MAX];
    const char *in = getenv("REFUSE_IN");
    ssize_t length = readlink("/proc/self/exe", self, sizeof self - 1);
    for (int i = 1; i < words; i++) if (!strcmp(word[i], "--list")) return 0;
    if (!in || length < 0) return !in;
    self[length] = 0;
    return !strcmp(self, in);
}

__attribute__((constructor)) static void begin(int words, char **word) {
    const char *which = getenv("REFUSE_AT");
    if (!which || !is_meant(words, word)) return;
    for (char *rest = (char *)which; *rest && count < MOST; rest += *rest == ',') at[count++] = strtol(rest, &rest, 10);
    all = getenv("REFUSE_ALL") != NULL;
    note = getenv("REFUSE_NOTE");
    dl_iterate_phdr(find, NULL);
    counts = 1;
}

static void tell(void) {
    const char *file = note;
    note = NULL;
    if (!file) return;
    /* A thread that nobody joins gives its last block back a moment after its end was seen. */
    for (int waits = 0; left > 0 && waits < 50; waits++) usleep(1000);
    char text[100];
    int length = snprintf(text, sizeof text, "%ld %ld %ld\n", met, refused, left), to = open(file, O_WRONLY | O_CREAT | O_TRUNC, 0600);
    if (to < 0 || write(to, text, length) != length) abort();
    close(to);
}

__attribute__((destructor)) static void end(void) { tell(); }

/* The program may end without its destructors. */
void _exit(int status) {
    tell();
    for (;;) syscall(SYS_exit_group, status);
}

static int is_refused(void) {
    if (!counts) return 0;
    long now = atomic_fetch_add(&met, 1) + 1;
    int is = all && at[0] > 0 && now > at[0];
    for (int i = 0; i < count; i++) is |= now == at[i];
    if (is) atomic_fetch_add(&refused, 1);
    return is;
}

static int is_own(void *caller) { return counts && first <= (uintptr_t)caller && (uintptr_t)caller < last; }

void *malloc(size_t size) {
    void *given = is_refused() ? NULL : __libc_malloc(size);
    if (given && is_own(__builtin_return_address(0))) atomic_fetch_add(&left, 1);
    return given;
}

void *realloc(void *old, size_t size) {
    void *given = is_refused() ? NULL : __libc_realloc(old, size);
    if (given && !old && is_own(__builtin_return_address(0))) atomic_fetch_add(&left, 1);
    return given;
}

void free(void *old) {
    if (old && is_own(__builtin_return_address(0))) atomic_fetch_sub(&left, 1);
    __libc_free(old);
}
