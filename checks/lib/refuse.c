/* A library that is preloaded. It counts the requests of the program and makes some of them fail. The variable REFUSE
 * has the kind of request, the number of the first that fails, whether all after it fail too, the error number, and the
 * descriptor of the file to which the name of each failed request is written. */
#define _GNU_SOURCE
#include <errno.h>
#include <fcntl.h>
#include <dlfcn.h>
#include <link.h>
#include <pthread.h>
#include <stdarg.h>
#include <stdio.h>
#include <stdlib.h>
#include <string.h>
#include <sys/syscall.h>
#include <unistd.h>
extern void *__libc_malloc(size_t), *__libc_calloc(size_t, size_t), *__libc_realloc(void *, size_t);
extern void *__libc_memalign(size_t, size_t);
static int (*start)(pthread_t *, const pthread_attr_t *, void *(*)(void *), void *);
static char what[16] = "nothing";
static long number, on, error, told, asked;
static size_t size;
static char *low, *high;

/* The program itself is the first object: where its code lies. */
static int first(struct dl_phdr_info *info, size_t length, void *unused) {
    for (int i = 0; i < info->dlpi_phnum; i++) {
        if (info->dlpi_phdr[i].p_type != PT_LOAD || !(info->dlpi_phdr[i].p_flags & PF_X)) continue;
        low = (char *) info->dlpi_addr + info->dlpi_phdr[i].p_vaddr;
        high = low + info->dlpi_phdr[i].p_memsz;
    }
    return 1;
}
__attribute__((constructor)) static void begin(void) {
    const char *words = getenv("REFUSE");
    start = dlsym(RTLD_NEXT, "pthread_create");
    dl_iterate_phdr(first, 0);
    if (words) sscanf(words, "%15s %ld %ld %ld %ld", what, &number, &on, &error, &told);
    if (sscanf(what, "bytes%zu", &size) == 1) strcpy(what, "bytes");
}
/* Tells the name of what was refused, in a file of its own. */
static void tell(const char *name) {
    char line[4200];
    int length = snprintf(line, sizeof line, "%s\n", name);
    syscall(SYS_write, (int) told, line, length);
}
static int refused(const char *kind, const char *name) {
    if (strcmp(kind, what)) return 0;
    long turn = __atomic_add_fetch(&asked, 1, __ATOMIC_SEQ_CST);
    if (on ? turn < number : turn != number) return 0;
    tell(name);
    errno = error;
    return 1;
}
/* Requests of the program are `memory`, from a page on `large`, and from 256 KB on `huge`; those of the C library for it are
 * `library`. */
static int gone(void *from, size_t n) {
    int own = (char *) from >= low && (char *) from < high;
    if (!own) return refused("library", "memory");
    if (n >= 262144 && refused("huge", "memory")) return 1;
    return refused("memory", "memory") || (n >= 4096 && refused("large", "memory"));
}
#define CALLER __builtin_return_address(0)
/* Requests of a number of bytes are `bytes` with this number. A font has a table of 257 rows for pairs, of 512 bytes, and a
 * table of texts has 65,792 cells of two bytes. */
static int sized(size_t n) { return n == size && refused("bytes", "memory"); }
static int table(size_t n) { return n == 131584 && refused("table", "memory"); }
void *malloc(size_t n) { return gone(CALLER, n) || table(n) || sized(n) ? 0 : __libc_malloc(n); }
void *calloc(size_t n, size_t size) { return gone(CALLER, n * size) ? 0 : __libc_calloc(n, size); }
void *realloc(void *p, size_t n) { return gone(CALLER, n) || sized(n) ? 0 : __libc_realloc(p, n); }
void *aligned_alloc(size_t to, size_t n) { return gone(CALLER, n) ? 0 : __libc_memalign(to, n); }
int posix_memalign(void **p, size_t to, size_t n) {
    if (gone(CALLER, n)) return ENOMEM;
    return (*p = __libc_memalign(to, n)) ? 0 : ENOMEM;
}
int pthread_create(pthread_t *thread, const pthread_attr_t *with, void *(*run)(void *), void *of) {
    return refused("thread", "thread") ? (int) error : start(thread, with, run, of);
}
static size_t fewer(size_t n) { return strcmp(what, "few") || n < (size_t) number ? n : (size_t) number; }
ssize_t read(int fd, void *room, size_t n) {
    char link[64], name[4096];
    snprintf(link, sizeof link, "/proc/self/fd/%d", fd);
    ssize_t length = readlink(link, name, sizeof name - 1);
    name[length > 0 ? length : 0] = 0;
    return refused("read", name) ? -1 : syscall(SYS_read, fd, room, fewer(n));
}
static ssize_t put(int fd, const void *bytes, size_t n) {
    if (fd == 1 && refused("write", "output")) return -1;
    if (fd == 2 && refused("telling", "telling")) return -1;
    return syscall(SYS_write, fd, bytes, fewer(n));
}
ssize_t write(int fd, const void *bytes, size_t n) { return put(fd, bytes, n); }
ssize_t __write(int fd, const void *bytes, size_t n) { return put(fd, bytes, n); }
int open(const char *name, int flags, ...) {
    va_list more;
    va_start(more, flags);
    int mode = va_arg(more, int);
    va_end(more);
    return refused("open", name) ? -1 : syscall(SYS_openat, AT_FDCWD, name, flags, mode);
}
