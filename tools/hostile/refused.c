/* refused: stands before the C library for `tools/hostile/refuse`, counts what a program asks of memory, and refuses the growth with the
   number REFUSE. REFUSE_TELL is a file that gets at the end how many growths there were, and how many bytes malloc and realloc were asked
   for: bytes that are asked for and never touched show here, for `tools/speed/memory.py`, and not as memory of the process. */
#define _GNU_SOURCE
#include <errno.h>
#include <fcntl.h>
#include <stdio.h>
#include <stdlib.h>
#include <sys/syscall.h>
#include <unistd.h>

extern void *__libc_malloc(size_t), *__libc_calloc(size_t, size_t), *__libc_realloc(void *, size_t), *__libc_memalign(size_t, size_t);
static long asked, bytes, refused = -1;

static int refuse(size_t more) {
    if (refused < 0) { const char *text = getenv("REFUSE"); refused = text ? atol(text) : 0; }
    __sync_add_and_fetch(&bytes, more);
    if (__sync_add_and_fetch(&asked, 1) != refused) return 0;
    errno = ENOMEM;
    return 1;
}
void *malloc(size_t n) { return refuse(n) ? NULL : __libc_malloc(n); }
void *calloc(size_t n, size_t m) { return refuse(0) ? NULL : __libc_calloc(n, m); }
void *realloc(void *p, size_t n) { return refuse(n) ? NULL : __libc_realloc(p, n); }
void *aligned_alloc(size_t a, size_t n) { return refuse(0) ? NULL : __libc_memalign(a, n); }
void *memalign(size_t a, size_t n) { return refuse(0) ? NULL : __libc_memalign(a, n); }
int posix_memalign(void **to, size_t a, size_t n) { return refuse(0) || !(*to = __libc_memalign(a, n)) ? ENOMEM : 0; }

__attribute__((destructor)) static void tell(void) {
    const char *path = getenv("REFUSE_TELL");
    int fd = path ? open(path, O_WRONLY | O_CREAT | O_TRUNC, 0600) : -1;
    if (fd >= 0) dprintf(fd, "%ld %ld", asked, bytes), close(fd);
}
/* a program that may start threads ends by this, which calls no destructor */
void _exit(int status) { tell(); for (;;) syscall(SYS_exit_group, status); }
