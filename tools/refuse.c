/* Loaded before the C library by tools/refuse-memory: counts the requests for memory that a program makes from its `main` on,
   refuses the one of the number REFUSE (from 1; none for 0), and leaves the number of requests in the file REFUSE_TOLD. */
#include <errno.h>
#include <fcntl.h>
#include <stdio.h>
#include <stdlib.h>
#include <unistd.h>

static unsigned long asked, refused;
static int counts;

__attribute__((constructor)) static void begin(void) {
    const char *word = getenv("REFUSE");
    refused = word ? strtoul(word, NULL, 10) : 0;
    counts = 1;
}

__attribute__((destructor)) static void end(void) {
    const char *name = getenv("REFUSE_TOLD");
    char text[24];
    counts = 0;
    int length = snprintf(text, sizeof text, "%lu", asked);
    int file = name ? open(name, O_WRONLY | O_CREAT | O_TRUNC, 0600) : -1;
    if (file < 0 || write(file, text, (size_t)length) != length) _exit(99);
}

static int is_refused(void) {
    if (!counts || ++asked != refused) return 0;
    errno = ENOMEM;
    return 1;
}

/* What the GNU C library calls its own. */
extern void *__libc_malloc(size_t);
extern void *__libc_calloc(size_t, size_t);
extern void *__libc_realloc(void *, size_t);

void *malloc(size_t size) { return is_refused() ? NULL : __libc_malloc(size); }
void *calloc(size_t count, size_t size) { return is_refused() ? NULL : __libc_calloc(count, size); }
void *realloc(void *old, size_t size) { return is_refused() ? NULL : __libc_realloc(old, size); }
