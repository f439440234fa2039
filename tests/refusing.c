/* Preloaded: the N-th call for memory is refused, N being the number in REFUSED, and with REFUSED_ON each one behind it too. How many
   calls there were is written to the file that COUNTED names. */
#include <errno.h>
#include <stdio.h>
#include <stdlib.h>

extern void *__libc_malloc(size_t);
extern void *__libc_realloc(void *, size_t);
static long calls, refused;
static int all_behind;

static int is_refused(void) {
    calls++;
    if (calls != refused && !(all_behind && refused && calls > refused))
        return 0;
    errno = ENOMEM;
    return 1;
}

void *malloc(size_t size) { return is_refused() ? NULL : __libc_malloc(size); }
void *realloc(void *old, size_t size) { return is_refused() ? NULL : __libc_realloc(old, size); }

__attribute__((constructor)) static void begin(void) {
    const char *number = getenv("REFUSED");
    all_behind = getenv("REFUSED_ON") != NULL;
    refused = number ? atol(number) : 0;
    calls = 0;
}

__attribute__((destructor)) static void end(void) {
    const char *path = getenv("COUNTED");
    long counted = calls;
    refused = 0;
    FILE *file = path ? fopen(path, "w") : NULL;
    if (file) {
        fprintf(file, "%ld\n", counted);
        fclose(file);
    }
}
