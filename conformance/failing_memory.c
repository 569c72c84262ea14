/* Makes one allocation fail: the one whose number, from 1, is in FAIL_AT. Where LIST_TO names a file, appends the size of each to
   it, as a word of 64 bits. conformance/sweep preloads it. */
#include <fcntl.h>
#include <stdint.h>
#include <stdlib.h>
#include <unistd.h>

void *__libc_malloc(size_t size);
void *__libc_realloc(void *old, size_t size);

static long made;

static void list(size_t size) {
    const char *to = getenv("LIST_TO");
    uint64_t word = size;
    int file = to == NULL ? -1 : open(to, O_WRONLY | O_APPEND);
    if (file < 0)
        return;
    if (write(file, &word, sizeof word) != sizeof word)
        abort();
    close(file);
}

static int fails(size_t size) {
    const char *at = getenv("FAIL_AT");
    made++;
    list(size);
    return at != NULL && made == atol(at);
}

void *malloc(size_t size) {
    return fails(size) ? NULL : __libc_malloc(size);
}

void *realloc(void *old, size_t size) {
    return fails(size) ? NULL : __libc_realloc(old, size);
}
