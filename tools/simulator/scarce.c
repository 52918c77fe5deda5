/* Memory that is refused below linda_test_simulator: preloaded into it, this is between the program and its allocator.

   The program asks for SIGN bytes and N more to have the N-th allocation from then on refused, and for SIGN bytes to have none refused any more
   (crates/linda_test_simulator/src/servers/scarce.rt). The former allocation is refused itself: so the program knows that this library is there. The latter is refused
   exactly if one was refused meanwhile. */

#include <errno.h>
#include <stddef.h>

#define SIGN 7340033
#define MOST 65536

extern void *__libc_malloc(size_t), *__libc_calloc(size_t, size_t), *__libc_realloc(void *, size_t), *__libc_memalign(size_t, size_t);

/* Which allocation is refused, 0 if none is; and whether one was. */
static size_t left, was_refused;

static int refused(size_t bytes) {
    int is_refused = 0;
    if (bytes == SIGN) {
        is_refused = was_refused;
        left = was_refused = 0;
    } else if (bytes > SIGN && bytes <= SIGN + MOST) {
        left = bytes - SIGN;
        was_refused = 0;
        is_refused = 1;
    } else if (left > 0) {
        left--;
        is_refused = left == 0;
        was_refused = was_refused || is_refused;
    }
    if (is_refused) errno = ENOMEM;
    return is_refused;
}

void *malloc(size_t n) { return refused(n) ? NULL : __libc_malloc(n); }
void *calloc(size_t n, size_t m) { return refused(n * m) ? NULL : __libc_calloc(n, m); }
void *realloc(void *p, size_t n) { return refused(n) ? NULL : __libc_realloc(p, n); }
void *aligned_alloc(size_t a, size_t n) { return refused(n) ? NULL : __libc_memalign(a, n); }
int posix_memalign(void **p, size_t a, size_t n) {
    if (refused(n)) return ENOMEM;
    *p = __libc_memalign(a, n);
    return *p ? 0 : ENOMEM;
}
