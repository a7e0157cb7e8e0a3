/* Allocations that fail: link with -Wl,--wrap=malloc,--wrap=calloc,--wrap=realloc. The first
 * `allowed` succeed, and the next one fails, alone or with all later ones. */
#ifndef REFUSING_H
#define REFUSING_H
#include <stddef.h>
#include <stdio.h>

static long allowed = -1; /* without limit */
static int looked, wrong, is_alone;
static size_t granted; /* the bytes of malloc */

void *__real_malloc(size_t size);
void *__real_calloc(size_t count, size_t size);
void *__real_realloc(void *block, size_t size);

static int refuses(void) { return allowed >= 0 && allowed-- == 0 ? (allowed = is_alone ? -1 : 0, 1) : 0; }
void *__wrap_malloc(size_t size) { return refuses() ? NULL : (granted += size, __real_malloc(size)); }
void *__wrap_calloc(size_t count, size_t size) { return refuses() ? NULL : __real_calloc(count, size); }
void *__wrap_realloc(void *block, size_t size) { return refuses() ? NULL : __real_realloc(block, size); }

#define WANT(holds) (looked++, (holds) ? (void)0 : (void)(wrong++, printf("%s:%d: %s doesn't hold\n", __FILE__, __LINE__, #holds)))

static int report(const char *name) {
    printf("%s: %d looked at, %d wrong\n", name, looked, wrong);
    return wrong != 0;
}
#endif
