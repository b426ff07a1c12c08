/* Refuses one allocation of the program that it is loaded into, and counts the blocks that aren't given back.
 *
 * LD_PRELOAD loads it. It reads its orders from the environment: REFUSED is the number of the allocation to refuse, counted
 * from 1 (0: none). REFUSED_TO is the descriptor of a file of one page, in which it counts how many allocations were wanted, how
 * many were refused, and how many blocks are held. So the counts survive a program that is killed. A `realloc` is an
 * allocation; a block that it moves is the same block.
 *
 * A program with allocation functions of its own, as `rt try` makes it, calls them past any library. Each of these functions is
 * a jump in that program, and is made to jump here. It doesn't support threads.
 */
#define _GNU_SOURCE
#include <dlfcn.h>
#include <errno.h>
#include <stdint.h>
#include <stdlib.h>
#include <string.h>
#include <sys/mman.h>
#include <unistd.h>

static void *(*real_malloc)(size_t);
static void *(*real_calloc)(size_t, size_t);
static void *(*real_realloc)(void *, size_t);
static void *(*real_aligned_alloc)(size_t, size_t);
static void (*real_free)(void *);

static struct counts {
    long wanted, refused, held;
} before, *counts = &before;
static long refused_number;

/* Whether this allocation is the one that is refused. */
static int is_refused(void) {
    if (++counts->wanted != refused_number) return 0;
    counts->refused++;
    errno = ENOMEM;
    return 1;
}

static void *counted(void *block) {
    if (block) counts->held++;
    return block;
}

static void find_real(void) {
    if (real_malloc) return;
    real_calloc = dlsym(RTLD_NEXT, "calloc");
    real_realloc = dlsym(RTLD_NEXT, "realloc");
    real_aligned_alloc = dlsym(RTLD_NEXT, "aligned_alloc");
    real_free = dlsym(RTLD_NEXT, "free");
    real_malloc = dlsym(RTLD_NEXT, "malloc");
}

static void *refusing_malloc(size_t size) {
    find_real();
    return is_refused() ? NULL : counted(real_malloc(size));
}

static void *refusing_calloc(size_t count, size_t size) {
    find_real();
    return is_refused() ? NULL : counted(real_calloc(count, size));
}

static void *refusing_aligned_alloc(size_t alignment, size_t size) {
    find_real();
    return is_refused() ? NULL : counted(real_aligned_alloc(alignment, size));
}

static void *refusing_realloc(void *block, size_t size) {
    find_real();
    if (is_refused()) return NULL;
    void *grown = real_realloc(block, size);
    return block ? grown : counted(grown);
}

static void counting_free(void *block) {
    find_real();
    if (block) counts->held--;
    real_free(block);
}

/* What the program calls if it has no such functions of its own. */
void *malloc(size_t size) { return refusing_malloc(size); }
void *calloc(size_t count, size_t size) { return refusing_calloc(count, size); }
void *realloc(void *block, size_t size) { return refusing_realloc(block, size); }
void *aligned_alloc(size_t alignment, size_t size) { return refusing_aligned_alloc(alignment, size); }
void free(void *block) { counting_free(block); }

int posix_memalign(void **block, size_t alignment, size_t size) {
    *block = refusing_aligned_alloc(alignment, size);
    return *block ? 0 : ENOMEM;
}

enum { JUMP = 5, FAR_JUMP = 14, PAGE = 4096 };

static unsigned char *stubs;

/* A page that a jump of the program reaches. */
static unsigned char *page_near(unsigned char *place) {
    for (uintptr_t far = 16 * PAGE; far < 0x40000000; far += 16 * PAGE) {
        void *wish = (void *)(((uintptr_t)place & ~(uintptr_t)(PAGE - 1)) - far);
        void *page = mmap(wish, PAGE, PROT_READ | PROT_WRITE | PROT_EXEC, MAP_PRIVATE | MAP_ANONYMOUS | MAP_FIXED_NOREPLACE, -1, 0);
        if (page != MAP_FAILED) return page;
    }
    _exit(125);
}

/* Redirects a function of the program, which is a jump. Answers the place that it jumped to before. */
static void *redirect(unsigned char *function, void *elsewhere) {
    int32_t distance;
    if (*function != 0xe9) _exit(125);
    memcpy(&distance, function + 1, sizeof distance);
    void *real = function + JUMP + distance;
    if (!stubs) stubs = page_near(function);
    memcpy(stubs, "\xff\x25\0\0\0\0", 6);
    memcpy(stubs + 6, &elsewhere, sizeof elsewhere);
    distance = (int32_t)(stubs - (function + JUMP));
    unsigned char *page = (unsigned char *)((uintptr_t)function & ~(uintptr_t)(PAGE - 1));
    if (mprotect(page, 2 * PAGE, PROT_READ | PROT_WRITE | PROT_EXEC)) _exit(125);
    memcpy(function + 1, &distance, sizeof distance);
    mprotect(page, 2 * PAGE, PROT_READ | PROT_EXEC);
    stubs += FAR_JUMP + 2;
    return real;
}

__attribute__((constructor)) static void begin(void) {
    const char *number = getenv("REFUSED"), *to = getenv("REFUSED_TO");
    find_real();
    unsigned char *own = dlsym(RTLD_DEFAULT, "malloc");
    Dl_info at, here;
    if (dladdr(own, &at) && dladdr(&counts, &here) && at.dli_fbase != here.dli_fbase) {
        real_calloc = redirect(dlsym(RTLD_DEFAULT, "calloc"), refusing_calloc);
        real_realloc = redirect(dlsym(RTLD_DEFAULT, "realloc"), refusing_realloc);
        real_aligned_alloc = redirect(dlsym(RTLD_DEFAULT, "aligned_alloc"), refusing_aligned_alloc);
        real_free = redirect(dlsym(RTLD_DEFAULT, "free"), counting_free);
        real_malloc = redirect(own, refusing_malloc);
    }
    /* What was taken before doesn't count. */
    if (number) refused_number = atol(number);
    if (to) {
        counts = mmap(NULL, PAGE, PROT_READ | PROT_WRITE, MAP_SHARED, atoi(to), 0);
        if (counts == MAP_FAILED) _exit(125);
    }
}
