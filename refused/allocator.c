/* The heap of C below a program that the gate linked, loaded before it (LD_PRELOAD): its requests are refused as they are
 * told to be. Rattle's code makes its requests by the three calls malloc, realloc and free; those of the C library itself
 * are served as ever.
 *
 * A request for a block of one of the sizes below is a word and not a request: refusing it says yes, serving it says no.
 * Each word's block is really there where it is served, so that what the calls promise holds throughout.
 *
 * In a program that says no words, REFUSE=N in the environment has its N-th request refused, REFUSE_FROM=N that one and
 * each after it; what became of that stands in the last line of standard error. */
#define _GNU_SOURCE
#include <link.h>
#include <stdint.h>
#include <stdio.h>
#include <stdlib.h>
#include <string.h>

enum {
    LISTENS = 17000001,
    IS_LEVEL,
    WAS_REFUSED,
    TAKE_LEVEL,
    REFUSE = 18000000,      /* and the number of the request */
    REFUSE_FROM = 19000000, /* and the number of the first of the requests */
    MOST = 65535,
};

/* What stands before each block; it keeps the block aligned to 16. */
struct head {
    size_t size;
    size_t mark;
};

static const size_t THERE = 0x5eedb10c5eedb10c, GONE = 0xdeadb10cdeadb10c;

static enum { NOT_AT_ALL, ONE, FROM_ONE_ON } refuses;
static unsigned long nth, asked; /* the request that is refused, or the first; requests since the refusals began */
static long live, level;         /* blocks; blocks when they were counted */
static int refused;

/* glibc's own names of its heap. */
void *__libc_malloc(size_t size);
void *__libc_realloc(void *p, size_t size);
void __libc_free(void *p);

static void *serve(size_t size) {
    struct head *head = __libc_malloc(sizeof *head + size);
    if (!head)
        return 0;
    head->size = size;
    head->mark = THERE;
    memset(head + 1, 0xa5, size);
    live++;
    return head + 1;
}

static struct head *head_of(void *p) {
    struct head *head = (struct head *)p - 1;
    if (head->mark != THERE) {
        fprintf(stderr, "a block is freed or grown that is not there\n");
        abort();
    }
    return head;
}

static void give_back(void *p) {
    struct head *head = head_of(p);
    memset(p, 0x5a, head->size);
    head->mark = GONE;
    live--;
    __libc_free(head);
}

static void begin(int which, unsigned long number) {
    refuses = which;
    nth = number;
    asked = 0;
    refused = 0;
}

static int is_refused(void) {
    asked++;
    if ((refuses == ONE && asked == nth) || (refuses == FROM_ONE_ON && asked >= nth))
        return refused = 1;
    return 0;
}

static int says_yes(size_t word) {
    switch (word) {
    case LISTENS:
        return 1;
    case IS_LEVEL:
        return live == level;
    case WAS_REFUSED:
        refuses = NOT_AT_ALL;
        return refused;
    case TAKE_LEVEL:
        level = live;
        return 1;
    }
    if (word > REFUSE_FROM)
        begin(FROM_ONE_ON, word - REFUSE_FROM);
    else
        begin(ONE, word - REFUSE);
    return 1;
}

static int is_word(size_t size) {
    return (size >= LISTENS && size <= TAKE_LEVEL) || (size > REFUSE && size <= REFUSE + MOST) ||
           (size > REFUSE_FROM && size <= REFUSE_FROM + MOST);
}

/* Where the program's own code lies, and not that of a library that it loads. */
static uintptr_t begins, ends;

static int find_program(struct dl_phdr_info *it, size_t size, void *data) {
    (void)size, (void)data;
    for (int i = 0; i < it->dlpi_phnum; i++)
        if (it->dlpi_phdr[i].p_type == PT_LOAD && it->dlpi_phdr[i].p_flags & PF_X) {
            begins = it->dlpi_addr + it->dlpi_phdr[i].p_vaddr;
            ends = begins + it->dlpi_phdr[i].p_memsz;
        }
    return 1; /* the program comes first, and is all that is wanted */
}

static int is_of_program(void *caller) {
    return (uintptr_t)caller >= begins && (uintptr_t)caller < ends;
}

void *malloc(size_t size) {
    if (!is_of_program(__builtin_return_address(0)))
        return __libc_malloc(size);
    if (is_word(size) ? says_yes(size) : is_refused())
        return 0;
    return serve(size);
}

/* Moves the block each time, so that a use of its old place is seen. */
void *realloc(void *p, size_t size) {
    if (!is_of_program(__builtin_return_address(0)))
        return __libc_realloc(p, size);
    struct head *head = head_of(p);
    if (is_refused())
        return 0;
    void *moved = serve(size);
    if (moved) {
        memcpy(moved, p, head->size < size ? head->size : size);
        give_back(p);
    }
    return moved;
}

void free(void *p) {
    if (is_of_program(__builtin_return_address(0)))
        give_back(p);
    else
        __libc_free(p);
}

static int of_program;

__attribute__((constructor)) static void start(void) {
    const char *one = getenv("REFUSE"), *from = getenv("REFUSE_FROM");
    dl_iterate_phdr(find_program, 0);
    if (one || from) {
        of_program = 1;
        begin(one ? ONE : FROM_ONE_ON, strtoul(one ? one : from, 0, 10));
    }
}

__attribute__((destructor)) static void end(void) {
    if (of_program)
        fprintf(stderr, "refused %d of %lu, blocks left %ld\n", refused, asked, live);
}
