// Refuses a program one request for memory, or all from one on. Loaded in front of the C library (LD_PRELOAD), it stands in the place of
// `malloc`, `realloc` and `pthread_create`, and counts the calls that come from the program itself: those of the C library's own,
// as before `main` or in a thread's start, go through uncounted.
//
//   REFUSED_NUMBER   the number of the request that is refused, from 1; 0 for none
//   REFUSED_LATER    1, where all later ones are refused too
//   REFUSED_COUNTS   a file of sixteen bytes: how many requests came, and how many were refused. It is mapped, and so is there however
//                    the program ends
//
// It needs no header, so that a compiler alone builds it.
typedef __SIZE_TYPE__ size;
typedef unsigned long number;

struct part {
    unsigned kind, flags;
    number offset, address, physical, in_file, in_memory, align;
};

extern void *__libc_malloc(size);
extern void *__libc_realloc(void *, size);
extern char *getenv(const char *);
extern number strtoul(const char *, char **, int);
extern number getauxval(number);
extern int open(const char *, int, ...);
extern void *mmap(void *, size, int, int, int, long);
extern void *dlsym(void *, const char *);
extern int *__errno_location(void);

enum { PARTS = 3, PART_COUNT = 5, LOADED = 1, HEADERS = 6, READ_WRITE = 2, CAN_READ_WRITE = 3, SHARED = 1, AGAIN = 11, NO_MEMORY = 12 };

static number first, after;  // the addresses of the program
static number wanted, is_later;
static number unmapped[2], *counts = unmapped;

__attribute__((constructor)) static void begin(void) {
    const struct part *parts = (const struct part *)getauxval(PARTS);
    number count = getauxval(PART_COUNT), base = 0;
    for (number it = 0; it < count; it++)
        if (parts[it].kind == HEADERS)
            base = (number)parts - parts[it].address;
    for (number it = 0; it < count; it++)
        if (parts[it].kind == LOADED) {
            number from = base + parts[it].address, to = from + parts[it].in_memory;
            first = first && first < from ? first : from;
            after = after > to ? after : to;
        }
    const char *text = getenv("REFUSED_NUMBER"), *later = getenv("REFUSED_LATER"), *path = getenv("REFUSED_COUNTS");
    int file = path ? open(path, READ_WRITE) : -1;
    void *mapped = file < 0 ? (void *)-1 : mmap(0, sizeof unmapped, CAN_READ_WRITE, SHARED, file, 0);
    if (mapped != (void *)-1)
        counts = mapped;
    is_later = later && *later == '1';
    wanted = text ? strtoul(text, 0, 10) : 0;
}

static int is_refused(void *caller) {
    if ((number)caller < first || (number)caller >= after)
        return 0;
    number met = __atomic_add_fetch(&counts[0], 1, __ATOMIC_SEQ_CST);
    int refused = wanted && (met == wanted || (is_later && met > wanted));
    if (refused)
        __atomic_add_fetch(&counts[1], 1, __ATOMIC_SEQ_CST);
    return refused;
}

void *malloc(size bytes) {
    if (is_refused(__builtin_return_address(0))) {
        *__errno_location() = NO_MEMORY;
        return 0;
    }
    return __libc_malloc(bytes);
}

void *realloc(void *block, size bytes) {
    if (is_refused(__builtin_return_address(0))) {
        *__errno_location() = NO_MEMORY;
        return 0;
    }
    return __libc_realloc(block, bytes);
}

int pthread_create(void *thread, const void *attributes, void *(*run)(void *), void *given) {
    static int (*next)(void *, const void *, void *(*)(void *), void *);
    if (is_refused(__builtin_return_address(0)))
        return AGAIN;
    if (!next)
        next = dlsym((void *)-1, "pthread_create");
    return next(thread, attributes, run, given);
}
