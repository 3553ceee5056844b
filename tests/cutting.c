// Cuts a program's power. Loaded in front of the C library (LD_PRELOAD), it stands in the place of the calls that change one file or make them
// durable: `write`, `pwrite`, `ftruncate`, `fdatasync` and `fsync`, and `rename` to that file. At a chosen one of these calls it leaves what a power cut might:
// all that was synced, and of what wasn't any part. Of each write since the last sync nothing, all, a front, a back, or any bytes in its range, whatever
// became of the others; of a cut any length between; and a new name that its folder wasn't synced after, or the old one. Then the program ends.
//
//   CUT_FILE     the file
//   CUT_NUMBER   the number of the call at which the power fails, from 1; 0 for none
//   CUT_SEED     what is drawn goes by this number
//   CUT_FAILS    an error of the system, by its number: in place of the power the disk fails. The call answers with this error, and so does each later one of
//                these; a second sync after one that failed ends the program, with the status 97
//   CUT_COUNTS   a file of sixteen bytes: how many such calls came, and whether one failed or was the last. It is mapped, and so is there however the
//                program ends
//   CUT_PAUSE    how many microseconds a sync takes besides
//
// It needs no header, so that a compiler alone builds it. The program ends with the status 99.
typedef __SIZE_TYPE__ size;
typedef unsigned long number;

extern char *getenv(const char *);
extern number strtoul(const char *, char **, int);
extern int open(const char *, int, ...);
extern int close(int);
extern void *mmap(void *, size, int, int, int, long);
extern void *dlsym(void *, const char *);
extern void *malloc(size);
extern void free(void *);
extern long readlink(const char *, char *, size);
extern long pread(int, void *, size, long);
extern long lseek(int, long, int);
extern size strlen(const char *);
extern int strcmp(const char *, const char *);
extern void *memcpy(void *, const void *, size);
extern int snprintf(char *, size, const char *, ...);
extern int *__errno_location(void);
extern int usleep(unsigned);
extern void _exit(int) __attribute__((noreturn));

enum { READ_WRITE = 2, CAN_READ_WRITE = 3, SHARED = 1, FROM_HERE = 1, FROM_END = 2, PATH = 4096, KEPT = 256, CUT = 99, TRIED_AGAIN = 97 };

// A write that isn't synced: where, what stood there, and what stands there now; or a cut, by the bytes that it took.
struct change {
    int is_cut;
    number at, old_size, old_count, new_count;
    unsigned char *old, *new;
};

static const char *path;
static char path_new[PATH];
static number cut_at, seed, fails, pause, unmapped[2], *counts = unmapped;
static struct change changes[KEPT];
static int changed, is_renamed, has_failed, lock;

static long (*next_write)(int, const void *, size);
static long (*next_pwrite)(int, const void *, size, long);
static int (*next_ftruncate)(int, long);
static int (*next_fdatasync)(int), (*next_fsync)(int);
static int (*next_rename)(const char *, const char *);

__attribute__((constructor)) static void begin(void) {
    void *next = (void *)-1;
    next_write = dlsym(next, "write");
    next_pwrite = dlsym(next, "pwrite");
    next_ftruncate = dlsym(next, "ftruncate");
    next_fdatasync = dlsym(next, "fdatasync");
    next_fsync = dlsym(next, "fsync");
    next_rename = dlsym(next, "rename");
    const char *at = getenv("CUT_NUMBER"), *drawn = getenv("CUT_SEED"), *file_of_counts = getenv("CUT_COUNTS"), *error = getenv("CUT_FAILS"),
               *slow = getenv("CUT_PAUSE");
    path = getenv("CUT_FILE");
    snprintf(path_new, sizeof path_new, "%s.new", path ? path : "");
    cut_at = at ? strtoul(at, 0, 10) : 0;
    fails = error ? strtoul(error, 0, 10) : 0;
    seed = drawn ? strtoul(drawn, 0, 10) : 1;
    pause = slow ? strtoul(slow, 0, 10) : 0;
    int file = file_of_counts ? open(file_of_counts, READ_WRITE) : -1;
    void *mapped = file < 0 ? (void *)-1 : mmap(0, sizeof unmapped, CAN_READ_WRITE, SHARED, file, 0);
    if (mapped != (void *)-1)
        counts = mapped;
}

// A number below a bound (splitmix64).
static number drawn(number bound) {
    number it = seed += 0x9e3779b97f4a7c15;
    it = (it ^ it >> 30) * 0xbf58476d1ce4e5b9;
    it = (it ^ it >> 27) * 0x94d049bb133111eb;
    return bound ? (it ^ it >> 31) % bound : 0;
}

static void take(void) {
    while (__atomic_exchange_n(&lock, 1, __ATOMIC_ACQUIRE))
        ;
}

static void give(void) {
    __atomic_store_n(&lock, 0, __ATOMIC_RELEASE);
}

// Whether a descriptor is of the file, as it is named now or while it is made.
static int is_of_file(int fd) {
    char name[64], found[PATH];
    snprintf(name, sizeof name, "/proc/self/fd/%d", fd);
    long length = path ? readlink(name, found, sizeof found - 1) : -1;
    if (length < 0)
        return 0;
    found[length] = 0;
    return !strcmp(found, path) || !strcmp(found, path_new);
}

// Notes a change before it is made.
static void note(int fd, int is_cut, number at, const void *bytes, number length) {
    struct change *it = &changes[changed];
    number place = lseek(fd, 0, FROM_HERE), size_now = lseek(fd, 0, FROM_END);
    lseek(fd, place, 0);
    if (changed == KEPT)
        _exit(98);
    it->is_cut = is_cut;
    it->at = at;
    it->old_size = size_now;
    it->new_count = is_cut ? 0 : length;
    it->old_count = at >= size_now ? 0 : is_cut || at + length > size_now ? size_now - at : length;
    it->old = malloc(it->old_count + 1);
    it->new = malloc(it->new_count + 1);
    pread(fd, it->old, it->old_count, at);
    if (!is_cut)
        memcpy(it->new, bytes, length);
    changed++;
}

static void put_back(int fd, struct change *it) {
    next_pwrite(fd, it->old, it->old_count, it->at);
    next_ftruncate(fd, it->old_size);
}

// Leaves a part of a change, over what the file is without it.
static void leave_part(int fd, struct change *it) {
    number size_now = lseek(fd, 0, FROM_END), from = 0, to = it->new_count;
    number kind = drawn(5);
    if (it->is_cut) {
        if (size_now > it->at)
            next_ftruncate(fd, it->at + drawn(size_now - it->at + 1));
        return;
    }
    if (kind == 0)
        return;
    if (kind == 2)
        to = drawn(it->new_count + 1);
    if (kind == 3)
        from = drawn(it->new_count + 1);
    if (kind == 4)
        for (number place = drawn(it->new_count + 1); place < it->new_count; place++)
            it->new[place] = drawn(256);
    next_pwrite(fd, it->new + from, to - from, it->at + from);
}

static void forget(void) {
    for (; changed > 0; changed--) {
        free(changes[changed - 1].old);
        free(changes[changed - 1].new);
    }
}

// Leaves what wasn't synced in any state, and ends the program, or has its disk fail from here on.
static long cut_power(void) {
    counts[1] = 1;
    if (is_renamed && drawn(2))
        next_rename(path, path_new);
    int fd = open(path, READ_WRITE);
    fd = fd < 0 ? open(path_new, READ_WRITE) : fd;
    for (int it = changed; fd >= 0 && it > 0; it--)
        put_back(fd, &changes[it - 1]);
    for (int it = 0; fd >= 0 && it < changed; it++)
        leave_part(fd, &changes[it]);
    if (!fails)
        _exit(CUT);
    close(fd);
    forget();
    has_failed = 1;
    is_renamed = 0;
    *__errno_location() = fails;
    return -1;
}

// Counts a call; whether the power fails at it.
static int is_last(void) {
    return ++counts[0] == cut_at;
}

// What a call that was made answers: the power or the disk may fail at it.
static long answered(long done) {
    if (is_last() || has_failed)
        done = cut_power();
    if (done < 0)
        counts[1] = 1;
    give();
    return done;
}

long write(int fd, const void *bytes, size length) {
    if (!next_write)
        next_write = dlsym((void *)-1, "write");
    if (!is_of_file(fd))
        return next_write(fd, bytes, length);
    take();
    note(fd, 0, lseek(fd, 0, FROM_HERE), bytes, length);
    return answered(next_write(fd, bytes, length));
}

long pwrite(int fd, const void *bytes, size length, long at) {
    if (!is_of_file(fd))
        return next_pwrite(fd, bytes, length, at);
    take();
    note(fd, 0, at, bytes, length);
    return answered(next_pwrite(fd, bytes, length, at));
}

int ftruncate(int fd, long length) {
    if (!is_of_file(fd))
        return next_ftruncate(fd, length);
    take();
    note(fd, 1, length, 0, 0);
    return answered(next_ftruncate(fd, length));
}

static int synced(int fd, int (*next)(int)) {
    static int is_failed;
    take();
    if (is_failed)
        _exit(TRIED_AGAIN);
    is_failed = is_last() || has_failed;
    int done = is_failed ? cut_power() : next(fd);
    if (done == 0)
        forget();
    give();
    return done;
}

int fdatasync(int fd) {
    if (pause)
        usleep(pause);
    return is_of_file(fd) ? synced(fd, next_fdatasync) : next_fdatasync(fd);
}

// Of a folder it makes the new name durable.
int fsync(int fd) {
    if (is_of_file(fd))
        return synced(fd, next_fsync);
    if (is_renamed) {
        take();
        int is_failed = is_last() && cut_power();
        is_renamed = 0;
        give();
        if (is_failed)
            return -1;
    }
    return next_fsync(fd);
}

int rename(const char *from, const char *to) {
    if (!path || strcmp(to, path))
        return next_rename(from, to);
    take();
    int done = next_rename(from, to);
    is_renamed = done == 0;
    return answered(done);
}

long pwrite64(int fd, const void *bytes, size length, long at) {
    return pwrite(fd, bytes, length, at);
}

int ftruncate64(int fd, long length) {
    return ftruncate(fd, length);
}
