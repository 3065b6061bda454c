/* Watches the memory of the program that it is preloaded into. A proved program takes memory by malloc and realloc alone.
 *
 * The growth whose number REFUSED_GROWTH gives is refused, counted from 1 once the program's libraries are loaded, and each
 * growth by which more than MEMORY_LIMIT bytes would be in use. Standard error tells of each refusal, and at the end of the
 * program, where blocks are still in use, of that, and where COUNT_GROWTHS is set, of the number of growths and of bytes that
 * they asked for, up to the first that asks for a gigabyte or more: a test that takes all memory begins with it. The
 * declarations stand here since the kit's clang has no headers of the C library. */

typedef unsigned long size_t;

extern void *dlsym(void *library, const char *name);
extern char *getenv(const char *name);
extern int atoi(const char *text);
extern size_t malloc_usable_size(void *block);
extern long write(int file, const void *bytes, size_t length);
extern int dprintf(int file, const char *format, ...);

/* The library that is loaded after this one: the C library. */
#define NEXT ((void *)-1L)

/* How many growths there are still, with the one that is refused; 0 where none is. */
static int growths_left;

/* How many bytes may be in use, or 0 where any number may. */
static size_t limit;

/* How many growths there were, how many bytes they asked for, and whether one asked for a gigabyte or more. */
static long growths, asked;
static int is_over;

/* How many blocks and bytes are in use of those that were taken since the program's libraries were loaded. */
static long blocks, bytes;

static void tell(const char *note) {
    size_t length = 0;
    while (note[length])
        length++;
    if (write(2, note, length) < 0)
        growths_left = 0;
}

static int number_of(const char *name) {
    const char *number = getenv(name);
    return number ? atoi(number) : 0;
}

__attribute__((constructor)) static void begin(void) {
    growths_left = number_of("REFUSED_GROWTH");
    limit = number_of("MEMORY_LIMIT");
    blocks = bytes = growths = asked = 0;
}

__attribute__((destructor)) static void end(void) {
    if (blocks != 0)
        tell("blocks are in use at the end\n");
    if (getenv("COUNT_GROWTHS"))
        dprintf(2, "%ld growths, %ld bytes\n", growths, asked);
}

/* Whether a growth by that many bytes is refused. */
static int is_refused(long more) {
    int is_growth = more > 0, is_numbered = is_growth && growths_left > 0 && --growths_left == 0;
    is_over = is_over || more >= 1L << 30;
    if (!is_numbered && (limit == 0 || bytes + more <= (long)limit)) {
        growths += is_growth && !is_over;
        asked += is_growth && !is_over ? more : 0;
        return 0;
    }
    tell("refused\n");
    return 1;
}

/* Counts a block that is in use from now on, where the sign is 1, or no longer, where it is -1. */
static void count(void *block, int sign) {
    if (block) {
        blocks += sign;
        bytes += sign * (long)malloc_usable_size(block);
    }
}

void *malloc(size_t size) {
    static void *(*allocate)(size_t);
    if (!allocate)
        allocate = (void *(*)(size_t))dlsym(NEXT, "malloc");
    if (is_refused(size))
        return 0;
    void *block = allocate(size);
    count(block, 1);
    return block;
}

void *realloc(void *block, size_t size) {
    static void *(*resize)(void *, size_t);
    if (!resize)
        resize = (void *(*)(void *, size_t))dlsym(NEXT, "realloc");
    if (is_refused((long)size - (block ? (long)malloc_usable_size(block) : 0)))
        return 0;
    count(block, -1);
    void *other = resize(block, size);
    count(other ? other : block, 1);
    return other;
}

void free(void *block) {
    static void (*release)(void *);
    if (!release)
        release = (void (*)(void *))dlsym(NEXT, "free");
    count(block, -1);
    release(block);
}
