/* Refuses one allocation, read or write of the program that this is preloaded into, as the environment says:
 *
 *   FAULT_ALLOCATION=N   the N-th growth of memory from 1 on, FAULT_LASTS=1: each from there on
 *   FAULT_READ=N         each read of standard input once N bytes were handed out
 *   FAULT_OUT=N          each write to standard output once N bytes were taken
 *   FAULT_ERROR=N        the same of standard error
 *   FAULT_PIECE=N        a read hands out, and a write takes, at most N bytes
 *   FAULT_TOLD=FD        a byte goes there at each refusal, so that it is known that there was one
 *
 * No header is needed: the compiler of the kit has none. What the C library exports is declared here. */
typedef __SIZE_TYPE__ size;
typedef __PTRDIFF_TYPE__ sized;

extern void *__libc_malloc(size), *__libc_calloc(size, size), *__libc_realloc(void *, size), *__libc_memalign(size, size);
extern char *getenv(const char *);
extern long syscall(long, ...);
extern int *__errno_location(void);

enum { READ = 0, WRITE = 1, OUT_OF_MEMORY = 12, IO_FAULT = 5 };

struct piece {
    char *start;
    size length;
};

static long allocation = -1, lasts = -1, piece = -1, told = -1, counted;
static long left[3] = {-1, -1, -1};

static long number(const char *name) {
    const char *text = getenv(name);
    long value = 0;
    if (!text) return -1;
    for (; *text; text++) value = value * 10 + (*text - '0');
    return value;
}

__attribute__((constructor)) static void begin(void) {
    allocation = number("FAULT_ALLOCATION");
    lasts = number("FAULT_LASTS");
    piece = number("FAULT_PIECE");
    told = number("FAULT_TOLD");
    left[0] = number("FAULT_READ");
    left[1] = number("FAULT_OUT");
    left[2] = number("FAULT_ERROR");
}

static int refuse(int cause) {
    if (told >= 0) syscall(WRITE, told, "x", 1L);
    *__errno_location() = cause;
    return 1;
}

static int is_refused(void) {
    counted++;
    return (counted == allocation || (lasts == 1 && allocation > 0 && counted > allocation)) && refuse(OUT_OF_MEMORY);
}

void *malloc(size length) { return is_refused() ? 0 : __libc_malloc(length); }
void *calloc(size count, size length) { return is_refused() ? 0 : __libc_calloc(count, length); }
void *realloc(void *old, size length) { return is_refused() ? 0 : __libc_realloc(old, length); }
void *aligned_alloc(size alignment, size length) { return is_refused() ? 0 : __libc_memalign(alignment, length); }
void *memalign(size alignment, size length) { return is_refused() ? 0 : __libc_memalign(alignment, length); }

int posix_memalign(void **place, size alignment, size length) {
    if (is_refused()) return OUT_OF_MEMORY;
    *place = __libc_memalign(alignment, length);
    return *place ? 0 : OUT_OF_MEMORY;
}

/* Moves bytes of a stream, of which only so many are left before the fault. */
static sized move(long call, int stream, char *start, size length) {
    long *rest = stream >= 0 && stream <= 2 ? &left[stream] : 0;
    sized moved;
    if (rest && *rest >= 0) {
        if (*rest == 0 && length > 0 && refuse(IO_FAULT)) return -1;
        if (length > (size)*rest) length = *rest;
    }
    if (rest && piece > 0 && length > (size)piece) length = piece;
    moved = syscall(call, (long)stream, start, length);
    if (rest && *rest > 0 && moved > 0) *rest -= moved;
    return moved;
}

sized read(int stream, void *start, size length) { return move(READ, stream, start, length); }
sized write(int stream, const void *start, size length) { return move(WRITE, stream, (char *)start, length); }

/* Of several pieces the first that has a byte, which a call may do. */
sized readv(int stream, const struct piece *pieces, int count) {
    while (count > 1 && pieces->length == 0) pieces++, count--;
    return move(READ, stream, pieces->start, pieces->length);
}

sized writev(int stream, const struct piece *pieces, int count) {
    while (count > 1 && pieces->length == 0) pieces++, count--;
    return move(WRITE, stream, pieces->start, pieces->length);
}
