/* Refuses calls of a program: for scripts/ends.sh. Loaded before the C library, by LD_PRELOAD, it counts the calls that
 * ask for memory, those that read and those that write. Of the calls of a kind those fail whose numbers, from 1, are in
 * the range that REFUSE_MEMORY, REFUSE_READS or REFUSE_WRITES tells, as 3-5. Where REFUSE_COUNTS is a file descriptor,
 * the three counts are written to it at the end. Where REFUSE_ONE is set, a read and a write move one byte at most; and
 * where REFUSE_ROOM is a number, so many bytes can be written, and a write fails when there is no room for one. It needs
 * no header, so that a compiler without any takes it. */

struct calls {
    unsigned long from, to, count;
};

static struct calls memory, reads, writes;
static unsigned long most = -1, room = -1;

extern void *__libc_malloc(unsigned long size);
extern void *__libc_realloc(void *block, unsigned long size);
extern long syscall(long number, ...);
extern char *getenv(const char *name);
extern unsigned long strtoul(const char *text, char **end, int base);
extern int dprintf(int file, const char *format, ...);
extern int *__errno_location(void);

enum { READ = 0, WRITE = 1, NO_MEMORY = 12, NO_DEVICE = 5, NO_SPACE = 28 };

static void set_range(struct calls *calls, const char *name) {
    char *text = getenv(name);
    if (text) {
        calls->from = strtoul(text, &text, 10);
        calls->to = strtoul(text + 1, &text, 10);
    }
    calls->count = 0;
}

static int fails(struct calls *calls, int cause) {
    unsigned long number = ++calls->count;
    if (number < calls->from || calls->to < number) {
        return 0;
    }
    *__errno_location() = cause;
    return 1;
}

void *malloc(unsigned long size) {
    return fails(&memory, NO_MEMORY) ? 0 : __libc_malloc(size);
}

void *realloc(void *block, unsigned long size) {
    return fails(&memory, NO_MEMORY) ? 0 : __libc_realloc(block, size);
}

static unsigned long least(unsigned long one, unsigned long other) {
    return one < other ? one : other;
}

long read(int file, void *bytes, unsigned long size) {
    return fails(&reads, NO_DEVICE) ? -1 : syscall(READ, file, bytes, least(size, most));
}

long write(int file, const void *bytes, unsigned long size) {
    unsigned long part = least(size, least(most, room));
    if (fails(&writes, NO_DEVICE)) {
        return -1;
    }
    if (size && !part) {
        *__errno_location() = NO_SPACE;
        return -1;
    }
    room -= part;
    return syscall(WRITE, file, bytes, part);
}

__attribute__((constructor)) static void begin(void) {
    set_range(&memory, "REFUSE_MEMORY");
    set_range(&reads, "REFUSE_READS");
    set_range(&writes, "REFUSE_WRITES");
    if (getenv("REFUSE_ONE")) {
        most = 1;
    }
    if (getenv("REFUSE_ROOM")) {
        room = strtoul(getenv("REFUSE_ROOM"), 0, 10);
    }
}

__attribute__((destructor)) static void end(void) {
    char *file = getenv("REFUSE_COUNTS");
    unsigned long asked = memory.count, read = reads.count, written = writes.count;
    if (file) {
        dprintf(strtoul(file, 0, 10), "%lu %lu %lu\n", asked, read, written);
    }
}
