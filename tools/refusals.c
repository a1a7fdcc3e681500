// Refuses requests for memory of a program: it is loaded before the C library, and takes that one's place at malloc and realloc. The file that
// REFUSALS names says which request is refused, and gets the counts; tools/refusals.py makes it. The kit has no header, so this takes none.

typedef unsigned long Number;

void *__libc_malloc(Number size);
void *__libc_realloc(void *old, Number size);
char *getenv(const char *name);
int open(const char *path, int how, ...);
void *mmap(void *at, Number size, int access, int kind, int file, long offset);

enum { READ_AND_WRITE = 2, READABLE_AND_WRITABLE = 3, SHARED = 1 };

// requests of so many bytes are marks: a call begins, and it has ended (tests/support/marks.rs)
enum { BEGINS = 7919123, ENDS = 7919125 };

struct Counts {
    // the number of the request that is refused, from 1 on; at 0 none is
    Number number;
    // whether it is one of each call, and only requests of calls count
    Number of_calls;
    // how many were made, the most of them in one call or else all, and how many were refused
    Number made, most, refused;
};

static struct Counts nowhere;
static struct Counts *counts = &nowhere;
// whether requests count now, how many did since the call began, and how many had been refused then
static int counting;
static Number at, refused_before;

__attribute__((constructor)) static void begin(void)
{
    const char *path = getenv("REFUSALS");
    int file = path ? open(path, READ_AND_WRITE) : -1;
    void *found = file < 0 ? (void *)-1 : mmap(0, sizeof *counts, READABLE_AND_WRITABLE, SHARED, file, 0);
    if (found == (void *)-1)
        return;
    counts = found;
    counting = !counts->of_calls;
}

// A mark isn't counted. The one at a call's end is refused where a request of the call was.
static int is_refused_mark(Number size)
{
    if (counts->of_calls) {
        counting = size == BEGINS;
        at = 0;
    }
    if (size == ENDS)
        return counts->refused != refused_before;
    refused_before = counts->refused;
    return 0;
}

static int is_refused(Number size)
{
    if (size == BEGINS || size == ENDS)
        return is_refused_mark(size);
    if (!counting)
        return 0;
    counts->made++;
    at++;
    if (counts->most < at)
        counts->most = at;
    if (at != counts->number)
        return 0;
    counts->refused++;
    return 1;
}

void *malloc(Number size)
{
    return is_refused(size) ? 0 : __libc_malloc(size);
}

void *realloc(void *old, Number size)
{
    return is_refused(size) ? 0 : __libc_realloc(old, size);
}
