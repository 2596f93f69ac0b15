/*
 * A heap whose calls fail where it is told: tools/fail_alloc puts it before the C library's.
 *
 * FAIL_AT=N fails the Nth call that asks for memory, FAIL_FROM=N that one and all after it; the calls are counted
 * from 1 on. At the end the number of the calls is written to file descriptor COUNT_TO, if that is given.
 */
typedef unsigned long size;

extern void *__libc_malloc(size bytes);
extern void *__libc_realloc(void *block, size bytes);
extern char *getenv(const char *name);
extern long write(int to, const void *bytes, size count);

static size calls;
static size fail_at;
static size fail_from;
static int is_ready;

static size number_of(const char *name) {
    const char *text = getenv(name);
    size number = 0;
    while (text && *text >= '0' && *text <= '9') {
        number = number * 10 + (size)(*text++ - '0');
    }
    return number;
}

static int fails(void) {
    if (!is_ready) {
        fail_at = number_of("FAIL_AT");
        fail_from = number_of("FAIL_FROM");
        is_ready = 1;
    }
    calls++;
    return calls == fail_at || (fail_from && calls >= fail_from);
}

void *malloc(size bytes) {
    return fails() ? 0 : __libc_malloc(bytes);
}

void *realloc(void *block, size bytes) {
    return fails() ? 0 : __libc_realloc(block, bytes);
}

__attribute__((destructor)) static void tell(void) {
    size to = number_of("COUNT_TO");
    char digits[24];
    int at = 24;
    for (size left = calls; at > 0; left /= 10) {
        digits[--at] = (char)('0' + left % 10);
        if (left < 10) {
            break;
        }
    }
    if (to) {
        write((int)to, digits + at, (size)(24 - at));
    }
}
