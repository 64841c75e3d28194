/* What a program of the kit needs of a C library, for a browser: a heap, files, arguments, and threads, which run one after
 * another. The page answers six calls; everything else is here. Built for wasm64, whose memory is then lowered to 32 bits: see
 * tools/wasm.py. */

typedef unsigned char byte;
typedef unsigned long word;

enum { NO_ENTRY = 2, TRY_AGAIN = 11, NO_SEEK = 29, NO_CALL = 38 };

#define PAGE(name) __attribute__((import_module("page"), import_name(#name)))
/* Each returns a count, or less than 0 where there is nothing of that kind. */
PAGE(write) long page_write(int file, const byte *from, long count);
PAGE(read) long page_read(int file, byte *to, long count);
PAGE(open) int page_open(const byte *name, long length);
PAGE(argument) long page_argument(long which, byte *to, long room);
PAGE(exit) __attribute__((noreturn)) void page_exit(int status);
/* Whether somebody wants to know how far a long run has got, which standard error tells then. */
PAGE(watched) int page_watched(void);

static int error;

int rattle_errno(void) { return error; }
void rattle_set_errno(int it) { error = it; }

/* ---- the heap: blocks of four sizes between a power of two and the next, each behind a head that says which size it has; free
 * ones wait in a list of their size */

struct head {
    word kind;
    struct head *next;
};

enum { LEAST = 5, KINDS = 4 * (32 - LEAST) };

extern byte __heap_base;
static struct head *free_blocks[KINDS];
static byte *top;

/* What a block of this kind takes, with its head: 32, 48, 48, 64, 64, 80, 96, 112, 128, 160, .. */
static word span(word kind) { return ((((4 + kind % 4) << (LEAST + kind / 4)) >> 2) + 15) & ~(word)15; }

static word kind_for(word count) {
    word power = count <= (word)1 << LEAST ? LEAST : 63 - (word)__builtin_clzl(count);
    word kind = 4 * (power - LEAST);
    while (span(kind) < count) kind++;
    return kind;
}

static word size(void) { return __builtin_wasm_memory_size(0) * 65536; }

/* Returns whether the memory reaches up to `end`, grown where it doesn't: by an eighth where that can be had, so that it
 * doesn't grow by little often. Its size tells whether it has grown: lowered to 32 bits, a refusal isn't -1. */
static int reaches(word end) {
    if (end <= size()) return 1;
    word pages = (end - size() + 65535) / 65536, eighth = size() / 65536 / 8;
    if (eighth > pages) __builtin_wasm_memory_grow(0, eighth);
    if (end > size()) __builtin_wasm_memory_grow(0, pages);
    return end <= size();
}

static void *allocate(word count) {
    if (count >= (word)1 << 31) return 0;
    word kind = kind_for(count + sizeof(struct head));
    struct head *block = free_blocks[kind];
    if (block) {
        free_blocks[kind] = block->next;
        return block + 1;
    }
    if (!top) top = (byte *)(((word)&__heap_base + 15) & ~(word)15);
    if (!reaches((word)top + span(kind))) return 0;
    block = (struct head *)top;
    top += span(kind);
    block->kind = kind;
    return block + 1;
}

void free(void *at) {
    if (!at) return;
    struct head *block = (struct head *)at - 1;
    block->next = free_blocks[block->kind];
    free_blocks[block->kind] = block;
}

void *malloc(word size) { return allocate(size); }

/* eight bytes wherever they lie */
typedef struct __attribute__((packed)) {
    word it;
} eight;

void *memcpy(void *to, const void *from, word count) {
    byte *a = to;
    const byte *b = from;
    for (; count >= 8; count -= 8, a += 8, b += 8) *(eight *)a = *(const eight *)b;
    while (count--) *a++ = *b++;
    return to;
}

void *memmove(void *to, const void *from, word count) {
    byte *a = to;
    const byte *b = from;
    if (a <= b) return memcpy(to, from, count);
    while (count--) a[count] = b[count];
    return to;
}

void *memset(void *to, int value, word count) {
    byte *a = to;
    eight all = {(byte)value * 0x0101010101010101};
    for (; count >= 8; count -= 8, a += 8) *(eight *)a = all;
    while (count--) *a++ = (byte)value;
    return to;
}

int memcmp(const void *left, const void *right, word count) {
    const byte *a = left, *b = right;
    for (; count; count--, a++, b++)
        if (*a != *b) return *a - *b;
    return 0;
}

/* What the kit's programs allocate by: whether it was granted, and where. */
struct granted {
    word is;
    void *at;
};
static byte nowhere;

static struct granted grant(void *at) {
    struct granted it = {at != 0, at ? at : &nowhere};
    return it;
}

struct granted rattle_alloc(word size, word align) { return grant(allocate(size ? size : align)); }

struct granted rattle_realloc(void *old, word had, word size, word align) {
    struct head *block = (struct head *)old - 1;
    if (!size) size = align;
    if (size + sizeof(struct head) <= span(block->kind)) return grant(old);
    void *at = allocate(size);
    if (at) {
        memcpy(at, old, had < size ? had : size);
        free(old);
    }
    return grant(at);
}

void rattle_dealloc(void *at) { free(at); }

/* ---- arguments and files */

enum { STANDARD_ERROR = 2 };

long rattle_arg(word which, byte *to, word room) { return page_argument((long)which, to, (long)room); }
long rattle_env_at(word which, byte *to, word room) { return -1; }

/* The environment: no colors, since what is told isn't read at a terminal. */
long rattle_env(const byte *name, byte *to, word room) {
    const char *no_color = "NO_COLOR";
    word at = 0;
    for (; name[at] && name[at] == (byte)no_color[at]; at++);
    if (name[at] || no_color[at] || room < 2) return -1;
    to[0] = '1';
    return 1;
}

int open(const byte *name, int flags, ...) {
    long length = 0;
    while (name[length]) length++;
    int file = page_open(name, length);
    if (file < 0) error = NO_ENTRY;
    return file;
}

long read(int file, byte *to, long count) { return page_read(file, to, count); }
long write(int file, const byte *from, long count) { return page_write(file, from, count); }
int close(int file) { return 0; }
int isatty(int file) { return file == STANDARD_ERROR && page_watched(); }

long lseek(int file, long offset, int whence) {
    error = NO_SEEK;
    return -1;
}

void _exit(int status) { page_exit(status); }
void abort(void) { page_exit(134); }

/* ---- the system: one processor */

enum { PAGE_SIZE_ASKED = 30 };

long sysconf(int name) { return name == PAGE_SIZE_ASKED ? 4096 : 1; }

int sched_getaffinity(int process, word size, byte *mask) {
    memset(mask, 0, size);
    mask[0] = 1;
    return 0;
}

int sched_yield(void) { return 0; }

/* ---- threads: each runs to its end where it is started, and whoever started it goes on then. So no lock is ever held by
 * another, and what is waited for has come, or never comes. The kit's threads give no result here. */

int pthread_create(long *thread, void *attributes, void *(*begin)(void *), void *argument) {
    *thread = 2;
    begin(argument);
    return 0;
}

int pthread_attr_init(void *attributes) { return 0; }
int pthread_attr_setguardsize(void *attributes, word size) { return 0; }
int pthread_attr_setstacksize(void *attributes, word size) { return 0; }
int pthread_attr_destroy(void *attributes) { return 0; }
long pthread_self(void) { return 1; }
int pthread_detach(long thread) { return 0; }
int pthread_join(long thread, void *result) { return 0; }

enum { FUTEX = 202, WAIT = 0, WAIT_BITS = 9, COMMANDS = 127 };

/* A wait for a word that another thread would have to change ends the program, which says so. */
long syscall(long number, int *at, long operation, long value, void *timeout, ...) {
    static const char never[] = "lockup: waits for a thread, and no other runs\n";
    long command = operation & COMMANDS;
    if (number != FUTEX) {
        error = NO_CALL;
        return -1;
    }
    if (command != WAIT && command != WAIT_BITS) return 0;
    if (*at != (int)value) {
        error = TRY_AGAIN;
        return -1;
    }
    page_write(STANDARD_ERROR, (const byte *)never, sizeof never - 1);
    page_exit(134);
}

long __sysv_signal(int number, long handler) { return 0; }

/* A proved program asks first whether the processor has what it was compiled for, two words in leaves of 32 bytes. It was
 * compiled for WebAssembly since: yes to all. */
static const word has_all[4] = {-1, -1, -1, -1};
const void *__x86_get_cpuid_feature_leaf(int leaf) { return has_all; }
long __write(int file, const byte *from, long count) { return page_write(file, from, count); }

int __xpg_strerror_r(int number, byte *to, word room) {
    const char *text = number == NO_ENTRY ? "No such file or directory" : "error";
    word at = 0;
    for (; text[at] && at + 1 < room; at++) to[at] = (byte)text[at];
    if (room) to[at] = 0;
    return 0;
}

/* ---- numbers of 128 bits, which LLVM calls for by these names */

struct wide {
    word low, high;
};

void __multi3(struct wide *result, word a, word a_high, word b, word b_high) {
    word a0 = a & 0xffffffff, a1 = a >> 32, b0 = b & 0xffffffff, b1 = b >> 32;
    word low = a0 * b0, left = a0 * b1, right = a1 * b0;
    word middle = (low >> 32) + (left & 0xffffffff) + (right & 0xffffffff);
    result->low = (low & 0xffffffff) | (middle << 32);
    result->high = a1 * b1 + (left >> 32) + (right >> 32) + (middle >> 32) + a * b_high + a_high * b;
}

void __lshrti3(struct wide *result, word low, word high, int places) {
    if (places == 0) *result = (struct wide){low, high};
    else if (places < 64) *result = (struct wide){(low >> places) | (high << (64 - places)), high >> places};
    else *result = (struct wide){high >> (places - 64), 0};
}

void __ashlti3(struct wide *result, word low, word high, int places) {
    if (places == 0) *result = (struct wide){low, high};
    else if (places < 64) *result = (struct wide){low << places, (high << places) | (low >> (64 - places))};
    else *result = (struct wide){0, low << (places - 64)};
}

/* bit by bit: a program divides numbers of this size seldom */
static void divide(struct wide a, struct wide b, struct wide *quotient, struct wide *rest) {
    struct wide q = {0, 0}, r = {0, 0};
    for (int at = 127; at >= 0; at--) {
        word bit = at >= 64 ? a.high >> (at - 64) & 1 : a.low >> at & 1;
        r = (struct wide){r.low << 1 | bit, r.high << 1 | r.low >> 63};
        if (r.high < b.high || (r.high == b.high && r.low < b.low)) continue;
        r = (struct wide){r.low - b.low, r.high - b.high - (r.low < b.low)};
        if (at >= 64) q.high |= (word)1 << (at - 64);
        else q.low |= (word)1 << at;
    }
    *quotient = q;
    *rest = r;
}

void __udivti3(struct wide *result, word a, word a_high, word b, word b_high) {
    struct wide rest;
    divide((struct wide){a, a_high}, (struct wide){b, b_high}, result, &rest);
}

void __umodti3(struct wide *result, word a, word a_high, word b, word b_high) {
    struct wide quotient;
    divide((struct wide){a, a_high}, (struct wide){b, b_high}, &quotient, result);
}

/* ---- the next run */

/* Makes the heap empty, once the page has put the data back as they were at first. */
void reset(void) {
    for (int kind = 0; kind < KINDS; kind++) free_blocks[kind] = 0;
    top = 0;
    error = 0;
}
