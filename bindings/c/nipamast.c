/* The border between C and the proved program `served`, in one process.
 *
 * `served` is a whole program: its `main` opens a store and serves the requests of its channels (docs/FORMATS.md). It is linked into
 * this library, where `main` runs in a thread of its own for each store. Each channel is a pair of files that the program opens, reads
 * and writes. The linker leads these calls here (`--wrap`), where a channel is two buffers in memory.
 *
 * A channel's thread waits in `read`. By default a caller puts requests into the buffer, wakes that thread, and waits until it reads
 * again: then all replies are there. With NIPAMAST_BY_STACK that thread never runs before the close. The caller's thread goes on on its
 * stack instead, on which `read` returns the requests, and comes back when the program reads again. */
#define _GNU_SOURCE
#include "nipamast.h"
#include <fcntl.h>
#include <limits.h>
#include <linux/futex.h>
#include <pthread.h>
#include <sched.h>
#include <setjmp.h>
#include <signal.h>
#include <stdarg.h>
#include <stdatomic.h>
#include <stdio.h>
#include <stdlib.h>
#include <string.h>
#include <sys/mman.h>
#include <sys/syscall.h>
#include <unistd.h>

#if !defined(__linux__) || __SIZEOF_POINTER__ != 8
#error "the library is for 64-bit Linux: handles are numbers of 64 bits, and threads wait by futexes"
#endif

/* The numbers of docs/FORMATS.md. */
enum { BEGIN = 1, GET, PUT, DELETE, COMMIT, ABORT, FIRST, LAST, STATUS, OPEN_EXISTING, OPEN_NARROW, OPEN_WIDE, OPEN_LARGE };
enum { HEAD = 16, ROW = 480, NUMBERS = 7, LONGEST_PATH = 4096 };

/* How many stores may be open, how many channels each has at most with the one of number 0, and how many cursors there are. */
enum { STORES = 64, CHANNELS = 63, CURSORS = 1024 };

/* --- bytes and texts ------------------------------------------------------------------------------------------------------------- */

/* Bytes that grow. Once memory for more was refused nothing is added. */
struct bytes {
    uint8_t *at;
    size_t length, room;
    int failed;
};

enum { ROOM = 8192 };

static int has_room(struct bytes *b) {
    b->at = malloc(ROOM);
    b->room = b->at ? ROOM : 0;
    return b->at != NULL;
}

static void add(struct bytes *b, const void *from, size_t length) {
    if (b->room - b->length < length && !b->failed) {
        size_t room = b->room * 2 + length;
        uint8_t *at = realloc(b->at, room);
        if (at) {
            b->at = at;
            b->room = room;
        } else {
            b->failed = 1;
        }
    }
    if (b->failed || !length) return;
    memcpy(b->at + b->length, from, length);
    b->length += length;
}

/* Numbers have their lowest byte first. */
static void put_number(uint8_t *to, uint64_t number, int size) {
    for (int i = 0; i < size; i++) to[i] = (uint8_t)(number >> 8 * i);
}

static uint64_t number_in(const uint8_t *from, int size) {
    uint64_t number = 0;
    for (int i = 0; i < size; i++) number |= (uint64_t)from[i] << 8 * i;
    return number;
}

static _Thread_local char last_text[512];

static void keep_text(const void *from, size_t length) {
    if (length > sizeof last_text - 1) length = sizeof last_text - 1;
    memcpy(last_text, from, length);
    last_text[length] = 0;
}

/* A refusal of the border's own. */
static int refuse(int result) {
    const char *text = nipamast_strerror(result);
    keep_text(text, strlen(text));
    return result;
}

/* --- whose turn it is ------------------------------------------------------------------------------------------------------------ */

/* Whose the buffers of a channel are: the program's, also until it reads for the first time, or the caller's. SLEEPS is added if the
 * other one sleeps until its turn, so that nobody who is awake is woken. */
enum { PROGRAM, CALLER, ENDS, SLEEPS = 4 };

static long processors;
static _Atomic int under_way; /* how many callers wait for replies */

/* How often a thread looks before it waits. It gains by that only if it and the one that it waits for have a processor each. */
static int looks(void) { return processors > 1 && 2 * atomic_load(&under_way) <= processors ? 500 : 0; }

/* How often a channel's thread then lets others run before it sleeps, and how often it looks each time: its caller may come back. */
enum { YIELDS = 4, LOOKS = 100 };

/* Whether it is still the turn of `whose`, after that many looks. */
static int is_still(_Atomic int *turn, int whose, int most) {
    for (int i = 0; i < most && atomic_load_explicit(turn, memory_order_acquire) == whose; i++) {
#if defined(__x86_64__)
        __builtin_ia32_pause();
#endif
    }
    return (atomic_load_explicit(turn, memory_order_acquire) & ~SLEEPS) == whose;
}

static void sleep_while(_Atomic int *turn, int whose, const struct timespec *most) {
    int was = whose;
    atomic_compare_exchange_strong(turn, &was, whose | SLEEPS);
    syscall(SYS_futex, turn, FUTEX_WAIT_PRIVATE, whose | SLEEPS, most, NULL, 0);
}

/* Waits while it is the turn of `whose`, and returns whose it is then. */
static int await_not(_Atomic int *turn, int whose, int yields) {
    for (int most = looks(); is_still(turn, whose, most) && yields > 0; yields--) {
        sched_yield();
        most = LOOKS;
    }
    while (is_still(turn, whose, 0)) sleep_while(turn, whose, NULL);
    return atomic_load_explicit(turn, memory_order_acquire);
}

static void wake_if(int was, _Atomic int *turn) {
    if (was & SLEEPS) syscall(SYS_futex, turn, FUTEX_WAKE_PRIVATE, INT_MAX, NULL, NULL, 0);
}

static void become(_Atomic int *turn, int whose) { wake_if(atomic_exchange(turn, whose), turn); }

/* The program's turn is over, unless the end has come meanwhile. */
static int pass_on(_Atomic int *turn) {
    int was = PROGRAM;
    while (!atomic_compare_exchange_strong(turn, &was, CALLER) && was == (PROGRAM | SLEEPS)) {}
    wake_if(was, turn);
    return was != ENDS;
}

/* --- channels -------------------------------------------------------------------------------------------------------------------- */

struct channel {
    _Atomic int turn;
    _Atomic int ended;     /* the program has closed it */
    int is_control, by_stack;
    void *caller, *callee; /* by stack: where the caller waits during a call, and where the channel's thread waits between calls */
    void *lent_from;       /* by stack: a small stack on which that thread itself waits for the end */
    size_t taken, told;    /* how much of the requests was read, and how much of the replies */
    struct bytes requests, replies;
};

#if defined(__x86_64__)
enum { LENT = 65536 };

/* Keeps this stack in *here, and goes on on the other. */
__asm__(".text\n.p2align 4\n.local nipamast_go\n.type nipamast_go,@function\nnipamast_go:\n"
        "push %rbp\npush %rbx\npush %r12\npush %r13\npush %r14\npush %r15\n"
        "mov %rsp,(%rdi)\nmov %rsi,%rsp\n"
        "pop %r15\npop %r14\npop %r13\npop %r12\npop %rbx\npop %rbp\nret\n"
        ".size nipamast_go,.-nipamast_go\n"
        /* Keeps this stack in *here, and calls f(context) on the stack that ends at `top`. f doesn't return. */
        ".p2align 4\n.local nipamast_go_new\n.type nipamast_go_new,@function\nnipamast_go_new:\n"
        "push %rbp\npush %rbx\npush %r12\npush %r13\npush %r14\npush %r15\n"
        "mov %rsp,(%rdi)\nmov %rsi,%rsp\nmov %rcx,%rdi\nxor %ebp,%ebp\ncall *%rdx\nud2\n"
        ".size nipamast_go_new,.-nipamast_go_new\n");
void nipamast_go(void **here, void *other);
void nipamast_go_new(void **here, void *top, void (*f)(void *), void *context);

/* On the channel's own thread, while callers have its stack. */
static void lend(void *context) {
    struct channel *c = context;
    void *unused;
    pass_on(&c->turn);
    while (await_not(&c->turn, CALLER, 0) != ENDS) {}
    nipamast_go(&unused, c->callee);
}

/* Back to the caller, if there is one; else its own thread lends the stack. It returns when there are requests, or at the end. */
static void wait_by_stack(struct channel *c) {
    void *caller = c->caller;
    c->caller = NULL;
    if (caller) nipamast_go(&c->callee, caller);
    else if (atomic_load(&c->turn) != ENDS) nipamast_go_new(&c->callee, (char *)c->lent_from + LENT, lend, c);
}

static int lends(struct channel *c) {
    c->lent_from = mmap(NULL, LENT, PROT_READ | PROT_WRITE, MAP_PRIVATE | MAP_ANONYMOUS | MAP_STACK, -1, 0);
    if (c->lent_from == MAP_FAILED) c->lent_from = NULL;
    return c->lent_from != NULL;
}

static void call_by_stack(struct channel *c) { nipamast_go(&c->caller, c->callee); }
static void unlend(struct channel *c) { if (c->lent_from) munmap(c->lent_from, LENT); }
enum { HAS_STACKS = 1 };
#else
static void wait_by_stack(struct channel *c) { (void)c; }
static int lends(struct channel *c) { (void)c; return 0; }
static void call_by_stack(struct channel *c) { (void)c; }
static void unlend(struct channel *c) { (void)c; }
enum { HAS_STACKS = 0 };
#endif

/* The program reads the next bytes of its requests, or 0 at the end. That it asks for more says that all replies are written. */
static ssize_t read_channel(struct channel *c, void *to, size_t length) {
    while (c->taken == c->requests.length) {
        if (c->by_stack) {
            wait_by_stack(c);
            if (!c->caller && atomic_load(&c->turn) == ENDS) return 0;
        } else {
            if (!pass_on(&c->turn) || await_not(&c->turn, CALLER, YIELDS) == ENDS) return 0;
        }
    }
    size_t rest = c->requests.length - c->taken;
    if (length > rest) length = rest;
    memcpy(to, c->requests.at + c->taken, length);
    c->taken += length;
    return (ssize_t)length;
}

/* The program never sees a write fail: the caller learns of it. Channel 0 has one request, whose reply ends the program's turn. */
static ssize_t write_channel(struct channel *c, const void *from, size_t length) {
    struct bytes *b = &c->replies;
    add(b, from, length);
    if (c->is_control && (b->failed || (b->length >= HEAD && b->length - HEAD >= number_in(b->at, 4)))) pass_on(&c->turn);
    return (ssize_t)length;
}

/* The program closes its side, which it does at the end, or when it couldn't start a thread for the channel. */
static void end_channel(struct channel *c) {
    atomic_store(&c->ended, 1);
    pass_on(&c->turn);
}

static void begin_batch(struct channel *c) {
    c->requests.length = c->taken = 0;
    c->requests.failed = 0;
}

static void ask(struct channel *c, int code, unsigned table, uint64_t number, const void *payload, size_t length) {
    uint8_t head[HEAD];
    put_number(head, length, 4);
    put_number(head + 4, (uint64_t)code, 2);
    put_number(head + 6, table, 2);
    put_number(head + 8, number, 8);
    add(&c->requests, head, HEAD);
    add(&c->requests, payload, length);
}

/* Hands the requests over and waits for all replies. */
static int hand_over(struct channel *c) {
    c->replies.length = c->told = 0;
    c->replies.failed = 0;
    if (c->requests.failed) return refuse(NIPAMAST_NO_MEMORY);
    if (atomic_load(&c->ended)) return refuse(NIPAMAST_FAILED);
    if (c->by_stack) {
        call_by_stack(c);
    } else {
        atomic_fetch_add(&under_way, 1);
        become(&c->turn, PROGRAM);
        await_not(&c->turn, PROGRAM, 0);
        atomic_fetch_sub(&under_way, 1);
    }
    return NIPAMAST_OK;
}

struct reply {
    uint64_t number;
    const uint8_t *bytes;
    size_t length;
};

/* The status of the next reply. If memory was refused for the bytes of a reply, its status is known all the same. */
static int take_reply(struct channel *c, struct reply *r) {
    size_t left = c->replies.length - c->told;
    const uint8_t *head = c->replies.at + c->told;
    *r = (struct reply){ 0, NULL, 0 };
    if (left < HEAD) return refuse(c->replies.failed ? NIPAMAST_NO_MEMORY : NIPAMAST_FAILED);
    int status = (int)number_in(head + 4, 2);
    size_t length = (size_t)number_in(head, 4);
    int is_whole = length <= left - HEAD;
    r->number = number_in(head + 8, 8);
    r->bytes = head + HEAD;
    r->length = is_whole ? length : 0;
    c->told = is_whole ? c->told + HEAD + length : c->replies.length;
    if (status >= NIPAMAST_FILE) keep_text(r->bytes, r->length);
    return status == NIPAMAST_OK && !is_whole ? refuse(NIPAMAST_NO_MEMORY) : status;
}

/* A request on its own. */
static int exchange(struct channel *c, int code, unsigned table, uint64_t number, const void *payload, size_t length, struct reply *r) {
    begin_batch(c);
    ask(c, code, table, number, payload, length);
    int result = hand_over(c);
    return result ? result : take_reply(c, r);
}

/* --- stores and their handles ---------------------------------------------------------------------------------------------------- */

struct txn {
    _Atomic uint64_t generation; /* odd while it is open */
    _Atomic int busy;
};

enum { FILES = 8 };

struct store {
    _Atomic uint64_t generation; /* odd while it is open */
    pthread_mutex_t lock;        /* of what follows, up to the channels */
    pthread_cond_t freed;
    int free_count, open_count, taken_count, closes;
    uint8_t free[CHANNELS];
    pthread_t thread;
    int index, channels;
    struct channel *channel;     /* that of number 0 opens and closes the store */
    struct txn txn[CHANNELS];
    _Atomic int files[FILES];    /* descriptors that the program has open, and 1 more of each */
};

static struct store stores[STORES];
static pthread_mutex_t stores_lock = PTHREAD_MUTEX_INITIALIZER;
static _Thread_local struct store *running; /* in the thread of a `main` */

/* A handle has a generation, a channel, a store and a kind: 46, 8, 7 and 3 bits. */
enum { A_STORE = 2, A_TXN = 4, A_CURSOR = 6 };
#define GENERATIONS ((UINT64_C(1) << 46) - 1)

static void *handle_of(unsigned kind, int store, int channel, uint64_t generation) {
    return (void *)(uintptr_t)(generation << 18 | (uint64_t)channel << 10 | (uint64_t)store << 3 | kind);
}

static int is_of(_Atomic uint64_t *generation, uint64_t of) {
    return (of & 1) && (atomic_load(generation) & GENERATIONS) == of;
}

static struct store *store_of(const void *handle, unsigned kind, int *channel, uint64_t *generation) {
    uint64_t h = (uint64_t)(uintptr_t)handle;
    if ((h & 7) != kind || (h >> 3 & 127) >= STORES || (h >> 10 & 255) >= CHANNELS) return NULL;
    *channel = (int)(h >> 10 & 255);
    *generation = h >> 18;
    return &stores[h >> 3 & 127];
}

/* The open store of this handle, with its lock taken. */
static struct store *lock_store(const void *handle, uint64_t *generation) {
    int channel;
    struct store *s = store_of(handle, A_STORE, &channel, generation);
    if (!s || channel || !is_of(&s->generation, *generation)) return NULL;
    pthread_mutex_lock(&s->lock);
    if (is_of(&s->generation, *generation) && !s->closes) return s;
    pthread_mutex_unlock(&s->lock);
    return NULL;
}

/* Takes a channel for a call. If all are taken it waits for one that another call has; transactions may be open for ever. */
static int take_channel(const void *handle, struct store **store, int *channel) {
    uint64_t generation;
    struct store *s = lock_store(handle, &generation);
    if (!s) return NIPAMAST_MISUSE;
    while (!s->free_count) {
        if (s->open_count == s->channels) {
            pthread_mutex_unlock(&s->lock);
            return refuse(NIPAMAST_TOO_MANY_OPEN);
        }
        pthread_cond_wait(&s->freed, &s->lock);
        if (!is_of(&s->generation, generation) || s->closes) {
            pthread_mutex_unlock(&s->lock);
            return NIPAMAST_MISUSE;
        }
    }
    *channel = s->free[--s->free_count];
    s->taken_count++;
    *store = s;
    pthread_mutex_unlock(&s->lock);
    return NIPAMAST_OK;
}

static void free_channel(struct store *s, int channel, int was_open) {
    pthread_mutex_lock(&s->lock);
    s->free[s->free_count++] = (uint8_t)channel;
    s->taken_count--;
    s->open_count -= was_open;
    if (s->closes) pthread_cond_broadcast(&s->freed);
    else pthread_cond_signal(&s->freed);
    pthread_mutex_unlock(&s->lock);
}

/* Takes the transaction of this handle for a call. */
static int take_txn(const void *handle, struct store **store, int *channel) {
    uint64_t generation;
    struct store *s = store_of(handle, A_TXN, channel, &generation);
    int free = 0;
    if (!s || !is_of(&s->txn[*channel].generation, generation)) return NIPAMAST_MISUSE;
    struct txn *t = &s->txn[*channel];
    if (!atomic_compare_exchange_strong(&t->busy, &free, 1)) return NIPAMAST_BUSY;
    if (is_of(&t->generation, generation)) {
        *store = s;
        return NIPAMAST_OK;
    }
    atomic_store(&t->busy, 0);
    return NIPAMAST_MISUSE;
}

static void leave_txn(struct store *s, int channel) { atomic_store(&s->txn[channel].busy, 0); }

static void end_txn(struct store *s, int channel) {
    atomic_fetch_add(&s->txn[channel].generation, 1);
    leave_txn(s, channel);
    free_channel(s, channel, 1);
}

/* --- what the program calls ------------------------------------------------------------------------------------------------------ */

int main(int count, char **words); /* the program's */

static _Thread_local jmp_buf program_end;

/* A program ends with `_exit`; here its thread ends. */
static void *run(void *context) {
    static char *words[] = { "nipamast", NULL };
    running = context;
    pthread_setname_np(pthread_self(), "nipamast");
    if (!_setjmp(program_end)) main(1, words);
    for (int i = 0; i < CHANNELS; i++) end_channel(&running->channel[i]);
    return NULL;
}

void __real__exit(int status) __attribute__((noreturn));
void __wrap__exit(int status) {
    if (!running) __real__exit(status);
    _longjmp(program_end, 1);
}

/* The program would ignore SIGPIPE in the whole process, for what it prints, and here it prints nothing. */
void (*__wrap___sysv_signal(int number, void (*handler)(int)))(int) {
    (void)number;
    return handler;
}

size_t __wrap_rattle_arg_count(void) { return running ? 2 : 0; }

#define PREFIX "/nipamast/"

ssize_t __wrap_rattle_arg(size_t i, uint8_t *to, size_t length) {
    char text[32];
    if (!running || i > 1) return -1;
    int size = i ? snprintf(text, sizeof text, PREFIX "%d/", running->index) : snprintf(text, sizeof text, "nipamast");
    if ((size_t)size > length) return -2;
    memcpy(to, text, (size_t)size);
    return size;
}

/* The descriptors of channels are above all that a process has. */
#define FIRST_FD 0x40000000

int __real_open(const char *path, int flags, ...);
ssize_t __real_read(int fd, void *to, size_t length);
ssize_t __real_write(int fd, const void *from, size_t length);
int __real_close(int fd);
int __real_fcntl(int fd, int command, ...);
int __real_pthread_create(pthread_t *thread, const pthread_attr_t *how, void *(*f)(void *), void *context);

static struct channel *channel_of(int fd) {
    int at = (fd - FIRST_FD) / 2;
    return &stores[at / CHANNELS].channel[at % CHANNELS];
}

/* Notes a descriptor that the program opens, or forgets it, so that the child of a fork can close it. 0 is none. */
static void note_file(int from, int to) {
    for (int i = 0; running && i < FILES; i++) {
        int was = from;
        if (atomic_compare_exchange_strong(&running->files[i], &was, to)) return;
    }
}

int __wrap_open(const char *path, int flags, ...) {
    int store, channel;
    char way[4];
    if (running && !strncmp(path, PREFIX, sizeof PREFIX - 1) && sscanf(path + sizeof PREFIX - 1, "%d/%d.%3s", &store, &channel, way) == 3
        && store == running->index && channel >= 0 && channel < CHANNELS)
        return FIRST_FD + (store * CHANNELS + channel) * 2 + (way[0] == 'o');
    va_list more;
    va_start(more, flags);
    int mode = va_arg(more, int);
    va_end(more);
    int fd = __real_open(path, flags, mode);
    if (fd >= 0) note_file(0, fd + 1);
    return fd;
}

ssize_t __wrap_read(int fd, void *to, size_t length) {
    return fd >= FIRST_FD ? read_channel(channel_of(fd), to, length) : __real_read(fd, to, length);
}

/* Why `main` ended with an error isn't printed: the caller has a result. */
ssize_t __wrap_write(int fd, const void *from, size_t length) {
    if (fd >= FIRST_FD) return write_channel(channel_of(fd), from, length);
    return running && fd <= STDERR_FILENO ? (ssize_t)length : __real_write(fd, from, length);
}

int __wrap_close(int fd) {
    if (fd < FIRST_FD) {
        note_file(fd + 1, 0);
        return __real_close(fd);
    }
    if (!((fd - FIRST_FD) & 1)) end_channel(channel_of(fd));
    return 0;
}

/* The program makes a copy of a descriptor for a thread that syncs. */
int __wrap_fcntl(int fd, int command, ...) {
    va_list more;
    va_start(more, command);
    long word = va_arg(more, long);
    va_end(more);
    int result = __real_fcntl(fd, command, word);
    if (result >= 0 && (command == F_DUPFD || command == F_DUPFD_CLOEXEC)) note_file(0, result + 1);
    return result;
}

/* How often the program couldn't start a thread: channels then wait for one another. */
static _Atomic int refused_threads;

int __wrap_pthread_create(pthread_t *thread, const pthread_attr_t *how, void *(*f)(void *), void *context) {
    int error = __real_pthread_create(thread, how, f, context);
    if (error) atomic_fetch_add(&refused_threads, 1);
    return error;
}

/* --- fork ------------------------------------------------------------------------------------------------------------------------ */

static struct cursor {
    _Atomic uint64_t generation; /* odd while it is open */
    _Atomic int busy;
    uint8_t *bytes;
    size_t length, at;
} cursors[CURSORS];

static void before_fork(void) { pthread_mutex_lock(&stores_lock); }
static void after_fork(void) { pthread_mutex_unlock(&stores_lock); }

static void close_odd(_Atomic uint64_t *generation, _Atomic int *busy) {
    if (atomic_load(generation) & 1) atomic_fetch_add(generation, 1);
    atomic_store(busy, 0);
}

/* The threads of the stores are gone in the child, so all handles are closed there. What they had in memory is left. */
static void in_child(void) {
    for (int i = 0; i < STORES; i++) {
        struct store *s = &stores[i];
        if (atomic_load(&s->generation) & 1) atomic_fetch_add(&s->generation, 1);
        pthread_mutex_init(&s->lock, NULL);
        pthread_cond_init(&s->freed, NULL);
        for (int j = 0; j < CHANNELS; j++) close_odd(&s->txn[j].generation, &s->txn[j].busy);
        for (int j = 0; j < FILES; j++) {
            int file = atomic_exchange(&s->files[j], 0);
            if (file) __real_close(file - 1);
        }
    }
    for (int i = 0; i < CURSORS; i++) close_odd(&cursors[i].generation, &cursors[i].busy);
    atomic_store(&under_way, 0);
    after_fork();
}

__attribute__((constructor)) static void begin_library(void) {
    processors = sysconf(_SC_NPROCESSORS_ONLN);
    for (int i = 0; i < STORES; i++) {
        pthread_mutex_init(&stores[i].lock, NULL);
        pthread_cond_init(&stores[i].freed, NULL);
    }
    pthread_atfork(before_fork, after_fork, in_child);
}

/* --- texts ----------------------------------------------------------------------------------------------------------------------- */

#define TEXT_OF(x) #x
#define TEXT(x) TEXT_OF(x)
const char *nipamast_version(void) {
    return TEXT(NIPAMAST_VERSION_MAJOR) "." TEXT(NIPAMAST_VERSION_MINOR) "." TEXT(NIPAMAST_VERSION_PATCH);
}

const char *nipamast_strerror(int result) {
    switch (result) {
    case NIPAMAST_OK: return "done";
    case NIPAMAST_NOT_FOUND: return "there is no row";
    case NIPAMAST_MISUSE: return "misuse: a handle that isn't open or is of another kind, a null pointer or a number out of range";
    case NIPAMAST_BUSY: return "another thread is in a call of this handle";
    case NIPAMAST_TOO_SMALL: return "the buffer is too small";
    case NIPAMAST_FILE: return "the file can't be opened as a store";
    case NIPAMAST_LAYOUT: return "the file is a store of another layout";
    case NIPAMAST_DAMAGED: return "the file is damaged";
    case NIPAMAST_NOT_OPENED: return "the store isn't opened";
    case NIPAMAST_LOST: return "a write or a sync of the file failed: open the store again";
    case NIPAMAST_NOT_CLOSED: return "the store isn't closed";
    case NIPAMAST_NO_STORE: return "no store is there";
    case NIPAMAST_CONFLICT: return "another commit wrote one of the keys first: begin again";
    case NIPAMAST_FULL: return "no slot is free";
    case NIPAMAST_ROW_TOO_LONG: return "the row is too long";
    case NIPAMAST_TOO_MANY_KEYS: return "a transaction writes at most 32 keys";
    case NIPAMAST_TOO_MANY_OPEN: return "as many transactions, stores or cursors are open as there may be";
    case NIPAMAST_NO_MEMORY: return "memory was refused";
    case NIPAMAST_FAILED: return "the file failed before: open the store again";
    case NIPAMAST_UNKNOWN: return "it isn't known whether the commit is kept until the store is opened again";
    case NIPAMAST_REFUSED: return "refused";
    default: return "an unknown result";
    }
}

size_t nipamast_errmsg(char *text, size_t size) {
    size_t length = strlen(last_text);
    if (text && size) {
        size_t most = length < size - 1 ? length : size - 1;
        memcpy(text, last_text, most);
        text[most] = 0;
    }
    return length;
}

/* --- opening and closing --------------------------------------------------------------------------------------------------------- */

static int are_options(const nipamast_options *o) {
    return o->size == sizeof *o && o->channels >= 1 && o->channels < CHANNELS && o->wide <= 1
        && o->lines <= 8 && !(o->wide && o->lines)
        && (o->calls == NIPAMAST_BY_THREAD || (o->calls == NIPAMAST_BY_STACK && HAS_STACKS));
}

static void free_store(struct store *s) {
    for (int i = 0; i < CHANNELS; i++) {
        struct channel *c = &s->channel[i];
        free(c->requests.at);
        free(c->replies.at);
        unlend(c);
    }
    free(s->channel);
    s->channel = NULL;
    atomic_fetch_add(&s->generation, 1);
}

/* The memory of all channels. */
static int has_channels(struct store *s, const nipamast_options *o) {
    s->channels = o->channels;
    s->free_count = s->open_count = s->taken_count = s->closes = 0;
    for (int i = 0; i <= s->channels; i++) {
        struct channel *c = &s->channel[i];
        c->is_control = !i;
        c->by_stack = i && o->calls == NIPAMAST_BY_STACK;
        if (!has_room(&c->requests) || !has_room(&c->replies) || (c->by_stack && !lends(c))) return 0;
        if (i) s->free[s->free_count++] = (uint8_t)(s->channels + 1 - i);
    }
    return 1;
}

/* A store of the table that isn't open, with channels. */
static int new_store(const nipamast_options *o, struct store **store) {
    int index = 0, result = NIPAMAST_OK;
    pthread_mutex_lock(&stores_lock);
    while (index < STORES && (atomic_load(&stores[index].generation) & 1)) index++;
    struct store *s = &stores[index % STORES];
    if (index == STORES) {
        result = NIPAMAST_TOO_MANY_OPEN;
    } else if (!(s->channel = calloc(CHANNELS, sizeof *s->channel))) {
        result = NIPAMAST_NO_MEMORY;
    } else {
        s->index = index;
        atomic_fetch_add(&s->generation, 1);
    }
    pthread_mutex_unlock(&stores_lock);
    if (!result && !has_channels(s, o)) {
        free_store(s);
        result = NIPAMAST_NO_MEMORY;
    }
    *store = s;
    return result ? refuse(result) : NIPAMAST_OK;
}

/* No signal is handled in a thread of the library: it is the caller's own, or has a caller's stack. */
static int start_main(struct store *s) {
    sigset_t all, before;
    sigfillset(&all);
    pthread_sigmask(SIG_SETMASK, &all, &before);
    int error = __real_pthread_create(&s->thread, NULL, run, s);
    pthread_sigmask(SIG_SETMASK, &before, NULL);
    return !error;
}

static void end_main(struct store *s) {
    for (int i = 1; i <= s->channels; i++) become(&s->channel[i].turn, ENDS);
    pthread_join(s->thread, NULL);
}

/* Waits until each channel's thread reads. */
static int are_served(struct store *s, int refused_before) {
    struct timespec most = { 0, 10000000 };
    for (int i = 1; i <= s->channels; i++) {
        struct channel *c = &s->channel[i];
        while (is_still(&c->turn, PROGRAM, 0) && atomic_load(&refused_threads) == refused_before) sleep_while(&c->turn, PROGRAM, &most);
        if (is_still(&c->turn, PROGRAM, 0) || atomic_load(&c->ended)) return 0;
    }
    return 1;
}

/* The first frame of channel 0. */
static int ask_to_open(struct channel *control, const char *path, size_t length, const nipamast_options *o) {
    uint8_t numbers[24];
    struct reply r;
    int code = !o->slots ? OPEN_EXISTING : o->lines ? OPEN_LARGE : o->wide ? OPEN_WIDE : OPEN_NARROW;
    size_t size = 0, numbered = code == OPEN_LARGE ? 8 : 0;
    put_number(numbers, o->lines, 8);
    put_number(numbers + numbered, o->places, 8);
    put_number(numbers + numbered + 8, o->window, 8);
    if (o->slots) size = numbered + 16;
    await_not(&control->turn, PROGRAM, 0);
    begin_batch(control);
    ask(control, code, o->channels, o->slots, numbers, size);
    add(&control->requests, path, length);
    if (!control->requests.failed) put_number(control->requests.at, size + length, 4);
    int result = hand_over(control);
    return result ? result : take_reply(control, &r);
}

int nipamast_open(const char *path, const nipamast_options *options, nipamast_store **store) {
    static const nipamast_options standard = NIPAMAST_OPTIONS;
    const nipamast_options *o = options ? options : &standard;
    struct store *s;
    if (store) *store = NULL;
    if (!path || !store || !are_options(o)) return NIPAMAST_MISUSE;
    size_t length = strnlen(path, LONGEST_PATH + 1);
    if (length > LONGEST_PATH) return NIPAMAST_MISUSE;
    int refused_before = atomic_load(&refused_threads);
    int result = new_store(o, &s);
    if (result) return result;
    if (!start_main(s)) {
        free_store(s);
        return refuse(NIPAMAST_NO_MEMORY);
    }
    result = ask_to_open(s->channel, path, length, o);
    if (!result && are_served(s, refused_before)) {
        *store = handle_of(A_STORE, s->index, 0, atomic_load(&s->generation) & GENERATIONS);
        return NIPAMAST_OK;
    }
    end_main(s);
    free_store(s);
    return result ? result : refuse(NIPAMAST_NO_MEMORY);
}

/* Ends each open transaction. If one is in a call, that is waited for. */
static void end_txns(struct store *s) {
    for (int i = 1; i <= s->channels; i++) {
        struct txn *t = &s->txn[i];
        while (atomic_load(&t->generation) & 1) {
            int free = 0;
            if (!atomic_compare_exchange_strong(&t->busy, &free, 1)) usleep(50);
            else if (atomic_load(&t->generation) & 1) end_txn(s, i);
            else leave_txn(s, i);
        }
    }
}

int nipamast_close(nipamast_store *store) {
    uint64_t generation;
    struct reply r;
    struct store *s = lock_store(store, &generation);
    if (!s) return NIPAMAST_MISUSE;
    s->closes = 1;
    pthread_cond_broadcast(&s->freed);
    pthread_mutex_unlock(&s->lock);
    end_txns(s);
    pthread_mutex_lock(&s->lock);
    while (s->taken_count) pthread_cond_wait(&s->freed, &s->lock);
    pthread_mutex_unlock(&s->lock);
    struct channel *control = s->channel;
    control->replies.length = control->told = 0;
    end_main(s);
    int result = take_reply(control, &r);
    free_store(s);
    return result;
}

/* --- one transaction in one call ------------------------------------------------------------------------------------------------- */

/* Copies a row that was read, or says how long it is. */
static int copy_row(int result, const struct reply *r, void *row, size_t *length) {
    size_t room = *length;
    if (result != NIPAMAST_OK) return result;
    *length = r->length;
    if (r->length > room) return NIPAMAST_TOO_SMALL;
    if (r->length) memcpy(row, r->bytes, r->length);
    return NIPAMAST_OK;
}

int nipamast_read(nipamast_store *store, uint16_t table, uint64_t key, void *row, size_t *length) {
    struct store *s;
    struct reply r;
    int i;
    if (!length || (!row && *length)) return NIPAMAST_MISUSE;
    int result = take_channel(store, &s, &i);
    if (result) return result;
    struct channel *c = &s->channel[i];
    begin_batch(c);
    ask(c, BEGIN, 0, 0, NULL, 0);
    ask(c, GET, table, key, NULL, 0);
    ask(c, ABORT, 0, 0, NULL, 0);
    result = hand_over(c);
    if (!result) result = take_reply(c, &r);
    if (!result) result = take_reply(c, &r);
    result = copy_row(result, &r, row, length);
    free_channel(s, i, 0);
    return result;
}

static int are_writes(const nipamast_write *writes, size_t count) {
    if (!writes && count) return NIPAMAST_MISUSE;
    for (size_t w = 0; w < count; w++) {
        if (writes[w].reserved) return NIPAMAST_MISUSE;
        if (writes[w].row && writes[w].length > ROW) return refuse(NIPAMAST_ROW_TOO_LONG);
    }
    return NIPAMAST_OK;
}

/* Begins a transaction and makes the writes. The first refusal counts. A transaction of one write is committed with the same hand-over,
 * since a refused write leaves nothing to commit; one of more is committed once all of them were made. */
static int apply(struct channel *c, const nipamast_write *writes, size_t count, uint64_t *number) {
    struct reply r;
    begin_batch(c);
    ask(c, BEGIN, 0, 0, NULL, 0);
    for (size_t w = 0; w < count; w++) {
        int is_put = writes[w].row != NULL;
        ask(c, is_put ? PUT : DELETE, writes[w].table, writes[w].key, writes[w].row, is_put ? writes[w].length : 0);
    }
    if (count <= 1) ask(c, COMMIT, 0, 0, NULL, 0);
    int result = hand_over(c);
    for (size_t w = 0; !result && w < count + 1; w++) result = take_reply(c, &r);
    if (!result) {
        result = count <= 1 ? take_reply(c, &r) : exchange(c, COMMIT, 0, 0, NULL, 0, &r);
        *number = r.number;
    } else if (count > 1) {
        begin_batch(c);
        ask(c, ABORT, 0, 0, NULL, 0);
        (void)hand_over(c);
    }
    return result;
}

int nipamast_apply(nipamast_store *store, const nipamast_write *writes, size_t count, uint64_t *timestamp) {
    struct store *s;
    int i;
    uint64_t number = 0;
    int result = are_writes(writes, count);
    if (!result) result = take_channel(store, &s, &i);
    if (result) return result;
    result = apply(&s->channel[i], writes, count, &number);
    free_channel(s, i, 0);
    if (timestamp) *timestamp = result ? 0 : number;
    return result;
}

int nipamast_write_row(nipamast_store *store, uint16_t table, uint64_t key, const void *row, size_t length, uint64_t *timestamp) {
    if (!row && length) return NIPAMAST_MISUSE;
    if (length > ROW) return refuse(NIPAMAST_ROW_TOO_LONG);
    nipamast_write w = { key, row, (uint32_t)length, table, 0 };
    return nipamast_apply(store, &w, 1, timestamp);
}

int nipamast_stat(nipamast_store *store, nipamast_status *status) {
    struct store *s;
    struct reply r;
    int i;
    if (!status || status->size != sizeof *status) return NIPAMAST_MISUSE;
    int result = take_channel(store, &s, &i);
    if (result) return result;
    result = exchange(&s->channel[i], STATUS, 0, 0, NULL, 0, &r);
    if (!result && r.length != 8 * NUMBERS) result = refuse(NIPAMAST_FAILED);
    if (!result) {
        uint64_t n[NUMBERS];
        for (int k = 0; k < NUMBERS; k++) n[k] = number_in(r.bytes + 8 * k, 8);
        *status = (nipamast_status){ sizeof *status, (uint32_t)n[0], n[1], n[2], n[3], n[4], n[5], n[6] };
    }
    free_channel(s, i, 0);
    return result;
}

/* --- transactions ---------------------------------------------------------------------------------------------------------------- */

/* The transaction of a channel is open, unless the store is being closed. */
static int open_txn(struct store *s, int channel, nipamast_txn **txn) {
    pthread_mutex_lock(&s->lock);
    int closes = s->closes;
    if (!closes) {
        uint64_t generation = atomic_fetch_add(&s->txn[channel].generation, 1) + 1;
        s->open_count++;
        *txn = handle_of(A_TXN, s->index, channel, generation & GENERATIONS);
        if (s->open_count == s->channels) pthread_cond_broadcast(&s->freed);
    }
    pthread_mutex_unlock(&s->lock);
    return closes ? NIPAMAST_MISUSE : NIPAMAST_OK;
}

int nipamast_begin(nipamast_store *store, nipamast_txn **txn) {
    struct store *s;
    struct reply r;
    int i;
    if (!txn) return NIPAMAST_MISUSE;
    *txn = NULL;
    int result = take_channel(store, &s, &i);
    if (result) return result;
    result = exchange(&s->channel[i], BEGIN, 0, 0, NULL, 0, &r);
    if (!result) result = open_txn(s, i, txn);
    if (result) free_channel(s, i, 0);
    return result;
}

/* A request of a transaction. */
static int step(nipamast_txn *txn, int code, uint16_t table, uint64_t key, const void *row, size_t length) {
    struct store *s;
    struct reply r;
    int i;
    int result = take_txn(txn, &s, &i);
    if (result) return result;
    result = exchange(&s->channel[i], code, table, key, row, length, &r);
    leave_txn(s, i);
    return result;
}

int nipamast_get(nipamast_txn *txn, uint16_t table, uint64_t key, void *row, size_t *length) {
    struct store *s;
    struct reply r;
    int i;
    if (!length || (!row && *length)) return NIPAMAST_MISUSE;
    int result = take_txn(txn, &s, &i);
    if (result) return result;
    result = copy_row(exchange(&s->channel[i], GET, table, key, NULL, 0, &r), &r, row, length);
    leave_txn(s, i);
    return result;
}

int nipamast_put(nipamast_txn *txn, uint16_t table, uint64_t key, const void *row, size_t length) {
    if (!row && length) return NIPAMAST_MISUSE;
    if (length > ROW) return refuse(NIPAMAST_ROW_TOO_LONG);
    return step(txn, PUT, table, key, row, length);
}

int nipamast_del(nipamast_txn *txn, uint16_t table, uint64_t key) { return step(txn, DELETE, table, key, NULL, 0); }

int nipamast_commit(nipamast_txn *txn, uint64_t *timestamp) {
    struct store *s;
    struct reply r;
    int i;
    int result = take_txn(txn, &s, &i);
    if (result) return result;
    result = exchange(&s->channel[i], COMMIT, 0, 0, NULL, 0, &r);
    if (timestamp) *timestamp = result ? 0 : r.number;
    end_txn(s, i);
    return result;
}

void nipamast_abort(nipamast_txn *txn) {
    struct store *s;
    struct reply r;
    int i;
    if (take_txn(txn, &s, &i)) return;
    (void)exchange(&s->channel[i], ABORT, 0, 0, NULL, 0, &r);
    end_txn(s, i);
}

/* --- ranges ---------------------------------------------------------------------------------------------------------------------- */

/* The rows of a range, copied out of the channel. */
static int fetch_rows(nipamast_txn *txn, int code, uint16_t table, uint64_t least, uint64_t greatest, size_t limit, uint8_t **rows, size_t *size) {
    struct store *s;
    struct reply r;
    int i;
    uint8_t range[16];
    *rows = NULL;
    *size = 0;
    put_number(range, greatest, 8);
    put_number(range + 8, limit ? limit : UINT64_MAX, 8);
    int result = take_txn(txn, &s, &i);
    if (result) return result;
    if (least <= greatest) {
        result = exchange(&s->channel[i], code, table, least, range, sizeof range, &r);
        if (!result && r.length) {
            *rows = malloc(r.length);
            if (*rows) memcpy(*rows, r.bytes, *size = r.length);
            else result = refuse(NIPAMAST_NO_MEMORY);
        }
    }
    leave_txn(s, i);
    return result;
}

static int next_row(const uint8_t *rows, size_t size, size_t *at, uint64_t *key, const void **row, size_t *length) {
    if (size - *at < 12) return NIPAMAST_NOT_FOUND;
    size_t bytes = (size_t)number_in(rows + *at + 8, 4);
    if (bytes > size - *at - 12) return refuse(NIPAMAST_FAILED);
    *key = number_in(rows + *at, 8);
    *row = rows + *at + 12;
    *length = bytes;
    *at += 12 + bytes;
    return NIPAMAST_OK;
}

/* A cursor that isn't open, taken for a call. */
static struct cursor *new_cursor(void) {
    for (int i = 0; i < CURSORS; i++) {
        struct cursor *c = &cursors[i];
        int free = 0;
        if ((atomic_load(&c->generation) & 1) || !atomic_compare_exchange_strong(&c->busy, &free, 1)) continue;
        if (!(atomic_load(&c->generation) & 1)) return c;
        atomic_store(&c->busy, 0);
    }
    return NULL;
}

int nipamast_scan(nipamast_txn *txn, uint16_t table, uint64_t least, uint64_t greatest, size_t limit, unsigned flags, nipamast_rows **rows) {
    if (!rows) return NIPAMAST_MISUSE;
    *rows = NULL;
    if (flags & ~(unsigned)NIPAMAST_FALLING) return NIPAMAST_MISUSE;
    struct cursor *c = new_cursor();
    if (!c) return refuse(NIPAMAST_TOO_MANY_OPEN);
    int result = fetch_rows(txn, flags & NIPAMAST_FALLING ? LAST : FIRST, table, least, greatest, limit, &c->bytes, &c->length);
    c->at = 0;
    if (!result) {
        uint64_t at = (uint64_t)(c - cursors), generation = atomic_fetch_add(&c->generation, 1) + 1;
        *rows = (nipamast_rows *)(uintptr_t)((generation & GENERATIONS) << 18 | at << 3 | A_CURSOR);
    }
    atomic_store(&c->busy, 0);
    return result;
}

/* Takes the cursor of this handle for a call. */
static struct cursor *take_cursor(nipamast_rows *handle, int *result) {
    uint64_t h = (uint64_t)(uintptr_t)handle, at = h >> 3 & 32767;
    int free = 0;
    *result = NIPAMAST_MISUSE;
    if ((h & 7) != A_CURSOR || at >= CURSORS || !is_of(&cursors[at].generation, h >> 18)) return NULL;
    struct cursor *c = &cursors[at];
    *result = NIPAMAST_BUSY;
    if (!atomic_compare_exchange_strong(&c->busy, &free, 1)) return NULL;
    *result = NIPAMAST_OK;
    if (is_of(&c->generation, h >> 18)) return c;
    atomic_store(&c->busy, 0);
    *result = NIPAMAST_MISUSE;
    return NULL;
}

int nipamast_next(nipamast_rows *rows, uint64_t *key, const void **row, size_t *length) {
    int result;
    if (!key || !row || !length) return NIPAMAST_MISUSE;
    struct cursor *c = take_cursor(rows, &result);
    if (!c) return result;
    result = next_row(c->bytes, c->length, &c->at, key, row, length);
    atomic_store(&c->busy, 0);
    return result;
}

void nipamast_rows_close(nipamast_rows *rows) {
    int result;
    struct cursor *c = take_cursor(rows, &result);
    if (!c) return;
    free(c->bytes);
    c->bytes = NULL;
    c->length = c->at = 0;
    atomic_fetch_add(&c->generation, 1);
    atomic_store(&c->busy, 0);
}

int nipamast_for_each(nipamast_txn *txn, uint16_t table, uint64_t least, uint64_t greatest, nipamast_each each, void *context) {
    uint8_t *rows;
    size_t size, at = 0, length;
    uint64_t key;
    const void *row;
    if (!each) return NIPAMAST_MISUSE;
    int result = fetch_rows(txn, FIRST, table, least, greatest, 0, &rows, &size);
    while (!result && at < size && !(result = next_row(rows, size, &at, &key, &row, &length)))
        result = each(context, key, row, length);
    free(rows);
    return result;
}

/* --- a transaction that is begun again ------------------------------------------------------------------------------------------- */

int nipamast_transact(nipamast_store *store, unsigned tries, nipamast_body body, void *context, uint64_t *timestamp) {
    int result = NIPAMAST_MISUSE;
    if (!body) return result;
    for (unsigned i = 0; i < (tries ? tries : 1000); i++) {
        nipamast_txn *txn;
        if ((result = nipamast_begin(store, &txn))) return result;
        if ((result = body(context, txn))) nipamast_abort(txn);
        else result = nipamast_commit(txn, timestamp);
        if (result != NIPAMAST_CONFLICT) break;
    }
    return result;
}
