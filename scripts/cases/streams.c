/* Stands before some calls of the program, so that a run of it shows one thing each time: what the clock and the machine's source of
 * chance give, how inputs come and what outputs take. By the environment:
 *
 * AT        the second of the time of day
 * CHANCE    the digit of all random bytes, 1 for 01
 * SLOW      standard input and connections give a byte at a read
 * BROKEN    they fail where they would end
 * SENT      so many bytes are taken by connections, seven at a time, and then writes fail
 * SHOWN     so many by standard output
 * PARTS     so many of the calls are made by which folders and files come to be, and each one behind them fails
 * HEARD     a connection is heard to its end before it is closed, since what was said over one that is closed before may be lost
 *
 * It needs no header, so that any compiler makes it, and makes the calls of Linux on x86-64 by their numbers. */
#define ABSENT (-1)
#define ROOM 7
#define NO_MORE_IS_SAID 1
#define BROKEN_PIPE 32
#define NO_SPACE 28
#define REALTIME 0
#define CREATE 0100
#define SOCKET 1
#define TYPE 3
#define OUTPUT 1
#define FAULTS 2
#define HERE (-100)
enum { READ = 0, WRITE = 1, CLOSE = 3, SENDTO = 44, RECVFROM = 45, SHUTDOWN = 48, RENAME = 82, MKDIR = 83, CLOCK_GETTIME = 228, OPENAT = 257, GETRANDOM = 318 };

typedef unsigned long size_t;
struct timespec {
    long seconds, nanoseconds;
};

extern long syscall(long, ...);
extern char *getenv(const char *);
extern long atol(const char *);
extern int *__errno_location(void);
extern int getsockopt(int, int, int, void *, unsigned *);

/* What is left of the room of this name; absent where nothing is said of it. */
static long *room(const char *name, long *left, int *is_read) {
    if (!*is_read) {
        const char *given = getenv(name);
        *left = given ? atol(given) : ABSENT;
        *is_read = 1;
    }
    return left;
}

static int is_socket(int file) {
    int type;
    unsigned length = sizeof type;
    return getsockopt(file, SOCKET, TYPE, &type, &length) == 0;
}

static long fails(int error) {
    *__errno_location() = error;
    return -1;
}

static int is_input(int file) {
    return file == 0 || is_socket(file);
}

/* How many bytes are read at once. */
static size_t pace(int file, size_t count) {
    return count > 1 && getenv("SLOW") && is_input(file) ? 1 : count;
}

static long came(int file, size_t count, long got) {
    return got == 0 && count > 0 && getenv("BROKEN") && is_input(file) ? fails(BROKEN_PIPE) : got;
}

/* The room of the output that a file is; nothing where all is taken. */
static long *room_of(int file) {
    static long shown, sent;
    static int shown_is_read, sent_is_read;
    long *left = file == OUTPUT     ? room("SHOWN", &shown, &shown_is_read)
                 : is_socket(file) ? room("SENT", &sent, &sent_is_read)
                                   : 0;
    return left && *left != ABSENT ? left : 0;
}

/* How many of so many bytes are taken. */
static long taken(int file, size_t count) {
    long *left = room_of(file);
    if (left == 0) return (long)count;
    if ((long)count > ROOM) count = ROOM;
    if ((long)count > *left) count = (size_t)*left;
    *left -= (long)count;
    return (long)count;
}

/* Whether one more of the calls is made by which something comes to be. */
static int is_made(void) {
    static long left;
    static int is_read;
    room("PARTS", &left, &is_read);
    if (left == 0) return 0;
    if (left != ABSENT) left--;
    return 1;
}

static int is_below(const char *path) {
    while (*path && *path != '/') path++;
    return *path != 0;
}

long read(int file, void *bytes, size_t count) {
    return came(file, count, syscall(READ, file, bytes, pace(file, count)));
}

long recv(int file, void *bytes, size_t count, int flags) {
    return came(file, count, syscall(RECVFROM, file, bytes, pace(file, count), flags, 0, 0));
}

long write(int file, const void *bytes, size_t count) {
    if (file > FAULTS && !is_socket(file)) return is_made() ? syscall(WRITE, file, bytes, count) : fails(NO_SPACE);
    long most = taken(file, count);
    return most == 0 && count > 0 ? fails(BROKEN_PIPE) : syscall(WRITE, file, bytes, most);
}

long send(int file, const void *bytes, size_t count, int flags) {
    long most = taken(file, count);
    return most == 0 && count > 0 ? fails(BROKEN_PIPE) : syscall(SENDTO, file, bytes, most, flags, 0, 0);
}

int close(int file) {
    char rest[4096];
    if (getenv("HEARD") && is_socket(file)) {
        syscall(SHUTDOWN, file, NO_MORE_IS_SAID);
        while (syscall(RECVFROM, file, rest, sizeof rest, 0, 0, 0) > 0) continue;
    }
    return (int)syscall(CLOSE, file);
}

int mkdir(const char *path, unsigned mode) {
    return (int)(!is_below(path) || is_made() ? syscall(MKDIR, path, mode) : fails(NO_SPACE));
}

int rename(const char *from, const char *to) {
    return (int)(is_made() ? syscall(RENAME, from, to) : fails(NO_SPACE));
}

int openat(int folder, const char *path, int flags, unsigned mode) {
    return (int)(!(flags & CREATE) || is_made() ? syscall(OPENAT, folder, path, flags, mode) : fails(NO_SPACE));
}

int open(const char *path, int flags, unsigned mode) {
    return openat(HERE, path, flags, mode);
}

int getentropy(void *bytes, size_t count) {
    const char *digit = getenv("CHANCE");
    if (!digit) return syscall(GETRANDOM, bytes, count, 0) == (long)count ? 0 : (int)fails(NO_SPACE);
    for (size_t at = 0; at < count; at++) ((char *)bytes)[at] = (char)(*digit - '0');
    return 0;
}

int clock_gettime(int clock, struct timespec *time) {
    const char *at = getenv("AT");
    if (!at || clock != REALTIME) return (int)syscall(CLOCK_GETTIME, clock, time);
    time->seconds = atol(at);
    time->nanoseconds = 0;
    return 0;
}
