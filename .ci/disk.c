/* Stands between a process and a file that it reads and writes at places and syncs: counts these calls, fails one of
   them, limits the room of the file, and records what was written. The calls and the numbers that steer them
   are in a file that the environment's DISK names, which is mapped, so that they can be looked at and changed while the
   process runs. Where RECORD names a file, each write, each sync and each answer is added to that: its kind, its place
   and its number of bytes, 8 bytes each, and the bytes. It takes the place of the C library's functions by LD_PRELOAD.
   No header is needed, so a compiler alone builds it; the numbers of the system's calls are those of x86-64. */
typedef unsigned long word;
extern long syscall(long, ...);
extern char *getenv(const char *);
extern int *__errno_location(void);

enum { WRITE = 1, OPEN = 2, MMAP = 9, PREAD = 17, PWRITE = 18, FSYNC = 74, FDATASYNC = 75, NO_SPACE = 28 };
enum { WRITTEN = 1, SYNCED = 2, ANSWERED = 3 };

/* How many calls of a kind there were, and the number, from 1, of the one that fails: with this error, once this many of its
   bytes were carried out; without an error it is short. */
struct calls {
    word count, failing, error, bytes;
};

struct disk {
    struct calls writes, syncs, reads;
    /* How long the file may become. */
    word room;
};

static struct disk *disk;
static long record = -1;

__attribute__((constructor)) static void map(void) {
    const char *steering = getenv("DISK"), *recorded = getenv("RECORD");
    if (steering) disk = (struct disk *)syscall(MMAP, 0, sizeof *disk, 3, 1, syscall(OPEN, steering, 02, 0), 0);
    if (recorded) record = syscall(OPEN, recorded, 02001, 0);
}

static void tell(word kind, word at, word bytes, const void *text) {
    word head[3] = {kind, at, bytes};
    if (record < 0) return;
    syscall(WRITE, record, head, sizeof head);
    syscall(WRITE, record, text, bytes);
}

static long failed(word error) {
    *__errno_location() = (int)error;
    return -1;
}

static int fails(struct calls *calls) { return ++calls->count == calls->failing; }

long pread(int file, void *bytes, word number, long at) {
    if (!disk || !fails(&disk->reads)) return syscall(PREAD, file, bytes, number, at);
    if (disk->reads.error) return failed(disk->reads.error);
    return syscall(PREAD, file, bytes, disk->reads.bytes, at);
}

static long put(int file, const void *bytes, word number, long at) {
    long done = syscall(PWRITE, file, bytes, number, at);
    if (done > 0) tell(WRITTEN, (word)at, (word)done, bytes);
    return done;
}

long pwrite(int file, const void *bytes, word number, long at) {
    if (!disk) return put(file, bytes, number, at);
    if (fails(&disk->writes)) {
        long done = disk->writes.bytes ? put(file, bytes, number < disk->writes.bytes ? number : disk->writes.bytes, at) : 0;
        return disk->writes.error ? failed(disk->writes.error) : done;
    }
    if ((word)at + number <= disk->room) return put(file, bytes, number, at);
    if ((word)at >= disk->room) return failed(NO_SPACE);
    return put(file, bytes, disk->room - (word)at, at);
}

static int synced(long call, int file) {
    if (disk && fails(&disk->syncs)) return (int)failed(disk->syncs.error);
    int done = (int)syscall(call, file);
    tell(SYNCED, 0, 0, "");
    return done;
}

int fsync(int file) { return synced(FSYNC, file); }
int fdatasync(int file) { return synced(FDATASYNC, file); }

long write(int file, const void *bytes, word number) {
    long done = syscall(WRITE, file, bytes, number);
    if (file == 1 && done > 0) tell(ANSWERED, 0, (word)done, bytes);
    return done;
}
