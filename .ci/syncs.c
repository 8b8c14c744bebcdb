/* Stands between a process and its syncs of data (fdatasync), for tests of logs. In the folder that SYNCS names each adds a
   byte to the file `count`. Where there is a file `slow` it takes ten milliseconds more. Where there is a file `fail`, it
   is refused with EIO if `count` has more bytes than that then. It takes the place of the C library's function by LD_PRELOAD. No header is needed, so a compiler
   alone builds it. */
extern char *getenv(const char *);
extern int *__errno_location(void);
extern int open(const char *, int, ...);
extern int close(int);
extern int access(const char *, int);
extern long lseek(int, long, int);
extern int usleep(unsigned);
extern long write(int, const void *, unsigned long);
extern long syscall(long, ...);
extern int snprintf(char *, unsigned long, const char *, ...);

enum { FDATASYNC = 75, INPUT_OUTPUT = 5, APPEND = 0x441, MODE = 0600, END = 2 };

static const char *in_folder(char *path, unsigned long size, const char *name) {
    const char *folder = getenv("SYNCS");
    snprintf(path, size, "%s/%s", folder ? folder : ".", name);
    return path;
}

int fdatasync(int file) {
    char path[4096];
    long made = 0;
    int count = open(in_folder(path, sizeof path, "count"), APPEND, MODE);
    int fail = open(in_folder(path, sizeof path, "fail"), 0);
    if (count >= 0) {
        write(count, ".", 1);
        made = lseek(count, 0, END);
        close(count);
    }
    if (!access(in_folder(path, sizeof path, "slow"), 0)) usleep(10000);
    if (fail >= 0) {
        long passed = lseek(fail, 0, END);
        close(fail);
        if (made > passed) {
            *__errno_location() = INPUT_OUTPUT;
            return -1;
        }
    }
    return (int)syscall(FDATASYNC, file);
}
