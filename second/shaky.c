/* read and write that are interrupted, would block, or move few bytes, in turn: loaded before the C library, they stand in
 * its place. Only what they say is shaky: no byte is lost, so a program that goes on must read and write as always. */
typedef long word;
extern int *__errno_location(void);
enum { EINTR = 4, EAGAIN = 11, TURNS = 5 };

static word call(word number, word fd, word bytes, word count) {
    word answer;
    __asm__ volatile("syscall" : "=a"(answer) : "a"(number), "D"(fd), "S"(bytes), "d"(count) : "rcx", "r11", "memory");
    if (answer < 0) {
        *__errno_location() = (int)-answer;
        return -1;
    }
    return answer;
}

static word fails(int error) {
    *__errno_location() = error;
    return -1;
}

word read(int fd, void *bytes, unsigned long count) {
    static int turn;
    if (fd == 0) {
        switch (turn++ % TURNS) {
        case 0: return fails(EINTR);
        case 1: return fails(EAGAIN);
        case 2: return call(0, fd, (word)bytes, count < 3 ? (word)count : 3);
        }
    }
    return call(0, fd, (word)bytes, (word)count);
}

word write(int fd, const void *bytes, unsigned long count) {
    static int turn;
    if (fd == 1 || fd == 2) {
        switch (turn++ % TURNS) {
        case 0: return fails(EINTR);
        case 1: return fails(EAGAIN);
        case 2: return 0;
        case 3: return call(1, fd, (word)bytes, count < 7 ? (word)count : 7);
        }
    }
    return call(1, fd, (word)bytes, (word)count);
}
