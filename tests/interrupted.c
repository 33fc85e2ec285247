/*
 * A library to preload, for tests/failures: of five reads of standard input two are interrupted, the first two among
 * them, which a byte on descriptor 9 notes, and the others bring 1,000 bytes at most. It is for x86-64, as the program
 * is, and wants no header, so that any compiler for it will do; errno's place is the C library's of the program.
 */
#ifndef __x86_64__
#error "it is preloaded to an x86-64 program"
#endif

#define READ 0
#define WRITE 1
#define EINTR 4

int *__errno_location(void);

static long call(long number, long fd, const void *bytes, unsigned long n)
{
    long answer;

    __asm__ volatile("syscall" : "=a"(answer) : "a"(number), "D"(fd), "S"(bytes), "d"(n) : "rcx", "r11", "memory");
    return answer;
}

long read(int fd, void *bytes, unsigned long n)
{
    static unsigned calls;
    long got = -EINTR;

    if (fd == 0 && calls++ % 5 < 2)
        call(WRITE, 9, ".", 1);
    else
        got = call(READ, fd, bytes, fd == 0 && n > 1000 ? 1000 : n);
    if (got >= 0)
        return got;
    *__errno_location() = (int)-got;
    return -1;
}
