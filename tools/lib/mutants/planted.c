// Says which mutant is planted: its number stands at the start of a page of a file, in which each one that is asked for leaves a mark.

enum { BYTES = 16384, MARKS = 8, OPEN = 2, CLOSE = 3, MMAP = 9, READ_AND_WRITE = 2, PROTECTION = 3, SHARED = 1, LEAST_FAULT = -4095 };

// A trial writes its own file's name here. The programs have no environment, and their words and folders are the rows'.
static const char NAME[256] = "the file that says which mutant is planted";
static unsigned char nobody_asks[BYTES];
static unsigned char *page;

// A call of the system, as the programs have no C library of their own.
static long call(long number, long a, long b, long c, long d, long e)
{
    long answer;
    register long fourth __asm__("r10") = d, fifth __asm__("r8") = e, sixth __asm__("r9") = 0;
    __asm__ volatile("syscall"
                     : "=a"(answer)
                     : "a"(number), "D"(a), "S"(b), "d"(c), "r"(fourth), "r"(fifth), "r"(sixth)
                     : "rcx", "r11", "memory");
    return answer;
}

static unsigned char *shared_page(void)
{
    long file = call(OPEN, (long)NAME, READ_AND_WRITE, 0, 0, 0);
    if (file < 0) {
        return nobody_asks;
    }
    long at = call(MMAP, 0, BYTES, PROTECTION, SHARED, file);
    call(CLOSE, file, 0, 0, 0, 0);
    return at < 0 && at >= LEAST_FAULT ? nobody_asks : (unsigned char *)at;
}

_Bool is_planted(unsigned int number)
{
    if (!page) {
        page = shared_page();
    }
    page[MARKS + number] = 1;
    return *(unsigned int *)page == number;
}
