/* Macros of POSIX, BSD and Linux that take arguments: no header alone shows what they say. */
#include <sys/ioctl.h>
#include <sys/time.h>

/* BSD, sys/time.h. */
static int times(struct timeval *first, struct timeval *last)
{
    struct timeval sum, rest;
    timerclear(first);
    timeradd(first, last, &sum);
    timersub(last, first, &rest);
    if (timercmp(&sum, last, !=) || timercmp(&rest, last, >))
        return 1;
    return timerisset(first);
}

/* Linux, sys/ioctl.h: the numbers of requests are constants, those of asm-generic/ioctl.h. */
extern char request[_IO('V', 3) == 0x5603 ? 1 : -1];
extern char reads[_IOR('E', 1, int) == 0x80044501 ? 1 : -1];
extern char writes[_IOW('E', 2, char[6]) == 0x40064502 ? 1 : -1];
extern char both[_IOWR('E', 3, long) == 0xC0084503 ? 1 : -1];
extern char parts[_IOC_DIR(0x80044507) == _IOC_READ && _IOC_TYPE(0x80044507) == 'E' ? 1 : -1];
extern char others[_IOC_NR(0x80044507) == 7 && _IOC_SIZE(0x80044507) == 4 ? 1 : -1];

/* Words in declarations of glibc's headers. */
extern int first_of(const char *) __THROW __nonnull((1)) __attribute_pure__ __wur;
extern int __NTH(last_of(const char *)) __attribute_const__;

int main(void)
{
    static struct timeval first, last;
    return times(&first, &last);
}
