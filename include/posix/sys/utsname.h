/* POSIX.1-2001, sys/utsname.h */
#ifndef _SPARROW_SYS_UTSNAME_H
#define _SPARROW_SYS_UTSNAME_H

struct utsname {
    char sysname[65];
    char nodename[65];
    char release[65];
    char version[65];
    char machine[65];
    char _domain[65];
};

extern int uname(struct utsname *);

#endif
