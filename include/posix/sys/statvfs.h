/* POSIX.1-2001, sys/statvfs.h */
#ifndef _SPARROW_SYS_STATVFS_H
#define _SPARROW_SYS_STATVFS_H

#include <sys/types.h>

typedef unsigned long fsblkcnt_t;
typedef unsigned long fsfilcnt_t;

struct statvfs {
    unsigned long f_bsize;
    unsigned long f_frsize;
    fsblkcnt_t f_blocks;
    fsblkcnt_t f_bfree;
    fsblkcnt_t f_bavail;
    fsfilcnt_t f_files;
    fsfilcnt_t f_ffree;
    fsfilcnt_t f_favail;
    unsigned long f_fsid;
    unsigned long f_flag;
    unsigned long f_namemax;
    int _rest[6];
};

#define ST_RDONLY 1
#define ST_NOSUID 2

extern int fstatvfs(int, struct statvfs *);
extern int statvfs(const char *, struct statvfs *);

#endif
