/* POSIX.1-2001, dirent.h */
#ifndef _SPARROW_DIRENT_H
#define _SPARROW_DIRENT_H

#include <sys/types.h>

typedef struct __dirstream {
    int _descriptor;
} DIR;

struct dirent {
    ino_t d_ino;
    off_t d_off;
    unsigned short d_reclen;
    unsigned char d_type;
    char d_name[256];
};

/* BSD */
#define d_fileno d_ino
#define DT_UNKNOWN 0
#define DT_FIFO 1
#define DT_CHR 2
#define DT_DIR 4
#define DT_BLK 6
#define DT_REG 8
#define DT_LNK 10
#define DT_SOCK 12

extern int alphasort(const struct dirent **, const struct dirent **);
extern int closedir(DIR *);
extern int dirfd(DIR *);
extern DIR *fdopendir(int);
extern DIR *opendir(const char *);
extern struct dirent *readdir(DIR *);
extern void rewinddir(DIR *);
extern int scandir(const char *, struct dirent ***, int (*)(const struct dirent *),
                   int (*)(const struct dirent **, const struct dirent **));
extern void seekdir(DIR *, long);
extern long telldir(DIR *);

#if defined _GNU_SOURCE || defined _LARGEFILE64_SOURCE
/* An off_t has 64 bits. */
#define dirent64 dirent
#define readdir64 readdir
#endif

#endif
