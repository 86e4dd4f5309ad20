/* POSIX.1-2001, grp.h */
#ifndef _SPARROW_GRP_H
#define _SPARROW_GRP_H

#include <sys/types.h>

struct group {
    char *gr_name;
    char *gr_passwd;
    gid_t gr_gid;
    char **gr_mem;
};

extern void endgrent(void);
extern struct group *getgrent(void);
extern struct group *getgrgid(gid_t);
extern struct group *getgrnam(const char *);
extern void setgrent(void);

/* BSD */
extern int initgroups(const char *, gid_t);
extern int setgroups(size_t, const gid_t *);

#endif
