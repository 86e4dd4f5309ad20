/* POSIX.1-2001, utmpx.h */
#ifndef _SPARROW_UTMPX_H
#define _SPARROW_UTMPX_H

#include <sys/time.h>
#include <sys/types.h>

#define EMPTY 0
#define BOOT_TIME 2
#define NEW_TIME 3
#define OLD_TIME 4
#define INIT_PROCESS 5
#define LOGIN_PROCESS 6
#define USER_PROCESS 7
#define DEAD_PROCESS 8

struct utmpx {
    short ut_type;
    pid_t ut_pid;
    char ut_line[32];
    char ut_id[4];
    char ut_user[32];
    char ut_host[256];
    struct {
        short __termination;
        short __exit;
    } ut_exit;
    int ut_session;
    struct {
        int tv_sec;
        int tv_usec;
    } ut_tv;
    int ut_addr_v6[4];
    char __rest[20];
};

extern void setutxent(void);
extern void endutxent(void);
extern struct utmpx *getutxent(void);
extern struct utmpx *getutxid(const struct utmpx *);
extern struct utmpx *getutxline(const struct utmpx *);
extern struct utmpx *pututxline(const struct utmpx *);

#endif
