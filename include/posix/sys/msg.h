/* POSIX.1-2001, sys/msg.h */
#ifndef _SPARROW_SYS_MSG_H
#define _SPARROW_SYS_MSG_H

#include <sys/ipc.h>

#define MSG_NOERROR 010000

typedef unsigned long msgqnum_t;
typedef unsigned long msglen_t;

struct msqid_ds {
    struct ipc_perm msg_perm;
    time_t msg_stime;
    time_t msg_rtime;
    time_t msg_ctime;
    unsigned long __cbytes;
    msgqnum_t msg_qnum;
    msglen_t msg_qbytes;
    pid_t msg_lspid;
    pid_t msg_lrpid;
    unsigned long __rest[2];
};

extern int msgctl(int, int, struct msqid_ds *);
extern int msgget(key_t, int);
extern ssize_t msgrcv(int, void *, size_t, long, int);
extern int msgsnd(int, const void *, size_t, int);

#endif
