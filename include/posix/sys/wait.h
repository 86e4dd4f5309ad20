/* POSIX.1-2001, sys/wait.h */
#ifndef _SPARROW_SYS_WAIT_H
#define _SPARROW_SYS_WAIT_H

#include <signal.h>
#include <sys/types.h>

#define WNOHANG 1
#define WUNTRACED 2
#define WSTOPPED 2
#define WEXITED 4
#define WCONTINUED 8
#define WNOWAIT 0x1000000

typedef enum { P_ALL, P_PID, P_PGID } idtype_t;

#define WEXITSTATUS(status) (((status) >> 8) & 255)
#define WIFCONTINUED(status) ((status) == 65535)
#define WIFEXITED(status) (((status) & 127) == 0)
#define WIFSIGNALED(status) (((status) & 127) != 0 && ((status) & 127) != 127)
#define WIFSTOPPED(status) (((status) & 255) == 127)
#define WSTOPSIG(status) WEXITSTATUS(status)
#define WTERMSIG(status) ((status) & 127)

/* BSD */
#define WCOREDUMP(status) ((status) & 128)
struct rusage;
extern pid_t wait3(int *, int, struct rusage *);
extern pid_t wait4(pid_t, int *, int, struct rusage *);

extern pid_t wait(int *);
extern int waitid(idtype_t, id_t, siginfo_t *, int);
extern pid_t waitpid(pid_t, int *, int);

#endif
