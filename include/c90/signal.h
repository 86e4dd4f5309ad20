/* C90 7.7. The numbers are those of Linux on x86-64. */
#ifndef _SPARROW_SIGNAL_H
#define _SPARROW_SIGNAL_H

typedef int sig_atomic_t;

#define SIG_DFL ((void (*)(int))0)
#define SIG_ERR ((void (*)(int))-1)
#define SIG_IGN ((void (*)(int))1)

#define SIGABRT 6
#define SIGFPE 8
#define SIGILL 4
#define SIGINT 2
#define SIGSEGV 11
#define SIGTERM 15

extern void (*signal(int, void (*)(int)))(int);
extern int raise(int);

#ifndef _ANSI_SOURCE
/* POSIX.1-2001 */
#define _NEED_pid_t
#define _NEED_uid_t
#define _NEED_sigset_t
#define _NEED_time_t
#define _NEED_timespec
#define _NEED_size_t
#include <bits/types.h>

#define SIGHUP 1
#define SIGQUIT 3
#define SIGTRAP 5
#define SIGIOT 6
#define SIGBUS 7
#define SIGKILL 9
#define SIGUSR1 10
#define SIGUSR2 12
#define SIGPIPE 13
#define SIGALRM 14
#define SIGCHLD 17
#define SIGCONT 18
#define SIGSTOP 19
#define SIGTSTP 20
#define SIGTTIN 21
#define SIGTTOU 22
#define SIGURG 23
#define SIGXCPU 24
#define SIGXFSZ 25
#define SIGVTALRM 26
#define SIGPROF 27
#define SIGWINCH 28
#define SIGIO 29
#define SIGPOLL SIGIO
#define SIGPWR 30
#define SIGSYS 31
#define NSIG 65

#define SIG_BLOCK 0
#define SIG_UNBLOCK 1
#define SIG_SETMASK 2

#define SA_NOCLDSTOP 1
#define SA_NOCLDWAIT 2
#define SA_SIGINFO 4
#define SA_ONSTACK 0x08000000
#define SA_RESTART 0x10000000
#define SA_NODEFER 0x40000000
#define SA_RESETHAND 0x80000000

union sigval {
    int sival_int;
    void *sival_ptr;
};

typedef struct {
    int si_signo;
    int si_errno;
    int si_code;
    pid_t si_pid;
    uid_t si_uid;
    int si_status;
    void *si_addr;
    union sigval si_value;
    long _rest[11];
} siginfo_t;

typedef struct {
    void *ss_sp;
    int ss_flags;
    size_t ss_size;
} stack_t;
#define SS_ONSTACK 1
#define SS_DISABLE 2
#define MINSIGSTKSZ 2048
#define SIGSTKSZ 8192

/* The two handlers share their place, as POSIX allows. */
struct sigaction {
    union {
        void (*_handler)(int);
        void (*_sigaction)(int, siginfo_t *, void *);
    } _function;
    sigset_t sa_mask;
    int sa_flags;
    void (*_restorer)(void);
};
#define sa_handler _function._handler
#define sa_sigaction _function._sigaction

extern int kill(pid_t, int);
extern int killpg(pid_t, int);
extern int sigaction(int, const struct sigaction *, struct sigaction *);
extern int sigaltstack(const stack_t *, stack_t *);
extern int sigaddset(sigset_t *, int);
extern int sigdelset(sigset_t *, int);
extern int sigemptyset(sigset_t *);
extern int sigfillset(sigset_t *);
extern int siginterrupt(int, int);
extern int sigismember(const sigset_t *, int);
extern int sigpending(sigset_t *);
extern int sigprocmask(int, const sigset_t *, sigset_t *);
extern int sigsuspend(const sigset_t *);
extern int sigwait(const sigset_t *, int *);
#endif

#ifdef _GNU_SOURCE
typedef void (*sighandler_t)(int);
#endif

#endif
