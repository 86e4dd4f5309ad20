/* POSIX.1-2001 and -2008, unistd.h. The numbers are those of Linux on x86-64. */
#ifndef _SPARROW_UNISTD_H
#define _SPARROW_UNISTD_H

#define _NEED_NULL
#include <bits/types.h>
#include <sys/types.h>

#define _POSIX_VERSION 200809L

#define STDIN_FILENO 0
#define STDOUT_FILENO 1
#define STDERR_FILENO 2

#define F_OK 0
#define X_OK 1
#define W_OK 2
#define R_OK 4

#define SEEK_SET 0
#define SEEK_CUR 1
#define SEEK_END 2

#define F_ULOCK 0
#define F_LOCK 1
#define F_TLOCK 2
#define F_TEST 3

#define _PC_LINK_MAX 0
#define _PC_NAME_MAX 3
#define _PC_PATH_MAX 4
#define _PC_PIPE_BUF 5
#define _SC_ARG_MAX 0
#define _SC_CHILD_MAX 1
#define _SC_CLK_TCK 2
#define _SC_NGROUPS_MAX 3
#define _SC_OPEN_MAX 4
#define _SC_PAGESIZE 30
#define _SC_PAGE_SIZE _SC_PAGESIZE
#define _SC_NPROCESSORS_CONF 83
#define _SC_NPROCESSORS_ONLN 84
#define _SC_PHYS_PAGES 85

extern char *optarg;
extern int opterr;
extern int optind;
extern int optopt;

extern void _exit(int);
extern int access(const char *, int);
extern unsigned int alarm(unsigned int);
extern int chdir(const char *);
extern int chown(const char *, uid_t, gid_t);
extern int close(int);
extern size_t confstr(int, char *, size_t);
extern char *crypt(const char *, const char *);
extern char *ctermid(char *);
extern int dup(int);
extern int dup2(int, int);
extern int execl(const char *, const char *, ...);
extern int execle(const char *, const char *, ...);
extern int execlp(const char *, const char *, ...);
extern int execv(const char *, char *const *);
extern int execve(const char *, char *const *, char *const *);
extern int execvp(const char *, char *const *);
extern int faccessat(int, const char *, int, int);
extern int fchdir(int);
extern int fchown(int, uid_t, gid_t);
extern int fchownat(int, const char *, uid_t, gid_t, int);
extern int fdatasync(int);
extern pid_t fork(void);
extern long fpathconf(int, int);
extern int fsync(int);
extern int ftruncate(int, off_t);
extern char *getcwd(char *, size_t);
extern gid_t getegid(void);
extern uid_t geteuid(void);
extern gid_t getgid(void);
extern int getgroups(int, gid_t *);
extern long gethostid(void);
extern int gethostname(char *, size_t);
extern char *getlogin(void);
extern int getopt(int, char *const *, const char *);
extern pid_t getpgid(pid_t);
extern pid_t getpgrp(void);
extern pid_t getpid(void);
extern pid_t getppid(void);
extern pid_t getsid(pid_t);
extern uid_t getuid(void);
extern int isatty(int);
extern int lchown(const char *, uid_t, gid_t);
extern int link(const char *, const char *);
extern int linkat(int, const char *, int, const char *, int);
extern int lockf(int, int, off_t);
extern off_t lseek(int, off_t, int);
extern int nice(int);
extern long pathconf(const char *, int);
extern int pause(void);
extern int pipe(int *);
extern ssize_t pread(int, void *, size_t, off_t);
extern ssize_t pwrite(int, const void *, size_t, off_t);
extern ssize_t read(int, void *, size_t);
extern ssize_t readlink(const char *, char *, size_t);
extern ssize_t readlinkat(int, const char *, char *, size_t);
extern int rmdir(const char *);
extern int setegid(gid_t);
extern int seteuid(uid_t);
extern int setgid(gid_t);
extern int setpgid(pid_t, pid_t);
extern int setregid(gid_t, gid_t);
extern int setreuid(uid_t, uid_t);
extern pid_t setsid(void);
extern int setuid(uid_t);
extern unsigned int sleep(unsigned int);
extern int symlink(const char *, const char *);
extern int symlinkat(const char *, int, const char *);
extern void sync(void);
extern long sysconf(int);
extern pid_t tcgetpgrp(int);
extern int tcsetpgrp(int, pid_t);
extern int truncate(const char *, off_t);
extern char *ttyname(int);
extern int unlink(const char *);
extern int unlinkat(int, const char *, int);
extern int usleep(useconds_t);
extern pid_t vfork(void);
extern ssize_t write(int, const void *, size_t);

/* BSD */
extern int brk(void *);
extern int chroot(const char *);
extern int daemon(int, int);
extern int getdtablesize(void);
extern int getpagesize(void);
extern char *getpass(const char *);
extern char *getwd(char *);
extern void *sbrk(long);
extern int sethostname(const char *, size_t);
extern long syscall(long, ...);

#ifdef _GNU_SOURCE
extern char **environ;
extern int dup3(int, int, int);
extern char *get_current_dir_name(void);
extern int pipe2(int *, int);
#endif

#if defined _GNU_SOURCE || defined _LARGEFILE64_SOURCE
/* An off_t has 64 bits. */
#define ftruncate64 ftruncate
#define lseek64 lseek
#define truncate64 truncate
#endif

#endif
