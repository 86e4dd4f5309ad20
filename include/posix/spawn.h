/* POSIX.1-2001, spawn.h. The numbers and sizes are those of glibc on x86-64. */
#ifndef _SPARROW_SPAWN_H
#define _SPARROW_SPAWN_H

#include <sched.h>
#include <sys/types.h>
#define _NEED_sigset_t
#include <bits/types.h>

typedef struct {
    short _flags;
    pid_t _group;
    sigset_t _defaults;
    sigset_t _mask;
    struct sched_param _param;
    int _rest[17];
} posix_spawnattr_t;
typedef struct {
    int _allocated;
    int _used;
    void *_actions;
    int _rest[16];
} posix_spawn_file_actions_t;

#define POSIX_SPAWN_RESETIDS 0x01
#define POSIX_SPAWN_SETPGROUP 0x02
#define POSIX_SPAWN_SETSIGDEF 0x04
#define POSIX_SPAWN_SETSIGMASK 0x08
#define POSIX_SPAWN_SETSCHEDPARAM 0x10
#define POSIX_SPAWN_SETSCHEDULER 0x20

extern int posix_spawn(pid_t *, const char *, const posix_spawn_file_actions_t *,
                       const posix_spawnattr_t *, char *const *, char *const *);
extern int posix_spawnp(pid_t *, const char *, const posix_spawn_file_actions_t *,
                        const posix_spawnattr_t *, char *const *, char *const *);
extern int posix_spawn_file_actions_addclose(posix_spawn_file_actions_t *, int);
extern int posix_spawn_file_actions_adddup2(posix_spawn_file_actions_t *, int, int);
extern int posix_spawn_file_actions_addopen(posix_spawn_file_actions_t *, int, const char *, int,
                                            mode_t);
extern int posix_spawn_file_actions_destroy(posix_spawn_file_actions_t *);
extern int posix_spawn_file_actions_init(posix_spawn_file_actions_t *);
extern int posix_spawnattr_destroy(posix_spawnattr_t *);
extern int posix_spawnattr_getflags(const posix_spawnattr_t *, short *);
extern int posix_spawnattr_init(posix_spawnattr_t *);
extern int posix_spawnattr_setflags(posix_spawnattr_t *, short);
extern int posix_spawnattr_setpgroup(posix_spawnattr_t *, pid_t);
extern int posix_spawnattr_setsigdefault(posix_spawnattr_t *, const sigset_t *);
extern int posix_spawnattr_setsigmask(posix_spawnattr_t *, const sigset_t *);

#endif
