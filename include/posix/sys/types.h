/* POSIX.1-2001, sys/types.h, for Linux on x86-64. */
#ifndef _SPARROW_SYS_TYPES_H
#define _SPARROW_SYS_TYPES_H

#define _NEED_size_t
#define _NEED_ssize_t
#define _NEED_clock_t
#define _NEED_time_t
#define _NEED_off_t
#define _NEED_pid_t
#define _NEED_uid_t
#define _NEED_mode_t
#define _NEED_int8_t
#include <bits/types.h>

typedef long blkcnt_t;
typedef long blksize_t;
typedef unsigned long dev_t;
typedef unsigned int id_t;
typedef unsigned long ino_t;
typedef int key_t;
typedef unsigned long nlink_t;
typedef long suseconds_t;
typedef unsigned int useconds_t;

/* BSD */
typedef char *caddr_t;
typedef unsigned char u_char;
typedef unsigned short u_short;
typedef unsigned int u_int;
typedef unsigned long u_long;
typedef unsigned short ushort;
typedef unsigned int uint;
typedef unsigned long ulong;
typedef unsigned char u_int8_t;
typedef unsigned short u_int16_t;
typedef unsigned int u_int32_t;
typedef unsigned long u_int64_t;

#if defined _GNU_SOURCE || defined _LARGEFILE64_SOURCE
/* An off_t has 64 bits. */
#define off64_t off_t
#define ino64_t ino_t
#endif

#endif
