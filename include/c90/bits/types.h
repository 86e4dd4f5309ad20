/*
 * Types and macros that several headers must define, each of which a program may see only once.
 * A header defines _NEED_name for what its section gives it, and includes this file, which has no
 * guard of its own. Sizes are those of docs/LANGUAGE.md.
 */

/* C90 7.1.6 */
#if defined _NEED_NULL && !defined NULL
#define NULL ((void *)0)
#endif
#if defined _NEED_size_t && !defined _HAVE_size_t
#define _HAVE_size_t
typedef unsigned long size_t;
#endif
#if defined _NEED_wchar_t && !defined _HAVE_wchar_t
#define _HAVE_wchar_t
typedef int wchar_t;
#endif

/* C90 7.8. A list of arguments points to bytes. */
#if defined _NEED_va_list && !defined _HAVE_va_list
#define _HAVE_va_list
typedef char *va_list;
#endif

/* C90 7.12.1 */
#if defined _NEED_clock_t && !defined _HAVE_clock_t
#define _HAVE_clock_t
typedef long clock_t;
#endif
#if defined _NEED_time_t && !defined _HAVE_time_t
#define _HAVE_time_t
typedef long time_t;
#endif

/* POSIX.1-2001, sys/types.h, as Linux on x86-64 has them. */
#if defined _NEED_ssize_t && !defined _HAVE_ssize_t
#define _HAVE_ssize_t
typedef long ssize_t;
#endif
#if defined _NEED_off_t && !defined _HAVE_off_t
#define _HAVE_off_t
typedef long off_t;
#endif
#if defined _NEED_pid_t && !defined _HAVE_pid_t
#define _HAVE_pid_t
typedef int pid_t;
#endif
#if defined _NEED_uid_t && !defined _HAVE_uid_t
#define _HAVE_uid_t
typedef unsigned int uid_t;
typedef unsigned int gid_t;
#endif
#if defined _NEED_mode_t && !defined _HAVE_mode_t
#define _HAVE_mode_t
typedef unsigned int mode_t;
#endif
#if defined _NEED_nl_item && !defined _HAVE_nl_item
#define _HAVE_nl_item
typedef int nl_item;
#endif
#if defined _NEED_int8_t && !defined _HAVE_int8_t
#define _HAVE_int8_t
typedef signed char int8_t;
typedef short int16_t;
typedef int int32_t;
typedef long int64_t;
#endif
#if defined _NEED_timespec && !defined _HAVE_timespec
#define _HAVE_timespec
struct timespec {
    time_t tv_sec;
    long tv_nsec;
};
#endif
#if defined _NEED_timeval && !defined _HAVE_timeval
#define _HAVE_timeval
struct timeval {
    time_t tv_sec;
    long tv_usec;
};
#endif
#if defined _NEED_sigset_t && !defined _HAVE_sigset_t
#define _HAVE_sigset_t
typedef struct {
    unsigned long _words[16];
} sigset_t;
#endif

/* Each header of glibc gives these words for C++, and programs rest on that. */
#ifndef __BEGIN_DECLS
#define __BEGIN_DECLS
#define __END_DECLS

/* What declarations of glibc's headers say, which options may give. */
#define __THROW
#define __THROWNL
#define __NTH(function) function
#define __nonnull(parameters)
#define __wur
#define __attr_access(parameters)
#define __attr_dealloc(function, parameter)
#define __attr_dealloc_free
#define __attribute_const__
#define __attribute_deprecated__
#define __attribute_deprecated_msg__(text)
#define __attribute_malloc__
#define __attribute_nonstring__
#define __attribute_pure__
#define __attribute_warn_unused_result__
#define __flexarr []
#define __restrict_arr
#endif
