/* POSIX.1-2001, dlfcn.h */
#ifndef _SPARROW_DLFCN_H
#define _SPARROW_DLFCN_H

#define RTLD_LAZY 1
#define RTLD_NOW 2
#define RTLD_GLOBAL 256
#define RTLD_LOCAL 0

#ifdef _GNU_SOURCE
#define RTLD_DEFAULT ((void *)0)
#define RTLD_NEXT ((void *)-1L)
#endif

extern int dlclose(void *);
extern char *dlerror(void);
extern void *dlopen(const char *, int);
extern void *dlsym(void *, const char *);

#endif
