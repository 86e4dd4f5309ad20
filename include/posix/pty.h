/* BSD. */
#ifndef _SPARROW_PTY_H
#define _SPARROW_PTY_H

#include <termios.h>
#include <sys/ioctl.h>

extern int forkpty(int *, char *, const struct termios *, const struct winsize *);
extern int openpty(int *, int *, char *, const struct termios *, const struct winsize *);

#endif
