/* C90 7.6. A use of setjmp or longjmp is refused: setjmp. */
#ifndef _SPARROW_SETJMP_H
#define _SPARROW_SETJMP_H

typedef long jmp_buf[25];

extern int setjmp(jmp_buf);
extern void longjmp(jmp_buf, int);

#ifndef _ANSI_SOURCE
/* POSIX.1-2001. They are macros, so that a use is refused as one of setjmp is. */
typedef jmp_buf sigjmp_buf;
#define sigsetjmp(buffer, save) setjmp(buffer)
#define siglongjmp(buffer, value) longjmp(buffer, value)
#endif

#endif
