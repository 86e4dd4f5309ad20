/* SVID: the shadow passwords. */
#ifndef _SPARROW_SHADOW_H
#define _SPARROW_SHADOW_H

struct spwd {
    char *sp_namp;
    char *sp_pwdp;
    long sp_lstchg;
    long sp_min;
    long sp_max;
    long sp_warn;
    long sp_inact;
    long sp_expire;
    unsigned long sp_flag;
};

extern void endspent(void);
extern struct spwd *getspent(void);
extern struct spwd *getspnam(const char *);
extern void setspent(void);

#endif
