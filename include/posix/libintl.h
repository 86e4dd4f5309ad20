/* GNU gettext */
#ifndef _SPARROW_LIBINTL_H
#define _SPARROW_LIBINTL_H

#include <locale.h>

extern char *bind_textdomain_codeset(const char *, const char *);
extern char *bindtextdomain(const char *, const char *);
extern char *dcgettext(const char *, const char *, int);
extern char *dgettext(const char *, const char *);
extern char *gettext(const char *);
extern char *ngettext(const char *, const char *, unsigned long);
extern char *textdomain(const char *);

#endif
