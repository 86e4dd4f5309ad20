/* GNU: the same as syslog.h. */
#ifndef _SPARROW_SYS_SYSLOG_H
#define _SPARROW_SYS_SYSLOG_H

#include <syslog.h>

#endif
