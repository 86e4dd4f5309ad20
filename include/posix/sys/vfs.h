/* Linux: another name of sys/statfs.h. */
#ifndef _SPARROW_SYS_VFS_H
#define _SPARROW_SYS_VFS_H

#include <sys/statfs.h>

#endif
