/* GNU: what other headers ask for. No version of glibc is claimed. */
#ifndef _SPARROW_FEATURES_H
#define _SPARROW_FEATURES_H

#include <bits/types.h>

#define __GNUC_PREREQ(major, minor) 0
#define __GLIBC_PREREQ(major, minor) 0

#endif
