// Part of C's own errno.h, for Linux.
#pragma once
int *__errno_location(void);
#define errno (*__errno_location())
#define ENOENT 2
#define EEXIST 17
