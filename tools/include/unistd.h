// Part of POSIX's unistd.h.
#pragma once
int fsync(int file);
int link(const char *name, const char *new_name);
int unlink(const char *name);
