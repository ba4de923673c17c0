// Part of C's own stdio.h, and POSIX's fileno.
#pragma once
#include <stddef.h>
typedef struct _IO_FILE FILE;
#define EOF (-1)
extern FILE *stdin;
extern FILE *stdout;
extern FILE *stderr;
int printf(const char *form, ...);
int fprintf(FILE *file, const char *form, ...);
int sprintf(char *text, const char *form, ...);
int snprintf(char *text, size_t size, const char *form, ...);
int puts(const char *text);
int fputs(const char *text, FILE *file);
int fflush(FILE *file);
FILE *fopen(const char *name, const char *mode);
int fclose(FILE *file);
int getc(FILE *file);
size_t fread(void *to, size_t size, size_t count, FILE *file);
size_t fwrite(const void *from, size_t size, size_t count, FILE *file);
int ferror(FILE *file);
int fileno(FILE *file);
