#ifndef KIT_STDIO_H
#define KIT_STDIO_H
#include <stddef.h>
typedef struct _IO_FILE FILE; extern FILE *stdin, *stdout, *stderr;
int printf(const char *, ...); int snprintf(char *, size_t, const char *, ...); int puts(const char *); int fprintf(FILE *, const char *, ...);
size_t fread(void *, size_t, size_t, FILE *); size_t fwrite(const void *, size_t, size_t, FILE *); int fflush(FILE *);
FILE *fopen(const char *, const char *); int fclose(FILE *); int fseek(FILE *, long, int);
#define SEEK_SET 0
#endif
