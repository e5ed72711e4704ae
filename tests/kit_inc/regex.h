#ifndef KIT_REGEX_H
#define KIT_REGEX_H
#include <stddef.h>
/* more room than glibc's 64 bytes */
typedef struct { void *room[32]; } regex_t;
typedef struct { int rm_so, rm_eo; } regmatch_t;
#define REG_ICASE 2
#define REG_NOSUB 8
int regcomp(regex_t *, const char *, int); int regexec(const regex_t *, const char *, size_t, regmatch_t *, int); void regfree(regex_t *);
#endif
