/* Evaluators as session controllers commonly have them, for the bench: the profile is parsed into structs once, patterns are
 * regular expressions of glibc or, with -DWITH_PCRE2 and -DWITH_RE2, of PCRE2 and RE2. */
#ifndef PEERS_H
#define PEERS_H
#include <stddef.h>
#include <stdint.h>

enum peer_way {
    PEER_REGCOMP, /* glibc, each pattern compiled at each evaluation of its row */
    PEER_REGEXEC, /* glibc, compiled when the profile is loaded */
    PEER_PCRE2,   /* PCRE2 with its just-in-time compiler, compiled when the profile is loaded */
    PEER_RE2      /* RE2, compiled when the profile is loaded */
};

/* Parses an image that ifc_check accepts, and compiles its patterns. */
void peer_load(const uint8_t *image, size_t length);

/* The number of the first criterion that fits, by rising priority, -1 if none does. */
int peer_advance(const uint8_t *request, size_t length, uint32_t session_case, enum peer_way way);

#endif
