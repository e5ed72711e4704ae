/* RE2 as the C of peers.c calls it. */
#include <re2/re2.h>

/* NULL where RE2 refuses the pattern. */
extern "C" void *peer_re2_compile(const char *pattern, size_t length, int any_case) {
    RE2::Options o;
    o.set_encoding(RE2::Options::EncodingLatin1);
    o.set_case_sensitive(!any_case);
    o.set_never_capture(true);
    RE2 *re = new RE2(re2::StringPiece(pattern, length), o);
    return re->ok() ? re : nullptr;
}

extern "C" int peer_re2_matches(const void *re, const char *text, size_t length) {
    return RE2::PartialMatch(re2::StringPiece(text, length), *static_cast<const RE2 *>(re));
}
