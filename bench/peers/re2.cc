// RE2 for the benchmark: a pattern is compiled once, then matched against whole texts.
#include <re2/re2.h>

#include <cstddef>

extern "C" {

void *re2_compile(const char *pattern, size_t length) {
    RE2::Options options;
    options.set_dot_nl(true);
    options.set_log_errors(false);
    auto *compiled = new RE2(re2::StringPiece(pattern, length), options);
    if (compiled->ok()) return compiled;
    delete compiled;
    return nullptr;
}

int re2_full_match(const void *compiled, const char *text, size_t length) {
    return RE2::FullMatch(re2::StringPiece(text, length), *static_cast<const RE2 *>(compiled));
}

void re2_free(void *compiled) { delete static_cast<RE2 *>(compiled); }
}
