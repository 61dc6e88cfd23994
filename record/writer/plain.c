#include "plain.h"

#include <ctype.h>
#include <dlfcn.h>
#include <stdbool.h>
#include <stdlib.h>
#include <string.h>

#define LAMBDA "{lambda}"

static bool is_begin(const char *text, size_t bytes, const char *begin)
{
    return strlen(begin) <= bytes && memcmp(text, begin, strlen(begin)) == 0;
}

static bool is_end(const char *text, const char *end)
{
    size_t bytes = strlen(text);
    return strlen(end) <= bytes && strcmp(text + bytes - strlen(end), end) == 0;
}

static bool is_name_byte(char c)
{
    return isalnum((unsigned char)c) || c == '_';
}

/* How many bytes the name of an operator has that has none of a type: `operator<<`. 0 if it is no such operator. */
static size_t operator_bytes(const char *part, size_t bytes)
{
    static const char *const signs[] = {"->*", "<=>", "<<=", ">>=", "()", "[]", "->", "++", "--", "<<", ">>", "<=", ">=", "==", "!=", "&&", "||", "+=", "-=", "*=", "/=",
        "%=", "^=", "&=", "|=", "+", "-", "*", "/", "%", "^", "&", "|", "~", "!", "=", "<", ">", ","};
    const size_t word = strlen("operator");
    if (!is_begin(part, bytes, "operator"))
        return 0;
    for (size_t i = 0; i < sizeof signs / sizeof *signs; i++)
        if (is_begin(part + word, bytes - word, signs[i]))
            return word + strlen(signs[i]);
    return 0;
}

/* How clang calls a lambda, and how gcc and the demangler do. */
static bool is_lambda(const char *part, size_t bytes)
{
    return is_begin(part, bytes, "$_") || is_begin(part, bytes, "<lambda") || is_begin(part, bytes, "{lambda") || is_begin(part, bytes, "'lambda");
}

static void append(char *name, const char *text, size_t bytes)
{
    size_t used = strlen(name), most = PLAIN_BYTES - 1 - used;
    bytes = bytes < most ? bytes : most;
    memcpy(name + used, text, bytes);
    name[used + bytes] = 0;
}

/* Template arguments go, and from the parameters on all does, or from a dot: `work._omp_fn.0` is a parallel region in work. A blank between two words
 * becomes `_`. */
static void append_plain(char *name, const char *part, size_t bytes)
{
    size_t depth = 0, kept = operator_bytes(part, bytes);
    append(name, part, kept);
    size_t used = strlen(name);
    for (size_t i = kept; i < bytes && used + 1 < PLAIN_BYTES && (depth || (part[i] != '(' && (part[i] != '.' || !i))); i++) {
        bool is_blank = part[i] == ' ' && i > kept && i + 1 < bytes && is_name_byte(part[i - 1]) && is_name_byte(part[i + 1]);
        depth += part[i] == '<';
        if (!depth && (part[i] != ' ' || is_blank))
            name[used++] = is_blank ? '_' : part[i];
        depth -= part[i] == '>' && depth;
    }
    name[used] = 0;
}

void plain_add(char name[PLAIN_BYTES], const char *part, size_t bytes)
{
    bool is_in_lambda = is_end(name, LAMBDA);
    if (is_begin(part, bytes, "(anonymous") || is_begin(part, bytes, "_GLOBAL__N_") || (is_in_lambda && is_begin(part, bytes, "operator()")))
        return;
    if (*name)
        append(name, "::", 2);
    if (is_lambda(part, bytes))
        append(name, LAMBDA, strlen(LAMBDA));
    else
        append_plain(name, part, bytes);
}

/* ---- Symbols ---- */

/* What gcc and clang add behind dots to names of C: the number of a static variable (`calls.0`), or the function that it is in before (`main.calls`). */
static void put_c(char name[PLAIN_BYTES], const char *symbol)
{
    size_t first = strcspn(symbol + (*symbol == '.'), ".") + (*symbol == '.');
    plain_add(name, symbol, first);
    for (const char *at = symbol + first; *at;) {
        size_t bytes = strcspn(++at, ".");
        if (bytes && !isdigit((unsigned char)*at) && !is_begin(at, bytes, "_omp_fn"))
            plain_add(name, at, bytes);
        at += bytes;
    }
}

/* The plain cases of C++: `_ZL4lock` is lock, `_ZN4pool4lockE` is pool::lock. False of all others. */
static bool put_nested(char name[PLAIN_BYTES], const char *symbol)
{
    bool is_nested = symbol[2] == 'N';
    const char *at = symbol + 2 + is_nested;
    do {
        char *text;
        at += *at == 'L';
        unsigned long bytes = isdigit((unsigned char)*at) ? strtoul(at, &text, 10) : 0;
        if (!bytes || bytes > strlen(text))
            return false;
        plain_add(name, text, bytes);
        at = text + bytes;
    } while (is_nested && *at != 'E');
    return strcmp(at, is_nested ? "E" : "") == 0;
}

/* The scopes of a name of C++, up to a `::` that stands in no brackets, or up to the end. */
static size_t part_bytes(const char *text)
{
    size_t at = operator_bytes(text, strlen(text)), depth = 0;
    for (; text[at] && (depth || strncmp(text + at, "::", 2) != 0); at++) {
        depth += text[at] == '<' || text[at] == '(' || text[at] == '{';
        depth -= (text[at] == '>' || text[at] == ')' || text[at] == '}') && depth;
    }
    return at;
}

/* A template function has the type of its result in front. */
static const char *behind_type(const char *text)
{
    const char *begin = text;
    size_t depth = 0;
    for (const char *at = text; *at && (depth || *at != '(') && strncmp(at, "operator", 8) != 0; at++) {
        depth += *at == '<' || *at == '{';
        depth -= (*at == '>' || *at == '}') && depth;
        if (!depth && *at == ' ')
            begin = at + 1;
    }
    return begin;
}

/* `guard variable for f()::x` is f::x.guard. */
static void put_demangled(char name[PLAIN_BYTES], const char *text)
{
    const char *of = strstr(text, " for "), *at = of ? of + 5 : behind_type(text);
    while (*at) {
        size_t bytes = part_bytes(at);
        plain_add(name, at, bytes);
        at += bytes + 2 * (at[bytes] != 0);
    }
    if (of) {
        append(name, ".", 1);
        append(name, text, strcspn(text, " "));
    }
}

/* What C++'s library makes of a symbol, or NULL if it isn't there or the symbol is none of C++. It is loaded when it is needed first, and takes memory of
 * the allocator that this program has, so that `free` gives it back: an allocator may have been preloaded. */
static char *demangle(const char *symbol)
{
    static char *(*found)(const char *, char *, size_t *, int *);
    static bool was_loaded;
    int status;
    if (!was_loaded) {
        void *library = dlopen("libstdc++.so.6", RTLD_LAZY);
        library = library ? library : dlopen("libc++abi.so.1", RTLD_LAZY);
        if (library)
            *(void **)&found = dlsym(library, "__cxa_demangle");
        was_loaded = true;
    }
    return found ? found(symbol, NULL, NULL, &status) : NULL;
}

void plain_symbol(const char *symbol, char name[PLAIN_BYTES])
{
    name[0] = 0;
    if (strncmp(symbol, "_Z", 2) != 0) {
        put_c(name, symbol);
        return;
    }
    if (put_nested(name, symbol))
        return;
    name[0] = 0;
    char *text = demangle(symbol);
    if (text)
        put_demangled(name, text);
    if (!*name)
        append(name, symbol, strlen(symbol));
    free(text);
}
