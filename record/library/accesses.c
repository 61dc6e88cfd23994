/* The calls that a compiler makes at reads and writes under -fsanitize=thread. */
#include "emit.h"

#include <dlfcn.h>
#include <link.h>
#include <string.h>

/* ---- Accesses of a known size ---- */

#define PLAIN(size)                                                                                                       \
    HOOK void __tsan_read##size(void *address) { emit_read(address, size, CALLER); }                                      \
    HOOK void __tsan_write##size(void *address) { emit_write(address, size, CALLER); }                                    \
    HOOK void __tsan_volatile_read##size(void *address) { emit_read(address, size, CALLER); }                             \
    HOOK void __tsan_volatile_write##size(void *address) { emit_write(address, size, CALLER); }                           \
    HOOK void __tsan_read##size##_pc(void *address, void *site) { emit_read(address, size, (uintptr_t)site); }            \
    HOOK void __tsan_write##size##_pc(void *address, void *site) { emit_write(address, size, (uintptr_t)site); }          \
    HOOK void __tsan_read_write##size(void *address)                                                                      \
    {                                                                                                                     \
        emit_read(address, size, CALLER);                                                                                 \
        emit_write(address, size, CALLER);                                                                                \
    }

#define UNALIGNED(size)                                                                                                   \
    HOOK void __tsan_unaligned_read##size(void *address) { emit_read(address, size, CALLER); }                            \
    HOOK void __tsan_unaligned_write##size(void *address) { emit_write(address, size, CALLER); }                          \
    HOOK void __tsan_unaligned_volatile_read##size(void *address) { emit_read(address, size, CALLER); }                   \
    HOOK void __tsan_unaligned_volatile_write##size(void *address) { emit_write(address, size, CALLER); }                 \
    HOOK void __tsan_unaligned_read_write##size(void *address)                                                            \
    {                                                                                                                     \
        emit_read(address, size, CALLER);                                                                                 \
        emit_write(address, size, CALLER);                                                                                \
    }

PLAIN(1) PLAIN(2) PLAIN(4) PLAIN(8) PLAIN(16)
UNALIGNED(1) UNALIGNED(2) UNALIGNED(4) UNALIGNED(8) UNALIGNED(16)

/* The runtime's own loads and stores at any alignment, for code that wants them watched. */
#define SANITIZER_UNALIGNED(bits)                                                                                         \
    HOOK uint##bits##_t __sanitizer_unaligned_load##bits(const void *address)                                             \
    {                                                                                                                     \
        uint##bits##_t value;                                                                                             \
        emit_read(address, bits / 8, CALLER);                                                                             \
        __builtin_memcpy(&value, address, sizeof value);                                                                  \
        return value;                                                                                                     \
    }                                                                                                                     \
    HOOK void __sanitizer_unaligned_store##bits(void *address, uint##bits##_t value)                                      \
    {                                                                                                                     \
        emit_write(address, bits / 8, CALLER);                                                                            \
        __builtin_memcpy(address, &value, sizeof value);                                                                  \
    }

SANITIZER_UNALIGNED(16) SANITIZER_UNALIGNED(32) SANITIZER_UNALIGNED(64)

/* ---- Ranges, pointers to tables of virtual functions, accesses of other languages ---- */

HOOK void __tsan_read_range(void *address, size_t size) { emit_range(EVENT_READ, address, size, CALLER); }
HOOK void __tsan_write_range(void *address, size_t size) { emit_range(EVENT_WRITE, address, size, CALLER); }
HOOK void __tsan_read_range_pc(void *address, size_t size, void *site) { emit_range(EVENT_READ, address, size, (uintptr_t)site); }
HOOK void __tsan_write_range_pc(void *address, size_t size, void *site) { emit_range(EVENT_WRITE, address, size, (uintptr_t)site); }
HOOK void __tsan_external_read(void *address, void *site, void *tag) { (void)tag; emit_read(address, 1, (uintptr_t)site); }
HOOK void __tsan_external_write(void *address, void *site, void *tag) { (void)tag; emit_write(address, 1, (uintptr_t)site); }

HOOK void __tsan_vptr_read(void **address) { emit_read(address, sizeof *address, CALLER); }

/* A destructor stores its own table first, which is mostly the one that is there: nobody can see such a store. */
HOOK void __tsan_vptr_update(void **address, void *value)
{
    if (*address != value)
        emit_write(address, sizeof *address, CALLER);
}

/* ---- memcpy, memmove and memset ---- */

/* The compilers leave copies of whole objects to these functions of the runtime. The same functions are called by libraries that
 * aren't instrumented, and then they aren't recorded. So this library keeps where instrumented code lies: in the files that ask for a name
 * that begins with __tsan_. */
#define CODE_RANGES 256
static struct { uint64_t begin, end; } code[CODE_RANGES];
static atomic_uint code_count;

bool is_instrumented(uint64_t place)
{
    unsigned count = atomic_load_explicit(&code_count, memory_order_acquire);
    for (unsigned i = 0; i < count; i++)
        if (place >= code[i].begin && place < code[i].end)
            return true;
    return false;
}

/* What the dynamic loader knows of a file: the names that the file asks for stand first among its symbols. */
struct names {
    const ElfW(Sym) *symbols;
    const char *texts;
    uint32_t asked;
};

static struct names read_names(const struct dl_phdr_info *file, const ElfW(Dyn) *part)
{
    struct names names = {NULL, NULL, 0};
    for (; part->d_tag != DT_NULL; part++) {
        /* The loader has turned offsets into addresses, in most files. */
        uintptr_t at = part->d_un.d_ptr < file->dlpi_addr ? part->d_un.d_ptr + file->dlpi_addr : part->d_un.d_ptr;
        if (part->d_tag == DT_SYMTAB)
            names.symbols = (const ElfW(Sym) *)at;
        else if (part->d_tag == DT_STRTAB)
            names.texts = (const char *)at;
        else if (part->d_tag == DT_GNU_HASH)
            names.asked = ((const uint32_t *)at)[1];
        else if (part->d_tag == DT_HASH && !names.asked)
            names.asked = ((const uint32_t *)at)[1];
    }
    /* A file that offers no name has an empty table. Then the texts begin where the symbols end, as linkers lay them out. */
    if (names.asked <= 1 && (uintptr_t)names.texts > (uintptr_t)names.symbols)
        names.asked = (uint32_t)(((uintptr_t)names.texts - (uintptr_t)names.symbols) / sizeof *names.symbols);
    return names;
}

/* Whether a file asks for a name that begins so. */
static bool asks_for(const struct dl_phdr_info *file, const char *begin)
{
    struct names names = {NULL, NULL, 0};
    for (int i = 0; i < file->dlpi_phnum; i++)
        if (file->dlpi_phdr[i].p_type == PT_DYNAMIC)
            names = read_names(file, (const ElfW(Dyn) *)(file->dlpi_addr + file->dlpi_phdr[i].p_vaddr));
    for (uint32_t i = 1; names.symbols && names.texts && i < names.asked; i++)
        if (names.symbols[i].st_shndx == SHN_UNDEF && strncmp(names.texts + names.symbols[i].st_name, begin, strlen(begin)) == 0)
            return true;
    return false;
}

static void add_code(const struct dl_phdr_info *file)
{
    for (int i = 0; i < file->dlpi_phnum; i++) {
        uint64_t begin = file->dlpi_addr + file->dlpi_phdr[i].p_vaddr, end = begin + file->dlpi_phdr[i].p_memsz;
        unsigned count = atomic_load(&code_count);
        if (file->dlpi_phdr[i].p_type != PT_LOAD || !(file->dlpi_phdr[i].p_flags & PF_X) || count == CODE_RANGES || is_instrumented(begin))
            continue;
        code[count].begin = begin;
        code[count].end = end;
        atomic_store_explicit(&code_count, count + 1, memory_order_release);
    }
}

/* How many files were loaded and unloaded when they were looked at last. The loader's own lock protects this. */
static unsigned long long known_loads, known_unloads;

static int look_for_instrumented(struct dl_phdr_info *file, size_t size, void *nothing)
{
    (void)size, (void)nothing;
    return asks_for(file, "__tsan_init");
}

bool has_instrumented_file(void)
{
    return dl_iterate_phdr(look_for_instrumented, NULL) != 0;
}

static int look_at(struct dl_phdr_info *file, size_t size, void *is_changed)
{
    (void)size;
    if (!*(bool *)is_changed && file->dlpi_adds == known_loads && file->dlpi_subs == known_unloads)
        return 1;
    *(bool *)is_changed = true;
    known_loads = file->dlpi_adds;
    known_unloads = file->dlpi_subs;
    if (asks_for(file, "__tsan_"))
        add_code(file);
    if (is_ordering() && asks_for(file, "__tsan_atomic_thread_fence"))
        atomic_fetch_or(&attached->loads, LOADS_FOR_FENCES);
    return 0;
}

void note_files(bool is_new)
{
    dl_iterate_phdr(look_at, &is_new);
    if (is_new)
        emit_maps();
}

/* Every instrumented file calls this before its own code runs, also one that is loaded later. So the writer knows the file before it
 * meets a site in it. */
HOOK void __tsan_init(void)
{
    attach();
    if (is_recording())
        note_files(false);
}

static inline bool is_recorded_copy(uint64_t caller)
{
    return UNLIKELY(is_recording()) && is_instrumented(caller);
}

/* Byte by byte, for calls before the real functions can be found. */
static void copy_up(char *to, const char *from, size_t size)
{
    for (size_t i = 0; i < size; i++) {
        to[i] = from[i];
        __asm__ volatile("" ::: "memory"); /* else the compiler makes a call of memcpy from this */
    }
}

typedef void *copy_function(void *, const void *, size_t);
static copy_function *real_memcpy, *real_memmove;
static void *(*real_memset)(void *, int, size_t);

static __attribute__((constructor)) void find_copies(void)
{
    real_memmove = (copy_function *)dlsym(RTLD_NEXT, "memmove");
    real_memset = (void *(*)(void *, int, size_t))dlsym(RTLD_NEXT, "memset");
    real_memcpy = (copy_function *)dlsym(RTLD_NEXT, "memcpy");
}

static void *copy(void *to, const void *from, size_t size)
{
    if (LIKELY(real_memcpy != NULL))
        return real_memcpy(to, from, size);
    copy_up(to, from, size);
    return to;
}

static void *move(void *to, const void *from, size_t size)
{
    if (LIKELY(real_memmove != NULL))
        return real_memmove(to, from, size);
    if ((char *)to <= (const char *)from) {
        copy_up(to, from, size);
        return to;
    }
    while (size--) {
        ((char *)to)[size] = ((const char *)from)[size];
        __asm__ volatile("" ::: "memory");
    }
    return to;
}

static void *fill(void *to, int byte, size_t size)
{
    if (LIKELY(real_memset != NULL))
        return real_memset(to, byte, size);
    for (size_t i = 0; i < size; i++) {
        ((char *)to)[i] = (char)byte;
        __asm__ volatile("" ::: "memory");
    }
    return to;
}

static void emit_copy(void *to, const void *from, size_t size, uint64_t site)
{
    emit_range(EVENT_READ, from, size, site);
    emit_range(EVENT_WRITE, to, size, site);
}

HOOK void *memcpy(void *restrict to, const void *restrict from, size_t size)
{
    if (is_recorded_copy(CALLER))
        emit_copy(to, from, size, CALLER);
    return copy(to, from, size);
}

HOOK void *memmove(void *to, const void *from, size_t size)
{
    if (is_recorded_copy(CALLER))
        emit_copy(to, from, size, CALLER);
    return move(to, from, size);
}

HOOK void *memset(void *to, int byte, size_t size)
{
    if (is_recorded_copy(CALLER))
        emit_range(EVENT_WRITE, to, size, CALLER);
    return fill(to, byte, size);
}

HOOK void *__tsan_memcpy(void *to, const void *from, size_t size)
{
    emit_copy(to, from, size, CALLER);
    return copy(to, from, size);
}

HOOK void *__tsan_memmove(void *to, const void *from, size_t size)
{
    emit_copy(to, from, size, CALLER);
    return move(to, from, size);
}

HOOK void *__tsan_memset(void *to, int byte, size_t size)
{
    emit_range(EVENT_WRITE, to, size, CALLER);
    return fill(to, byte, size);
}
