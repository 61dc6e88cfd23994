#define _GNU_SOURCE
#include "sites.h"

#include <dwarf.h>
#include <elfutils/libdwfl.h>
#include <gelf.h>
#include <stdio.h>
#include <stdlib.h>
#include <string.h>
#include <unistd.h>

#include "functions.h"
#include "plain.h"
#include "trace.h"

#define PATH_BYTES 4096

bool sites_have_paths, sites_have_callers;

static char *maps;
static size_t maps_bytes;
static Dwfl *files;
/* The file that was looked for last: most places are in it again. */
static struct {
    Dwarf_Addr begin, end;
    Dwfl_Module *file;
} last_file;

/* Sites that were looked up, by open addressing, at most half full. */
static struct site *table;
static size_t table_room, table_count;
/* Their texts stand in blocks of memory, each of which begins with a pointer to the one before. */
#define BLOCK_BYTES 65536
static char *block;
static size_t block_used;

/* ---- Files ---- */

static int free_facts(Dwfl_Module *file, void **place, const char *name, Dwarf_Addr begin, void *nothing);
static void forget_sources(void);

#define DEBUG_FOLDER "/usr/lib/debug"

/* Whether there is a file that has the debug information of another one, in one of the usual places. `link` is how that one calls it: if it doesn't, its
 * own name serves, with `.debug` behind it beside the file, and with it or without it in folders for such files. */
static bool has_link(const char *file, const char *link)
{
    static const char *const linked[] = {"%.*s/%s", "%.*s/.debug/%s", DEBUG_FOLDER "%.*s/%s"};
    static const char *const unlinked[] = {"%.*s/%s.debug", "%.*s/.debug/%s.debug", "%.*s/.debug/%s", DEBUG_FOLDER "%.*s/%s.debug", DEBUG_FOLDER "%.*s/%s"};
    const char *const *forms = link ? linked : unlinked;
    unsigned count = link ? sizeof linked / sizeof *linked : sizeof unlinked / sizeof *unlinked;
    char real[PATH_BYTES], path[2 * PATH_BYTES];
    bool is_there = false;
    if (!realpath(file, real))
        return false;
    const char *end = strrchr(real, '/');
    for (unsigned i = 0; i < count && !is_there; i++) {
        snprintf(path, sizeof path, forms[i], (int)(end - real), real, link ? link : end + 1);
        is_there = access(path, R_OK) == 0;
    }
    return is_there;
}

/* The same by the number that the linker has given to it. */
static bool has_build(Dwfl_Module *file)
{
    const unsigned char *number;
    GElf_Addr place;
    char path[256] = DEBUG_FOLDER "/.build-id/";
    int bytes = dwfl_module_build_id(file, &number, &place);
    size_t used = strlen(path);
    if (bytes < 2 || bytes > 64)
        return false;
    for (int i = 0; i < bytes; i++)
        used += (size_t)sprintf(path + used, i == 0 ? "%02x/" : "%02x", number[i]);
    strcpy(path + used, ".debug");
    return access(path, R_OK) == 0;
}

/* Of a file whose debug information is nowhere libdw would ask a server, and load thirty libraries for that, also if no server is named. */
static int find_debug(Dwfl_Module *file, void **place, const char *name, Dwarf_Addr begin, const char *path, const char *link, GElf_Word sum, char **found)
{
    const char *servers = getenv("DEBUGINFOD_URLS");
    bool may_be = (servers && *servers) || has_build(file) || (path && has_link(path, link));
    return may_be ? dwfl_standard_find_debuginfo(file, place, name, begin, path, link, sum, found) : -1;
}

static char *debug_path;
static const Dwfl_Callbacks callbacks = {
    .find_elf = dwfl_linux_proc_find_elf,
    .find_debuginfo = find_debug,
    .debuginfo_path = &debug_path,
};

/* Memory without a name that lies right behind that of a file is the file's own: what it has beside its contents, as variables that are 0 at first. So
 * the line of the file, which begins at `kept`, is given its end. */
static void join_line(char *kept, const char *line)
{
    size_t begin = strcspn(line, "-"), end = strcspn(line, " ");
    char *kept_end = kept + strcspn(kept, "-") + 1;
    size_t length = strcspn(kept_end, " ");
    if (length == begin && end == 2 * begin + 1 && memcmp(kept_end, line, begin) == 0)
        memcpy(kept_end, line + begin + 1, begin);
}

/* Keeps the lines of files: a heap that grows changes none of them. */
static size_t keep_files(char *text, size_t bytes)
{
    size_t kept = 0, last = SIZE_MAX;
    for (size_t at = 0; at < bytes;) {
        char *end = memchr(text + at, '\n', bytes - at);
        size_t length = end ? (size_t)(end - text) + 1 - at : bytes - at;
        if (memchr(text + at, '/', length) && !memmem(text + at, length, "/memfd:", 7)) {
            memmove(text + kept, text + at, length);
            last = kept;
            kept += length;
        } else if (end && last != SIZE_MAX && !memchr(text + at, '[', length))
            join_line(text + last, text + at);
        at += length;
    }
    return kept;
}

static void forget_sites(void)
{
    if (table)
        memset(table, 0, table_room * sizeof *table);
    table_count = 0;
    while (block) {
        char *before;
        memcpy(&before, block, sizeof before);
        free(block);
        block = before;
    }
    block_used = 0;
}

bool sites_set_maps(const char *text, size_t bytes)
{
    char *copy = get_memory(NULL, bytes + 1);
    memcpy(copy, text, bytes);
    bytes = keep_files(copy, bytes);
    if (maps && bytes == maps_bytes && memcmp(copy, maps, bytes) == 0) {
        free(copy);
        return false;
    }
    free(maps);
    maps = copy;
    maps_bytes = bytes;
    forget_sites();
    if (files) {
        functions_forget();
        forget_sources();
        dwfl_getmodules(files, free_facts, NULL, 0);
        dwfl_end(files);
    }
    files = NULL;
    last_file.file = NULL;
    return true;
}

/* The files are opened at the first look-up, and not at all by a program that has nothing to look up. */
Dwfl *sites_files(void)
{
    if (files || !maps_bytes)
        return files;
    FILE *text = fmemopen(maps, maps_bytes, "r");
    files = dwfl_begin(&callbacks);
    if (!text || !files) {
        fprintf(stderr, "record: no debug information can be read\n");
        maps_bytes = 0;
    } else {
        dwfl_report_begin(files);
        dwfl_linux_proc_maps_report(files, text);
        dwfl_report_end(files, NULL, NULL);
    }
    if (text)
        fclose(text);
    return files;
}

/* ---- Paths of sources ---- */

/* The folder whose files have shorter sites, once it is known: empty if there is none. */
static char root[PATH_BYTES];
static bool is_root_known;

/* Adds the parts of a path to one that has no `.` and no `..`. */
static void add_parts(char *to, const char *parts)
{
    while (*parts) {
        size_t length = strcspn(parts, "/"), used = strlen(to);
        if (length == 2 && strncmp(parts, "..", 2) == 0 && strrchr(to, '/'))
            *strrchr(to, '/') = 0;
        else if (length && !(length == 1 && *parts == '.') && used + length + 2 < PATH_BYTES)
            sprintf(to + used, "/%.*s", (int)length, parts);
        parts += length + (parts[length] == '/');
    }
}

/* The path of a file from the root of the file system on, or the name as it is if nobody knows its folder. */
static void whole_path(char *to, const char *folder, const char *name)
{
    to[0] = 0;
    if (*name != '/' && (!folder || *folder != '/')) {
        snprintf(to, PATH_BYTES, "%s", name);
        return;
    }
    if (*name != '/')
        add_parts(to, folder);
    add_parts(to, name);
}

void sites_set_root(const char *folder)
{
    char real[PATH_BYTES];
    whole_path(root, NULL, realpath(folder, real) ? real : folder);
    is_root_known = true;
}

static bool is_below(const char *path, const char *folder)
{
    size_t length = strlen(folder);
    return strncmp(path, folder, length) == 0 && path[length] == '/';
}

/* The folder of compilation: names of files that don't begin at the root are below it. */
static const char *folder_of(Dwarf_Die *unit)
{
    Dwarf_Attribute found;
    return dwarf_formstring(dwarf_attr(unit, DW_AT_comp_dir, &found));
}

static bool has_hook(Elf *file, Elf_Scn *symbols, GElf_Word names)
{
    GElf_Sym symbol;
    Elf_Data *all = elf_getdata(symbols, NULL);
    for (int i = 1; all && gelf_getsym(all, i, &symbol); i++) {
        const char *name = elf_strptr(file, names, symbol.st_name);
        if (name && symbol.st_shndx == SHN_UNDEF && strncmp(name, "__tsan_", 7) == 0)
            return true;
    }
    return false;
}

/* Whether a file asks the dynamic loader for names that begin with __tsan_. (libdw's look at its symbols would search for debug information of files
 * without any, which takes longer than to record a short program.) */
static bool asks_for_hooks(Dwfl_Module *file)
{
    GElf_Addr bias;
    GElf_Shdr header;
    Elf *elf = dwfl_module_getelf(file, &bias);
    for (Elf_Scn *section = NULL; elf && (section = elf_nextscn(elf, section)) != NULL;)
        if (gelf_getshdr(section, &header) && header.sh_type == SHT_DYNSYM && has_hook(elf, section, header.sh_link))
            return true;
    return false;
}

/* The folder that has this path and what it had before. */
static void widen_root(const char *path)
{
    size_t same = 0, length = (size_t)(strrchr(path, '/') - path);
    if (!is_root_known) {
        snprintf(root, sizeof root, "%.*s", (int)length, path);
        is_root_known = true;
        return;
    }
    while (root[same] && same < length && root[same] == path[same])
        same++;
    /* Both have a part that ends here, or one goes back to the end of the part before. */
    if ((root[same] && root[same] != '/') || (same < length && path[same] != '/'))
        while (same > 0 && root[--same] != '/')
            ;
    root[same] = 0;
}

/* Whose sources count: first those that don't belong to the system, and if there are none, those that are no headers of it. */
static const char *const systems[2][3] = {{"/usr", "/lib", "/lib64"}, {"/usr/include", "/usr/lib", "/usr/local/include"}};

static bool is_of_system(const char *path, int turn)
{
    return is_below(path, systems[turn][0]) || is_below(path, systems[turn][1]) || is_below(path, systems[turn][2]);
}

static int look_for_sources(Dwfl_Module *file, void **place, const char *name, Dwarf_Addr begin, void *turn)
{
    Dwarf_Addr bias;
    char path[PATH_BYTES];
    (void)place, (void)begin;
    if (is_of_system(name, *(int *)turn) || !asks_for_hooks(file))
        return DWARF_CB_OK;
    for (Dwarf_Die *unit = NULL; (unit = dwfl_module_nextcu(file, unit, &bias)) != NULL;) {
        const char *source = dwarf_diename(unit);
        if (!source || *source == '<')
            continue;
        whole_path(path, folder_of(unit), source);
        /* gcc links a piece of ThreadSanitizer's library into every program. */
        if (*path == '/' && !strstr(path, "/libsanitizer/") && !is_of_system(path, *(int *)turn))
            widen_root(path);
    }
    return DWARF_CB_OK;
}

/* It stays what it was when the first site was named, also if more files are loaded. */
static void find_root(Dwfl *all)
{
    for (int turn = 0; turn < 2 && !is_root_known; turn++)
        dwfl_getmodules(all, look_for_sources, &turn, 0);
    is_root_known = true;
}

/* ---- Program counters ---- */

/* Which compilation unit of a file has which places. gcc writes a table for this, which libdw reads; clang leaves it out, so it is made
 * here, once for each file, by rising begin. */
struct range {
    Dwarf_Addr begin, end, bias;
    Dwarf_Die *unit;
};
struct ranges {
    size_t count, room;
    struct range *all;
};

/* What was found out about a file. */
struct facts {
    bool has_ranges;
    char is_instrumented; /* 'y', 'n', or 0: not known */
    struct ranges ranges;
    struct symbols functions, variables;
};

static struct facts *get_facts(Dwfl_Module *file)
{
    void **place;
    dwfl_module_info(file, &place, NULL, NULL, NULL, NULL, NULL, NULL);
    if (!*place) {
        *place = get_zeroed(NULL, 0, sizeof(struct facts));
    }
    return *place;
}

bool sites_is_instrumented(Dwfl_Module *file)
{
    struct facts *facts = get_facts(file);
    if (!facts->is_instrumented)
        facts->is_instrumented = asks_for_hooks(file) ? 'y' : 'n';
    return facts->is_instrumented == 'y';
}

static void add_range(struct ranges *ranges, struct range range)
{
    if (ranges->count == ranges->room) {
        ranges->room = ranges->room ? 2 * ranges->room : 64;
        ranges->all = get_memory(ranges->all, ranges->room * sizeof *ranges->all);
    }
    ranges->all[ranges->count++] = range;
}

static int compare_begins(const void *one, const void *other)
{
    Dwarf_Addr first = ((const struct range *)one)->begin, second = ((const struct range *)other)->begin;
    return first < second ? -1 : first > second;
}

static const struct ranges *get_ranges(Dwfl_Module *file)
{
    struct facts *facts = get_facts(file);
    if (facts->has_ranges)
        return &facts->ranges;
    Dwarf_Addr base, begin, end, bias;
    for (Dwarf_Die *unit = NULL; (unit = dwfl_module_nextcu(file, unit, &bias)) != NULL;)
        for (ptrdiff_t at = 0; (at = dwarf_ranges(unit, at, &base, &begin, &end)) > 0;)
            add_range(&facts->ranges, (struct range){begin + bias, end + bias, bias, unit});
    if (facts->ranges.count)
        qsort(facts->ranges.all, facts->ranges.count, sizeof *facts->ranges.all, compare_begins);
    facts->has_ranges = true;
    return &facts->ranges;
}

static int free_facts(Dwfl_Module *file, void **place, const char *name, Dwarf_Addr begin, void *nothing)
{
    (void)file, (void)name, (void)begin, (void)nothing;
    struct facts *facts = *place;
    if (facts) {
        free(facts->ranges.all);
        free(facts->functions.all);
        free(facts->variables.all);
    }
    free(facts);
    return DWARF_CB_OK;
}

static Dwarf_Die *unit_of(Dwfl_Module *file, uint64_t place, Dwarf_Addr *bias)
{
    Dwarf_Die *unit = dwfl_module_addrdie(file, place, bias);
    if (unit)
        return unit;
    const struct ranges *ranges = get_ranges(file);
    size_t begun = count_begun(ranges->all, ranges->count, sizeof *ranges->all, place);
    if (begun == 0 || place >= ranges->all[begun - 1].end)
        return NULL;
    *bias = ranges->all[begun - 1].bias;
    return ranges->all[begun - 1].unit;
}

/* Code that a compiler merged from several lines has line 0. Then the line before serves, which is that of the same function nearly
 * always. */
static const char *line_of(Dwfl_Module *file, uint64_t place, int *number, const char **folder)
{
    Dwarf_Addr bias = 0;
    Dwarf_Die *unit = unit_of(file, place, &bias);
    *folder = unit ? folder_of(unit) : NULL;
    for (unsigned back = 0; unit && back < 64; back++) {
        Dwarf_Line *line = dwarf_getsrc_die(unit, place - bias - back);
        if (line && dwarf_lineno(line, number) == 0 && *number > 0)
            return dwarf_linesrc(line, NULL, NULL);
    }
    return NULL;
}

/* What stands behind the root in a path, or the path if the file isn't below the root. A compiler may have come there by a link. */
static const char *behind_root(const char *path)
{
    static char real[PATH_BYTES];
    if (!root[0] || is_below(path, root))
        return root[0] ? path + strlen(root) + 1 : path;
    return *path == '/' && realpath(path, real) && is_below(real, root) ? real + strlen(root) + 1 : path;
}

/* What a source of the debug information is called in sites. Of those that were looked up lately. */
#define RECENT_SOURCES 256
static struct source {
    const char *name, *folder;
    char *text;
    bool is_in_header; /* of the system */
} recent_sources[RECENT_SOURCES];

static void look_up_source(struct source *source, const char *name, const char *folder)
{
    char path[PATH_BYTES];
    whole_path(path, folder, name);
    if (!is_root_known)
        find_root(sites_files());
    const char *text = sites_have_paths ? name : behind_root(path);
    free(source->text);
    *source = (struct source){name, folder, strcpy(get_memory(NULL, strlen(text) + 1), text), is_below(path, "/usr/include") || is_below(path, "/usr/lib")};
}

static void forget_sources(void)
{
    for (unsigned i = 0; i < RECENT_SOURCES; i++)
        recent_sources[i].name = NULL;
}

/* True if it is a line in a header of the system. The names are the debug information's own, and go with it. */
static bool describe_line(const char *name, const char *folder, int number, char *text, size_t room)
{
    uint64_t key = (uint64_t)(uintptr_t)name + 31 * (uint64_t)(uintptr_t)folder;
    struct source *source = &recent_sources[key * UINT64_C(0x9e3779b97f4a7c15) >> 56];
    if (source->name != name || source->folder != folder)
        look_up_source(source, name, folder);
    snprintf(text, room, "%s:%d", source->text, number);
    return source->is_in_header;
}

static Dwfl_Module *file_of(uint64_t place)
{
    if (last_file.file && place >= last_file.begin && place < last_file.end)
        return last_file.file;
    Dwfl *all = sites_files();
    last_file.file = all ? dwfl_addrmodule(all, place) : NULL;
    if (last_file.file)
        dwfl_module_info(last_file.file, NULL, &last_file.begin, &last_file.end, NULL, NULL, NULL, NULL);
    return last_file.file;
}

static bool describe(uint64_t place, char *text, size_t room)
{
    Dwfl_Module *file = file_of(place);
    int number = 0;
    /* The call stands before the place that it returns to. */
    const char *folder, *name = file ? line_of(file, place - 1, &number, &folder) : NULL;
    if (name)
        return describe_line(name, folder, number, text, room);
    Dwarf_Addr begin = 0;
    name = file ? dwfl_module_info(file, NULL, &begin, NULL, NULL, NULL, NULL, NULL) : NULL;
    const char *base = name ? strrchr(name, '/') : NULL;
    if (name)
        snprintf(text, room, "%s_0x%llx", base ? base + 1 : name, (unsigned long long)(place - 1 - begin));
    else
        snprintf(text, room, "unknown_0x%llx", (unsigned long long)(place - 1));
    return false;
}

static void *keep(const void *text, size_t bytes)
{
    if (!block || block_used + bytes > BLOCK_BYTES) {
        char *before = block;
        block = get_memory(NULL, BLOCK_BYTES);
        memcpy(block, &before, sizeof before);
        block_used = sizeof before;
    }
    void *kept = block + block_used;
    memcpy(kept, text, bytes);
    block_used += bytes;
    return kept;
}

static struct site *find(uint64_t place)
{
    size_t at = (size_t)((place * UINT64_C(0x9e3779b97f4a7c15)) >> 20) & (table_room - 1);
    while (table[at].text && table[at].place != place)
        at = (at + 1) & (table_room - 1);
    return &table[at];
}

static void grow(void)
{
    struct site *old = table;
    size_t count = table_room;
    table_room = count ? 2 * count : 4096;
    table = get_zeroed(NULL, 0, table_room * sizeof *table);
    for (size_t i = 0; i < count; i++)
        if (old[i].text)
            *find(old[i].place) = old[i];
    free(old);
}

const struct symbol *sites_variable(uint64_t address)
{
    Dwfl *all = sites_files();
    Dwfl_Module *file = all ? dwfl_addrmodule(all, address) : NULL;
    return file ? symbols_find(&get_facts(file)->variables, file, STT_OBJECT, address) : NULL;
}

bool sites_has_instrumented(uint64_t place)
{
    Dwfl_Module *file = file_of(place);
    return file && sites_is_instrumented(file);
}

bool sites_is_recorder(uint64_t place)
{
    Dwfl_Module *file = file_of(place);
    const char *path = file ? dwfl_module_info(file, NULL, NULL, NULL, NULL, NULL, NULL, NULL) : NULL;
    const char *base = path ? strrchr(path, '/') : NULL;
    return base && strcmp(base, "/libtsan.so.2") == 0;
}

static struct site new_site(const char *text, bool is_in_header)
{
    char name[NAME_BYTES + 2];
    name[0] = ' ';
    size_t bytes = 1 + legal_site(name + 1, text);
    return (struct site){.text = keep(name, bytes), .bytes = (uint32_t)bytes, .is_in_header = is_in_header, .function = ""};
}

static const char *keep_name(const char *text)
{
    char name[NAME_BYTES + 1];
    size_t bytes = legal_site(name, text);
    return bytes ? keep(name, bytes + 1) : "";
}

/* The sites of the calls of functions that were inlined, from the innermost one on. */
static const struct site *callers_of(struct function *inlined, Dwarf_Die *unit)
{
    char text[8192];
    if (!inlined || !inlined->file)
        return NULL;
    struct site site = new_site(text, describe_line(inlined->file, folder_of(unit), inlined->line, text, sizeof text));
    site.is_instrumented = true;
    site.function = keep_name(function_name(unit, inlined->outer));
    site.caller = callers_of(inlined->outer, unit);
    block_used = (block_used + _Alignof(struct site) - 1) & ~(_Alignof(struct site) - 1);
    return keep(&site, sizeof site);
}

/* Of code without debug information the symbols say it. */
static const char *name_by_symbol(Dwfl_Module *file, uint64_t place)
{
    char name[PLAIN_BYTES] = "";
    const struct symbol *found = symbols_find(&get_facts(file)->functions, file, STT_FUNC, place);
    if (found)
        plain_symbol(found->name, name);
    return keep_name(name);
}

static void find_function(struct site *site, uint64_t place)
{
    Dwarf_Addr bias = 0;
    Dwfl_Module *file = sites_have_callers ? file_of(place) : NULL;
    if (!file || !sites_is_instrumented(file))
        return;
    Dwarf_Die *unit = unit_of(file, place, &bias);
    struct function *function = unit ? function_at(unit, place - bias) : NULL;
    site->function = function ? keep_name(function_name(unit, function)) : name_by_symbol(file, place);
    site->caller = callers_of(function, unit);
}

const struct site *site_of(uint64_t place)
{
    if (2 * table_count >= table_room)
        grow();
    struct site *site = find(place);
    if (!site->text) {
        char text[8192];
        struct site new = new_site(text, describe(place, text, sizeof text));
        new.place = place;
        new.is_instrumented = sites_has_instrumented(place);
        find_function(&new, place - 1);
        *site = new;
        table_count++;
    }
    return site;
}
