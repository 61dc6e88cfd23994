#include "functions.h"

#include <stdbool.h>
#include <stdlib.h>
#include <string.h>

#include "plain.h"
#include "trace.h"

/* What names have a part of: namespaces, classes and functions. They rise. */
struct scope {
    Dwarf_Off begin, end; /* of what is in it; end 0: where the outer one ends, or the unit */
    size_t outer;         /* NONE: the unit, or the class that was read by itself */
    Dwarf_Die die;
    struct scopes *inner; /* of a class, once somebody asks for them */
};
struct scopes {
    struct scope *all;
    size_t count, room;
};
#define NONE SIZE_MAX
/* The most parts of a name. */
#define MOST_SCOPES 32

/* The functions and scopes of a unit, read once: libdw would look through the whole unit for each place. The functions by rising begin, the outer one
 * first. */
struct unit {
    struct unit *next;
    const void *die;
    Dwarf_Files *files;
    struct function *all;
    size_t count, room;
    struct scopes scopes;
};
static struct unit *units;

/* ---- What is in a unit ---- */

static void add(struct unit *unit, struct function function)
{
    if (function.begin >= function.end)
        return;
    if (unit->count == unit->room) {
        unit->room = unit->room ? 2 * unit->room : 256;
        unit->all = get_memory(unit->all, unit->room * sizeof *unit->all);
    }
    unit->all[unit->count++] = function;
}

static Dwarf_Word number_of(Dwarf_Die *die, unsigned name)
{
    Dwarf_Attribute found;
    Dwarf_Word number = 0;
    return dwarf_formudata(dwarf_attr(die, name, &found), &number) == 0 ? number : 0;
}

static void add_function(struct unit *unit, Dwarf_Die *die, bool is_inlined)
{
    Dwarf_Addr base;
    struct function function = {.die = die->addr};
    for (ptrdiff_t at = 0; (at = dwarf_ranges(die, at, &base, &function.begin, &function.end)) > 0;) {
        if (is_inlined && !function.file) {
            function.file = unit->files ? dwarf_filesrc(unit->files, number_of(die, DW_AT_call_file), NULL, NULL) : NULL;
            function.line = (int)number_of(die, DW_AT_call_line);
        }
        add(unit, function);
    }
}

static size_t add_scope(struct scopes *scopes, Dwarf_Die *die, size_t outer)
{
    if (scopes->count == scopes->room) {
        scopes->room = scopes->room ? 2 * scopes->room : 256;
        scopes->all = get_memory(scopes->all, scopes->room * sizeof *scopes->all);
    }
    scopes->all[scopes->count] = (struct scope){dwarf_dieoffset(die), 0, outer, *die, NULL};
    return scopes->count++;
}

static bool may_have_code(int tag)
{
    return tag == DW_TAG_subprogram || tag == DW_TAG_lexical_block || tag == DW_TAG_inlined_subroutine || tag == DW_TAG_namespace;
}

static bool is_class(int tag)
{
    return tag == DW_TAG_class_type || tag == DW_TAG_structure_type || tag == DW_TAG_union_type;
}

static bool is_scope(int tag)
{
    return tag == DW_TAG_subprogram || tag == DW_TAG_namespace || is_class(tag);
}

static bool is_function(int tag)
{
    return tag == DW_TAG_subprogram || tag == DW_TAG_inlined_subroutine;
}

/* What is in a part of the unit, but for what is in classes, unless a function has them: functions have no code in others. Or what is in a class, and
 * then there is no unit. */
static void read_part(struct unit *unit, struct scopes *scopes, Dwarf_Die *part, size_t outer)
{
    Dwarf_Die die;
    size_t last = NONE;
    bool enters_classes = !unit || (outer != NONE && dwarf_tag(part) != DW_TAG_namespace);
    for (int more = dwarf_child(part, &die); more == 0; more = dwarf_siblingof(&die, &die)) {
        int tag = dwarf_tag(&die);
        if (last != NONE)
            scopes->all[last].end = dwarf_dieoffset(&die);
        last = is_scope(tag) && dwarf_haschildren(&die) ? add_scope(scopes, &die, outer) : NONE;
        if (unit && is_function(tag))
            add_function(unit, &die, tag == DW_TAG_inlined_subroutine);
        if ((unit && may_have_code(tag)) || (enters_classes && is_class(tag)))
            read_part(unit, scopes, &die, last == NONE ? outer : last);
    }
}

static int compare(const void *one, const void *other)
{
    const struct function *first = one, *second = other;
    if (first->begin != second->begin)
        return first->begin < second->begin ? -1 : 1;
    if (first->end != second->end)
        return first->end > second->end ? -1 : 1;
    /* Of the same code the outer one stands first in the debug information. */
    return first->die < second->die ? -1 : first->die > second->die;
}

/* Each lies in the last one before that has not ended. */
static void find_outer(struct unit *unit)
{
    struct function *outer = NULL;
    for (struct function *now = unit->all; now < unit->all + unit->count; now++) {
        while (outer && outer->end <= now->begin)
            outer = outer->outer;
        now->outer = outer;
        outer = now;
    }
}

static struct unit *get_unit(Dwarf_Die *die)
{
    for (struct unit *unit = units; unit; unit = unit->next)
        if (unit->die == die->addr)
            return unit;
    size_t count;
    struct unit *unit = get_memory(NULL, sizeof *unit);
    *unit = (struct unit){.next = units, .die = die->addr};
    if (dwarf_getsrcfiles(die, &unit->files, &count) != 0)
        unit->files = NULL;
    read_part(unit, &unit->scopes, die, NONE);
    if (unit->count)
        qsort(unit->all, unit->count, sizeof *unit->all, compare);
    find_outer(unit);
    units = unit;
    return unit;
}

size_t count_begun(const void *ranges, size_t count, size_t bytes, Dwarf_Addr place)
{
    size_t low = 0, high = count; /* all before `low` begin at or below the place, all from `high` on above it */
    while (low < high) {
        size_t middle = low + (high - low) / 2;
        const Dwarf_Addr *begin = (const void *)((const char *)ranges + middle * bytes);
        if (*begin <= place)
            low = middle + 1;
        else
            high = middle;
    }
    return low;
}

struct function *function_at(Dwarf_Die *die, Dwarf_Addr place)
{
    const struct unit *unit = get_unit(die);
    size_t begun = count_begun(unit->all, unit->count, sizeof *unit->all, place);
    struct function *found = begun ? &unit->all[begun - 1] : NULL;
    while (found && found->end <= place)
        found = found->outer;
    return found;
}

/* ---- Names ---- */

/* What stands behind the scope's begin is in it. */
static bool is_in(const struct scopes *scopes, const struct scope *scope, Dwarf_Off offset)
{
    while (!scope->end && scope->outer != NONE)
        scope = &scopes->all[scope->outer];
    return !scope->end || offset < scope->end;
}

static struct scope *scope_of(const struct scopes *scopes, Dwarf_Off offset)
{
    size_t begun = count_begun(scopes->all, scopes->count, sizeof *scopes->all, offset - 1);
    size_t at = begun ? begun - 1 : NONE;
    while (at != NONE && !is_in(scopes, &scopes->all[at], offset))
        at = scopes->all[at].outer;
    return at == NONE ? NULL : &scopes->all[at];
}

/* The innermost one around what stands in the debug information, or NULL. Most classes are never asked for. */
static struct scope *find_scope(Dwarf_Die *die)
{
    Dwarf_Die unit;
    Dwarf_Off offset = dwarf_dieoffset(die);
    struct scope *scope = dwarf_diecu(die, &unit, NULL, NULL) ? scope_of(&get_unit(&unit)->scopes, offset) : NULL;
    if (!scope || !is_class(dwarf_tag(&scope->die)))
        return scope;
    if (!scope->inner) {
        scope->inner = get_zeroed(NULL, 0, sizeof *scope->inner);
        read_part(NULL, scope->inner, &scope->die, NONE);
    }
    struct scope *inner = scope_of(scope->inner, offset);
    return inner ? inner : scope;
}

/* What stands where the scopes are: the declaration of a function, which its code may stand apart from. */
static Dwarf_Die declaration_of(Dwarf_Die die)
{
    Dwarf_Attribute found;
    for (unsigned i = 0; i < MOST_SCOPES; i++)
        if (!dwarf_formref_die(dwarf_attr(&die, DW_AT_abstract_origin, &found), &die) && !dwarf_formref_die(dwarf_attr(&die, DW_AT_specification, &found), &die))
            break;
    return die;
}

/* What gcc makes of a parallel region stands in the function that has it. */
static bool is_region(const char *part)
{
    return strstr(part, "._omp_fn.") != NULL;
}

/* The scopes of a name, from the outermost one on. A class without a name has no part, but clang's lambda is one. */
static void put_name(char *name, Dwarf_Die die, unsigned depth)
{
    Dwarf_Die declared = declaration_of(die);
    struct scope *scope = depth < MOST_SCOPES ? find_scope(&declared) : NULL;
    const char *part = dwarf_diename(&declared);
    if (scope)
        put_name(name, scope->die, depth + 1);
    if (scope && part && is_class(dwarf_tag(&scope->die)) && !dwarf_diename(&scope->die) && strncmp(part, "operator()", strlen("operator()")) == 0)
        part = "{lambda}";
    if (part && !(scope && is_region(part)))
        plain_add(name, part, strlen(part));
}

const char *function_name(Dwarf_Die *unit, struct function *function)
{
    Dwarf_Die die;
    if (!function)
        return "";
    if (!function->name) {
        char name[PLAIN_BYTES] = "";
        if (dwarf_die_addr_die(dwarf_cu_getdwarf(unit->cu), (void *)(uintptr_t)function->die, &die))
            put_name(name, die, 0);
        function->name = strcpy(get_memory(NULL, strlen(name) + 1), name);
    }
    return function->name;
}

static void free_scopes(struct scopes *scopes)
{
    for (size_t i = 0; i < scopes->count; i++)
        if (scopes->all[i].inner) {
            free_scopes(scopes->all[i].inner);
            free(scopes->all[i].inner);
        }
    free(scopes->all);
}

void functions_forget(void)
{
    while (units) {
        struct unit *unit = units;
        units = unit->next;
        for (size_t i = 0; i < unit->count; i++)
            free(unit->all[i].name);
        free(unit->all);
        free_scopes(&unit->scopes);
        free(unit);
    }
}
