#define _GNU_SOURCE
#include "variables.h"

#include <gelf.h>
#include <stdio.h>
#include <stdlib.h>
#include <string.h>

#include "sites.h"
#include "trace.h"

bool symbol_of(uint64_t address, char name[PLAIN_BYTES])
{
    const struct symbol *found = sites_variable(address);
    if (!found)
        return false;
    plain_symbol(found->name, name);
    if (address > found->begin) {
        size_t used = strlen(name);
        snprintf(name + used, PLAIN_BYTES - used, "_%llu", (unsigned long long)(address - found->begin));
    }
    return true;
}

/* ---- All variables ---- */

struct variables {
    size_t count, room;
    struct variable *all;
};

static bool is_writable(Elf *file, GElf_Word section)
{
    GElf_Shdr header;
    Elf_Scn *found = elf_getscn(file, section);
    return found && gelf_getshdr(found, &header) && header.sh_flags & SHF_WRITE;
}

static void add(struct variables *variables, struct variable variable)
{
    if (variables->count == variables->room) {
        variables->room = variables->room ? 2 * variables->room : 256;
        variables->all = get_memory(variables->all, variables->room * sizeof *variables->all);
    }
    variables->all[variables->count++] = variable;
}

/* Tables that a compiler makes for classes: `_ZTV4Pool`. Nobody writes to them. */
static bool is_of_class(const char *symbol)
{
    return strncmp(symbol, "_ZT", 3) == 0;
}

static int add_variables(Dwfl_Module *file, void **place, const char *name, Dwarf_Addr begin, void *variables)
{
    (void)place, (void)name, (void)begin;
    int count = sites_is_instrumented(file) ? dwfl_module_getsymtab(file) : 0;
    for (int i = 1; i < count; i++) {
        GElf_Sym symbol;
        GElf_Addr address;
        GElf_Word section;
        Elf *elf;
        const char *found = dwfl_module_getsym_info(file, i, &symbol, &address, &section, &elf, NULL);
        if (found && GELF_ST_TYPE(symbol.st_info) == STT_OBJECT && symbol.st_size && !is_of_class(found) && is_writable(elf, section))
            add(variables, (struct variable){address, symbol.st_size, found});
    }
    return DWARF_CB_OK;
}

static int compare(const void *one, const void *other)
{
    const struct variable *first = one, *second = other;
    if (first->address != second->address)
        return first->address < second->address ? -1 : 1;
    return strcmp(first->name, second->name);
}

void variables_each(void (*visit)(const struct variable *variable))
{
    char name[PLAIN_BYTES];
    struct variables variables = {0};
    Dwfl *all = sites_files();
    if (all)
        dwfl_getmodules(all, add_variables, &variables, 0);
    if (variables.count)
        qsort(variables.all, variables.count, sizeof *variables.all, compare);
    for (size_t i = 0; i < variables.count; i++) {
        const struct variable *found = &variables.all[i];
        if (i && found->address == found[-1].address)
            continue;
        plain_symbol(found->name, name);
        visit(&(struct variable){found->address, found->size, name});
    }
    free(variables.all);
}
