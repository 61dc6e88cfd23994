#include "symbols.h"

#include <gelf.h>
#include <stdlib.h>
#include <string.h>

#include "functions.h"
#include "trace.h"

/* Of several names of one place a global one counts most, then a weak one. */
static int rank_of(const GElf_Sym *symbol)
{
    int binding = GELF_ST_BIND(symbol->st_info);
    return binding == STB_GLOBAL ? 2 : binding == STB_WEAK;
}

/* Of several symbols at one place the last one counts: libdw's choice. */
static int compare(const void *one, const void *other)
{
    const struct symbol *first = one, *second = other;
    if (first->begin != second->begin)
        return first->begin < second->begin ? -1 : 1;
    return first->rank != second->rank ? first->rank - second->rank : strcmp(second->name, first->name);
}

static void read_symbols(struct symbols *symbols, Dwfl_Module *file, int type)
{
    int count = dwfl_module_getsymtab(file);
    Dwarf_Addr reach = 0;
    symbols->all = count > 0 ? get_memory(NULL, (size_t)count * sizeof *symbols->all) : NULL;
    for (int i = 1; i < count; i++) {
        GElf_Sym symbol;
        GElf_Addr begin;
        const char *name = dwfl_module_getsym_info(file, i, &symbol, &begin, NULL, NULL, NULL);
        if (name && *name && GELF_ST_TYPE(symbol.st_info) == type && symbol.st_size && symbol.st_shndx != SHN_UNDEF)
            symbols->all[symbols->count++] = (struct symbol){begin, begin + symbol.st_size, 0, name, rank_of(&symbol)};
    }
    if (symbols->count)
        qsort(symbols->all, symbols->count, sizeof *symbols->all, compare);
    for (size_t i = 0; i < symbols->count; i++) {
        reach = symbols->all[i].end > reach ? symbols->all[i].end : reach;
        symbols->all[i].reach = reach;
    }
    symbols->is_read = true;
}

const struct symbol *symbols_find(struct symbols *symbols, Dwfl_Module *file, int type, Dwarf_Addr address)
{
    if (!symbols->is_read)
        read_symbols(symbols, file, type);
    for (size_t at = count_begun(symbols->all, symbols->count, sizeof *symbols->all, address); at > 0 && address < symbols->all[at - 1].reach; at--)
        if (address < symbols->all[at - 1].end)
            return &symbols->all[at - 1];
    return NULL;
}
