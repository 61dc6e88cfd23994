// What gives memory back: each marked line stands in the trace as the place at which memory gets a new use. The C library gives back the block of
// `grows` itself, and that has no place.
#include <cstdio>
#include <cstdlib>
#include <cstring>
#include <memory>
#include <sys/mman.h>

static const size_t page = 4096;

// Otherwise a compiler may leave out what takes memory and gives it back.
template <class Block> static Block *keep(Block *block)
{
    __asm__ volatile("" : : "r"(block) : "memory");
    return block;
}

static char *map()
{
    auto *block = static_cast<char *>(mmap(nullptr, 2 * page, PROT_READ | PROT_WRITE, MAP_PRIVATE | MAP_ANONYMOUS, -1, 0));
    block[0] = block[page] = 1;
    return block;
}

static char *take(size_t bytes)
{
    auto *block = static_cast<char *>(malloc(bytes));
    block[0] = block[bytes - 1] = 1;
    return keep(block);
}

struct Owner {
    int *words;
    Owner() : words(keep(new int[4])) { words[1] = 1; }
    ~Owner()
    {
        delete[] words; // GIVES
    }
};

static bool grows()
{
    size_t room = 4;
    char *line = take(room);
    FILE *text = fmemopen(const_cast<char *>("a line of more than four bytes\n"), 31, "r");
    bool is_read = getline(&line, &room, text) == 31;
    line[0] = 2;
    fclose(text);
    free(line); // GIVES
    return is_read;
}

int main()
{
    free(take(100)); // GIVES
    char *block = take(100);
    block = static_cast<char *>(realloc(block, 100000)); // GIVES
    block[99999] = 1;
    keep(block);
    block = keep(static_cast<char *>(realloc(block, 100))); // GIVES
    block[99] = 1;
    block = keep(static_cast<char *>(reallocarray(block, 10, 100))); // GIVES
    block[999] = 1;
    free(block); // GIVES
    auto *word = keep(new int(1));
    delete word; // GIVES
    char *mapped = map();
    mapped = static_cast<char *>(mremap(mapped, 2 * page, page, 0)); // GIVES
    munmap(mapped, page); // GIVES
    Owner owner;
    return grows() ? 0 : 1;
}
