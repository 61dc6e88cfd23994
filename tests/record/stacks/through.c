/* C between two parts of a program in C++: an exception comes through, and no code of it is called then. */
void through(int times, void (*body)(void));

__attribute__((noinline)) void through(int times, void (*body)(void))
{
    char room[100];
    __asm__ volatile("" : : "r"(room) : "memory");
    if (times)
        through(times - 1, body);
    else
        body();
    __asm__ volatile("" : : "r"(room) : "memory");
}
