void add(unsigned *array, long times);
void race(void);
