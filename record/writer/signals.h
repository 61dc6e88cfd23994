/* The signals that end programs, as the recorder takes them and as its children get them. */
#ifndef ERASER_SIGNALS_H
#define ERASER_SIGNALS_H

/* A terminal sends its interrupt to all of them: `interrupt` is called for it. `pass_on` is called for a signal that is meant for the program.
 * What is ignored already, as `nohup` and shells arrange for what runs in the background, stays ignored. */
void signals_set(void (*interrupt)(int), void (*pass_on)(int));
/* They end whoever gets them again, but for those that were ignored. */
void signals_reset(void);

#endif
