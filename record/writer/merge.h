/* The reports of several runs of a command in one: of each site in how many runs it was reported. */
#ifndef ERASER_MERGE_H
#define ERASER_MERGE_H

/* Writes it to the place of the report, of the reports that are files. */
void merge_reports(void);

#endif
