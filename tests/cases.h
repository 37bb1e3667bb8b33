/* The lists that document 01 works out: cases A to J, figure 1 of document 000, the full second, count 65. Assumes nothing. */
#ifndef CASES_H
#define CASES_H

/* Holds the library and the second planner to each of them; ends the run with status 1 where one differs. Returns how many there are. */
int hold_cases(void);
#endif
