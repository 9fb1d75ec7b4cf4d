/* Runs of random instructions: the leaping run of the library against the peer, instruction after instruction. */
#ifndef RUNS_H
#define RUNS_H

#include "cases.h"

/* Compares so many runs and prints how many instructions they had. Ends the program with 1 at a difference. */
void compare_runs(unsigned runs, struct random *random);

#endif
