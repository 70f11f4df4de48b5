/* Executes trapped vector GHASH and carry-less multiply instructions in a process on RISC-V; see trap.c. */
#ifndef TRAP_H
#define TRAP_H

#include <signal.h>

/* Installs trap_illegal for SIGILL. Returns 0, or -1 with errno. */
int trap_install(void);

/*
 * The handler, to be called from one of your own where you have one. Done: the registers hold what the instruction
 * writes, vstart is 0, and the pc is past it. Refused: everything is as it was and SIGILL has the action that it had
 * before trap_install, so that the instruction traps again and meets it; by default it ends the process.
 */
void trap_illegal(int number, siginfo_t *info, void *context);

#endif
