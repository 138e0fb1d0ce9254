/* What the ground of the programs consists of on a processor that has no C library here: common.c has the functions
 * of sys.h that are the same everywhere, helpers.c what the compiler calls by itself; each machine has the others, and
 * where a program starts: linux.c under a Linux emulator, cortex_m.c on a bare board. */
#ifndef MACHINE_H
#define MACHINE_H

#include "sys.h"

#include <stdint.h>

int main(int argc, char **argv);

#endif
