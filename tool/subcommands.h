/* The subcommands, a file each. */
#ifndef SUBCOMMANDS_H
#define SUBCOMMANDS_H

#include "options.h"

extern const struct subcommand run_subcommand, show_subcommand, diff_subcommand,
    assemble_subcommand, list_subcommand, currents_subcommand, plan_subcommand;

#endif
