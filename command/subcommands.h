/* subcommands.h: the five things that the command does. Each takes the words behind its own name and gives a status. */
#ifndef SUBCOMMANDS_H
#define SUBCOMMANDS_H

#include "status.h"

enum status check_run(int count, char **words);
enum status list_run(int count, char **words);
enum status show_run(int count, char **words);
enum status draw_run(int count, char **words);
enum status stats_run(int count, char **words);

#endif
