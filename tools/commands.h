/* The commands of `sheet`. Each is given the words after its name, and answers what the program ends with. */
#ifndef TOOLS_COMMANDS_H
#define TOOLS_COMMANDS_H

#include "say.h"

enum status archive_command(int argc, char **argv);
enum status dqt_command(int argc, char **argv);
enum status stitch_command(int argc, char **argv);
enum status batch_command(int argc, char **argv);
enum status one_command(int argc, char **argv);

#endif
