/* sheet: what is done with sheets besides drawing one. */
#include "commands.h"
#include "file.h"
#include "sheet.h"

#include <stdio.h>
#include <string.h>

static const char usage[] =
    "usage: sheet COMMAND ..\n"
    "  sheet batch IN_DIR OUT_DIR [-j N] [--rows DIR] [--start] [--page N] [--partner]\n"
    "                                  every *.tsv of a folder to a picture, N processes; started again it does what is missing; DIR/summary.tsv,\n"
    "                                  DIR being OUT_DIR.rows where none is named; with --partner OUT_DIR can be sent as it is, DIR can't\n"
    "  sheet one IN.tsv OUT_DIR [--rows DIR] [--start] [--page N] [--partner]\n"
    "                                  one sheet as the batch does it, for GNU parallel or a Slurm array\n"
    "  sheet archive IN.tsv OUT.tape   the levels as the archive tapes store them\n"
    "  sheet archive --restore IN.tape LIKE.tsv OUT.tsv\n"
    "                                  a sheet with the lines of LIKE.tsv and the tape's levels\n"
    "  sheet dqt FILE.jpg              the quantisation tables of a JPEG file or of its DQT segment, a line for each destination\n"
    "  sheet dqt --export IN.tsv OUT   a sheet's tables as a DQT segment of 264 bytes\n"
    "  sheet stitch LEFT.tsv RIGHT.tsv OUT.tsv\n"
    "                                  two sheets that follow one another in time as one\n"
    "A file - is standard input or output.\n"
    "status: 0 done, 1 refused, 2 usage or a file that can't be read or written\n";

static const struct {
    const char *name;
    enum status (*run)(int argc, char **argv);
} commands[] = {{"batch", batch_command}, {"one", one_command}, {"archive", archive_command}, {"dqt", dqt_command}, {"stitch", stitch_command}};

int main(int argc, char **argv)
{
    program = "sheet";
    file_signals();
    if (argc == 2 && strcmp(argv[1], "--help") == 0)
        return fputs(usage, stdout) < 0 ? TROUBLE : DONE;
    if (library_fits() != DONE)
        return TROUBLE;
    for (size_t i = 0; argc > 1 && i < sizeof commands / sizeof *commands; i++)
        if (strcmp(argv[1], commands[i].name) == 0)
            return commands[i].run(argc - 2, argv + 2);
    return trouble("%s: no such command (--help)", argc > 1 ? argv[1] : "");
}
