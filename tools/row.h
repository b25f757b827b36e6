/* One sheet of a batch: its picture, and its row of the summary in a file of another folder, which says that the sheet is done. The row tells the text's size and the
 * time that it took: nothing of it goes into the pictures' folder, which may be sent to a partner. */
#ifndef TOOLS_ROW_H
#define TOOLS_ROW_H

#include "draw.h"

/* The summary's first line. */
extern const char row_head[];

struct one {
    char *in, *png, *row; /* files */
    struct drawing how;
};

/* The sheet's file is an input from now on: neither a picture nor a row is written over it, be it this one's or another's. */
struct one one_of(const char *in, const char *out_dir, const char *rows_dir, struct drawing how);
void one_free(struct one *o);

/* DONE or REFUSED where the sheet was done before, with these settings and from this very file, and its picture stands as it was drawn; else TROUBLE. *line becomes its
 * row, to be freed. */
enum status one_before(const struct one *o, char **line);

/* For a partner, removes the picture of a sheet that is to be drawn anew: it may be one for staff. */
void one_forget(const struct one *o);

/* Draws the sheet and writes picture and row, or the row alone where it is refused, which is not said. */
enum status one_draw(const struct one *o);

/* The row of a sheet that was not done, and why. */
char *row_not_done(const char *in, const char *why);

#endif
