/* Which calls the library has. Each line becomes 1 when its request has landed in include/smoother.h; the assertions in sheet.c say where one is forgotten. */
#ifndef TOOLS_FEATURES_H
#define TOOLS_FEATURES_H

#define HAVE_HOLD 1    /* M-108: line H, three held counts among a sheet's numbers, refusal 17 */
#define HAVE_PARTNER 1 /* M-110: lines N, the reader as a parameter of smoother_read, refusal 18 */
#define HAVE_STITCH 1  /* M-107: smoother_stitch_measure and smoother_stitch, refusal 16 */

/* What is said where a feature is asked for that the library has not. */
#define NO_FEATURE "%s: the library that these tools were built with has no such call yet"

#endif
