/* taking.h: a new table that is put beside the live one, as table.next, and taken over block by block while the daemon serves. Each block is on
 * disk before the next is written. Meanwhile what alters nothing is answered from the old table, which is whole in memory, and what may alter
 * something waits; then the new table is taken over in memory too, and all are served from it. Whenever the daemon is killed, the table on
 * disk is the old one, the new one, or one that is refused: then the next start says what to do. Nothing is ever answered from half a table. */
#ifndef TAKING_H
#define TAKING_H

#include "files.h"

/* Looks for a new table beside ours, unless it was declined before, nobody has touched it since then, and that was a moment ago. */
void look_for_next(Files *files);

/* Goes on with a take-over, and ends it if END says so. */
void go_on_taking(Files *files, int end);

/* At a start, over a table that is unsound: a new table beside it mends it, if it is taken over. Else what is wrong is said, and what to do. */
const char *mend_table(Files *files, const char *bad);

#endif
