/* row.h: a row, the requests that a daemon answers together. They are decided over one another, in one call for each base standard that their peers
 * follow; what they altered is stored once, the vectors and then the table; then all of them are answered. What cannot be stored is undone, and none of the
 * row is answered: the peers ask again. */
#ifndef ROW_H
#define ROW_H

#include <ndushavire.h>

#include "files.h"

#ifndef ROW_MOST
#define ROW_MOST 64 /* requests at most, for which there is always room */
#endif

typedef struct Peer Peer;

/* A request of a row, and what came of it. */
typedef struct {
    Peer *peer;
    const uint8_t *request, *answer;
    size_t length;
    int alters;    /* whether it may alter something, */
    uint32_t hash; /* and then its hash, without what relays alter */
    uint64_t word;
} Asked;

/* The requests of those peers that follow one base standard: a call is for one. */
typedef struct {
    uint32_t edition;
    size_t count, length; /* the requests, and their bytes */
    Asked asked[ROW_MOST];
    uint8_t requests[ROW_MOST * NDUSHAVIRE_REQUEST_MAX], answers[ROW_MOST * NDUSHAVIRE_ANSWER_ROOM], words[ROW_MOST * NDUSHAVIRE_ROW_WORD];
} Part;

enum { EDITIONS = 2 };

typedef struct {
    Part part[EDITIONS];
    size_t count, most; /* the requests of both, and how many it takes now */
} Row;

/* Before the first request: an empty row. */
void make_row(Row *row);

/* Empties a row for the next requests. */
void clear_row(Row *row);

/* Adds a request, of which the row has its own copy. Its count is under its most. */
void add_to_row(Row *row, const Asked *asked, uint32_t edition);

/* Whether a request like this one is in the row, which may alter something: or one with the same hash, which costs nothing but a row. */
int is_in_row(const Row *row, uint32_t hash);

/* Decides the requests and stores what they altered. Unless it is UNDONE, each has its word, and its answer if it has one. */
Outcome settle_row(Row *row, Files *files, uint32_t features);

#endif
