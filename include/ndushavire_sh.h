/* ndushavire_sh.h: answers Diameter Sh requests over a subscriber table. It is the header of a second library, libndushavire_sh.a.
 *
 * Words. A UDR is a User-Data-Request (306) of the Sh interface, application 16777217, by which an application server, a voicemail box for one, asks
 * what is known of a line. It is the one request that is answered here. The rest is in ndushavire.h, which this header includes: B2001 and X2001, the
 * parts of a word (ndushavire_number, ndushavire_place, ndushavire_value, ndushavire_answered), the refusals' numbers and the limits.
 *
 * What is told. The registration state (Data-Reference 11) and the name of the call server (12) of one public identity, as a document in the XML of
 * 3GPP TS 29.328 in User-Data (702). SH.md fixes its bytes. Markup characters of a name are escaped; every other byte of it goes out as it is stored,
 * be it UTF-8 or not.
 *
 * Who owns what. As in ndushavire.h: all slices are lent for the length of the call, none is kept, none overlaps another, no pointer is null. The one
 * call here writes to the answer alone. Table and profile file are only read, so calls over one table may run at once, each with an answer buffer of
 * its own, and beside checks; but not while ndushavire_decide or anything else writes to that table.
 *
 * Two libraries in one daemon. A daemon that serves both interfaces links both archives, in any order, as `pkg-config --libs ndushavire_sh` has it: no
 * symbol is in both, and neither needs the other. By the application in a request's header it knows which of the two calls is meant, as
 * ndushavire_sh_meant says: 16777217 is for ndushavire_sh_decide, everything else for ndushavire_decide. Each answers the other's requests with B3001, unless
 * their header has a fault that goes before it, and alters nothing.
 *
 * Versions. Both libraries and both headers are of one version, NDUSHAVIRE_VERSION. ndushavire_version says that of the first archive; the second one has
 * no such call, so put in both together.
 *
 * Features. A UDR's Supported-Features (628) are skipped, whatever they hold, with M too: no answer here has a 628, and none is X5011. */
#ifndef NDUSHAVIRE_SH_H
#define NDUSHAVIRE_SH_H

#include <ndushavire.h>

#ifdef __cplusplus
extern "C" {
#endif

#define NDUSHAVIRE_SH_APPLICATION 16777217     /* Sh, in a message's header and for the daemon's Capabilities-Exchange */
#define NDUSHAVIRE_SH_USER_DATA_REQUEST 306    /* its command */
#define NDUSHAVIRE_SH_STATE 11                 /* a Data-Reference (703): IMSUserState, the registration state */
#define NDUSHAVIRE_SH_SERVER_NAME 12           /* another: SCSCFName, if a name is stored; every other one gets X5100 */

/* The registration state that is told, the number in IMSUserState. */
#define NDUSHAVIRE_SH_NOT_REGISTERED 0         /* state 0, not pending */
#define NDUSHAVIRE_SH_REGISTERED 1             /* state 1, pending or not */
#define NDUSHAVIRE_SH_UNREGISTERED 2           /* state 2: a call server holds the line, which is not registered */
#define NDUSHAVIRE_SH_AUTHENTICATION_PENDING 3 /* state 0, pending */

/* Answers one User-Data-Request and alters nothing but the answer. The word's value is the answer's length, and its place says which AVP of the request
 * is at fault, as with ndushavire_decide; the buffer's bytes past the answer stay as they were.
 * The word's number is 0; or one of the refusals 12, 1, 2, 3, 4 and 5 of ndushavire_decide, tried in this order, each given as it is there, with nothing
 * written. No vectors are lent, and no request is refused by 6. Of the profile file only its length counts, for 5. */
uint64_t ndushavire_sh_decide(const uint8_t *request, size_t request_len, const uint8_t *table, size_t table_len,
                              const uint8_t *profile, size_t profile_len, uint8_t *answer, size_t answer_len, uint32_t peer);

/* Whether a request of at least NDUSHAVIRE_REQUEST_MIN bytes is for ndushavire_sh_decide, by the application in its header. */
static inline int ndushavire_sh_meant(const uint8_t *request) {
    return ((uint32_t)request[8] << 24 | (uint32_t)request[9] << 16 | (uint32_t)request[10] << 8 | request[11]) == NDUSHAVIRE_SH_APPLICATION;
}

#ifdef __cplusplus
}
#endif

#endif
