/* Calls as data, done through strm.h. A register is a name. What a call must not touch is checked too. */
#ifndef FACE_H
#define FACE_H

#include "calls.h"

struct face {
	struct strm_pool pool;
	struct strm_msg registers[REGISTERS];	/* the last name that the register had */
	int holds[REGISTERS];
	int broken;				/* a call touched what it must not, or answered what it cannot */
};

/* Does a call, with the other pool for a call that hands a message to it. The model must not have answered with TAKEN. For an empty
 * register it passes a name that is not valid. */
struct reply face_apply(struct face *face, struct face *other, const struct call *call);

#endif
