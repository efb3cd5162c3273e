/* Calls that change nothing, with replies read from messages and queues. */
#include "line.h"

/* The most bytes of a reply. */
#define PIECE 64

static void look_at_size(mblk_t *mp, size_t size)
{
    BEGIN_CALL();
    END_CALL("size %s | size %zu", FROM(mp), size);
}

static void look_at_block(mblk_t *mp, const mblk_t *bp, int place)
{
    char reply[128] = "refused 5 NoSuchBlock";
    BEGIN_CALL();
    if (bp)
        sprintf(reply, "block %s len=%td band=%d room=%td names=%d", ddi_type_name(DB_TYPE(bp)), MBLKL(bp), bp->b_band, MBLKTAIL(bp), DB_REF(bp));
    END_CALL("block %s %d | %s", FROM(mp), place, reply);
}

/* Shows at most PIECE of the bytes from a place on. */
static void look_at_bytes(mblk_t *mp, const u_char *bytes, size_t at, size_t size)
{
    char reply[8 + 2 * PIECE] = "bytes -";
    BEGIN_CALL();
    for (size_t k = at; k < size && k < at + PIECE; k++)
        sprintf(reply + strlen("bytes ") + 2 * (k - at), "%02x", bytes[k]);
    END_CALL("read %s %zu | %s", FROM(mp), at, reply);
}

void look(mblk_t *mp)
{
    static u_char bytes[64 * STRM_MOST_DATA_BYTES];
    size_t size = ddi_copy_out(mp, bytes, sizeof bytes);
    int place = 0;
    look_at_size(mp, size);
    msgdsize(mp);
    for (const mblk_t *bp = mp; bp; bp = bp->b_cont)
        look_at_block(mp, bp, place++);
    look_at_block(mp, NULL, place);
    for (size_t at = 0; at <= size; at += PIECE)
        look_at_bytes(mp, bytes, at, size);
}

void each(void (*function)(queue_t *q))
{
    strhead_t *const heads[] = {control, network, line_stream};
    for (int k = 0; k < 3; k++)
        for (int place = 0; str_queue(heads[k], place); place++) {
            function(write_of(heads[k], place));
            function(read_of(heads[k], place));
        }
}

static void look_at_queue(queue_t *q)
{
    size_t hiwat, lowat;
    qsize(q);
    strqget(q, QHIWAT, 0, &hiwat);
    strqget(q, QLOWAT, 0, &lowat);
    BEGIN_CALL();
    END_CALL("strqget %s 0 | marks %zu %zu", ON(q), hiwat, lowat);
}

void look_around(void)
{
    struct strm_census census;
    each(look_at_queue);
    strm_census(&ddi_pools[0].pool, &census);
    BEGIN_CALL();
    END_CALL("census | census %u %u %u", census.free, census.queued, census.held);
}
