/* Makes drawn calls on lwIP's pbufs. For each it prints the lines of a script that mean the same, with replies read from lwIP's memory.
 * A register is a reference that the caller has to a chain of pbufs.
 *
 *     lwip SEED ACTIONS
 */
#include "dice.h"

#include "lwip/memp.h"
#include "lwip/pbuf.h"
#include "lwip/priv/memp_priv.h"

#include <stdarg.h>
#include <stdio.h>
#include <stdlib.h>

/* The registers of references, a to y. Register z is for the lines in between. */
#define REGISTERS 25
#define BLOCKS 4095
#define MOST_BYTES 60000
#define PIECE 64
#define HEADER LWIP_MEM_ALIGN_SIZE(sizeof(struct pbuf))
#define HELPER LWIP_MEM_ALIGN_SIZE(sizeof(struct memp_malloc_helper))

static struct pbuf *held[REGISTERS];

/* Where new pbufs come from: chains of the pool of pbufs, or single ones from the heap. */
static pbuf_type source;

/* What the lines of the script are for: the name of lwIP's function, or `player` for a look at memory. */
static const char *caller;

/* Lines of the script */

static char name(int place)
{
    return 'a' + place;
}

static void tell(const char *reply, const char *format, ...)
{
    va_list values;
    printf(". %s ", caller);
    va_start(values, format);
    vprintf(format, values);
    va_end(values);
    printf(" | %s\n", reply);
}

static const char *hex(const u8_t *bytes, int size)
{
    static char text[2 * PIECE + 1];
    sprintf(text, "-");
    for (int k = 0; k < size; k++)
        sprintf(text + 2 * k, "%02x", bytes[k]);
    return text;
}

static void tell_write(char register_name, const u8_t *bytes, int size)
{
    for (int at = 0; at < size; at += PIECE)
        tell("ok", "write %c 0 %s", register_name, hex(bytes + at, size - at < PIECE ? size - at : PIECE));
}

/* What lwIP's memory says */

static const struct memp_desc *class_of(const struct pbuf *p)
{
    if (pbuf_match_type(p, PBUF_POOL))
        return memp_pools[MEMP_PBUF_POOL];
    return memp_pools[((const struct memp_malloc_helper *)((const u8_t *)p - HELPER))->poolnr];
}

static int is_of_pool(void)
{
    return source == PBUF_POOL;
}

/* The pools that are size classes in the script, and the bytes that a pbuf has in one. */
static int first_class(void)
{
    return is_of_pool() ? MEMP_PBUF_POOL : MEMP_POOL_FIRST;
}

static int last_class(void)
{
    return is_of_pool() ? MEMP_PBUF_POOL : MEMP_POOL_LAST;
}

static int capacity_in(const struct memp_desc *class)
{
    return class->size - HEADER - (is_of_pool() ? 0 : HELPER);
}

static int free_in(const struct memp_desc *class)
{
    return class->stats->avail - class->stats->used;
}

static int greatest(void)
{
    return capacity_in(memp_pools[last_class()]);
}

/* The capacity of the smallest class that fits a size. */
static int capacity_for(int size)
{
    int class = first_class();
    while (capacity_in(memp_pools[class]) < size)
        class++;
    return capacity_in(memp_pools[class]);
}

static int is_there_room(int size)
{
    for (int class = first_class(); class <= last_class(); class++)
        if (size <= capacity_in(memp_pools[class]) && free_in(memp_pools[class]) > 0)
            return 1;
    return 0;
}

static u8_t *base_of(const struct pbuf *p)
{
    return (u8_t *)p + HEADER;
}

static int room_in(const struct pbuf *p)
{
    return base_of(p) + capacity_in(class_of(p)) - ((u8_t *)p->payload + p->len);
}

/* How many references lead to a pbuf. */
static int names_of(const struct pbuf *p)
{
    int names = 0;
    for (int place = 0; place < REGISTERS; place++)
        for (const struct pbuf *other = held[place]; other; other = other->next)
            names += other == p;
    return names;
}

static const struct pbuf *last_of(const struct pbuf *p)
{
    while (p->next)
        p = p->next;
    return p;
}

/* Whether no other reference leads to any pbuf of a chain. A reference to any of them leads to the last one too. */
static int is_alone(int place)
{
    return names_of(last_of(held[place])) == 1;
}

static int blocks_held(void)
{
    int count = 0;
    for (int place = 0; place < REGISTERS; place++)
        count += held[place] ? pbuf_clen(held[place]) : 0;
    return count;
}

/* Drawn values */

/* A drawn register that holds a reference, or is free; -1 if there is none. */
static int draw_place(int is_held)
{
    int begin = below(REGISTERS);
    for (int k = 0; k < REGISTERS; k++) {
        int place = (begin + k) % REGISTERS;
        if ((held[place] != NULL) == is_held)
            return place;
    }
    return -1;
}

static int draw_size(void)
{
    return is_of_pool() ? below(400) : below(once_in(3) ? greatest() + 1 : 120);
}

static void draw_bytes(u8_t *bytes, int size)
{
    for (int k = 0; k < size; k++)
        bytes[k] = below(256);
}

/* Taking memory */

/* Prints the lines that make a chain in a register, block by block with its bytes. */
static void tell_chain(int place, const struct pbuf *p)
{
    char first = name(place);
    for (const struct pbuf *q = p; q; q = q->next) {
        char own = q == p ? first : 'z';
        tell("ok", "allocb %c %d", own, is_of_pool() ? greatest() : p->tot_len);
        tell_write(own, q->payload, q->len);
        if (q != p)
            tell("ok", "linkb %c z", first);
    }
}

/* Prints the lines for a chain that lwIP had no memory for: the blocks that are there are taken, one more is refused, and all are freed. */
static void tell_want(int place, int size, int blocks_there)
{
    char first = name(place);
    for (int k = 0; k < blocks_there; k++) {
        tell("ok", "allocb %c %d", k == 0 ? first : 'z', size);
        if (k > 0)
            tell("ok", "linkb %c z", first);
    }
    tell("refused 3 NoData", "allocb %c %d", blocks_there == 0 ? first : 'z', size);
    if (blocks_there > 0)
        tell("ok", "freemsg %c", first);
}

/* Prints the lines for a chain that lwIP made for `size` bytes, or had no memory for. Its pool had `free_before` free pbufs. */
static void tell_made(int place, struct pbuf *p, int size, int free_before)
{
    held[place] = p;
    if (p)
        tell_chain(place, p);
    else if (is_of_pool())
        tell_want(place, greatest(), free_before);
    else
        tell_want(place, size, 0);
}

static void allocate(int place)
{
    static u8_t bytes[MOST_BYTES];
    int size = draw_size(), free_before = free_in(memp_pools[last_class()]);
    struct pbuf *p = pbuf_alloc(PBUF_RAW, size, source);
    caller = "pbuf_alloc";
    draw_bytes(bytes, size);
    if (p)
        pbuf_take(p, bytes, size);
    tell_made(place, p, size, free_before);
}

/* Whether a copy is split into blocks as the original is. Each pbuf's bytes must begin where its memory does. From the pool of pbufs, each
 * but the last must be full. From the heap there must be one, in the class that a copy would get. */
static int is_split_alike(const struct pbuf *p)
{
    for (const struct pbuf *q = p; q; q = q->next)
        if (q->payload != base_of(q) || (q->next && (!is_of_pool() || q->len < greatest())))
            return 0;
    return is_of_pool() || capacity_for(p->tot_len) == capacity_in(class_of(p));
}

/* Whether lwIP sees one packet in a chain. To lwIP, a pbuf with all the bytes that are left is the last one of its packet. */
static int is_packet(const struct pbuf *p)
{
    return !p->next || last_of(p)->len > 0;
}

static void clone(int place, int to)
{
    struct pbuf *p = held[place];
    int free_before = free_in(memp_pools[last_class()]);
    if (!is_packet(p) || (!is_of_pool() && p->tot_len > greatest()))
        return;
    held[to] = pbuf_clone(PBUF_RAW, source, p);
    if (is_split_alike(p))
        tell(held[to] ? "ok" : "refused 3 NoData", "copymsg %c %c", name(place), name(to));
    else
        tell_made(to, held[to], p->tot_len, free_before);
}

/* Brings the bytes of all pbufs into a new one from the heap. */
static void coalesce(int place)
{
    struct pbuf *p = held[place];
    if (is_of_pool() || !p->next || !is_packet(p) || p->tot_len > greatest())
        return;
    held[place] = pbuf_coalesce(p, PBUF_RAW);
    tell(held[place] == p ? "refused 3 NoData" : "ok", "pullupmsg %c -1", name(place));
}

/* References and chains */

static void refer(int place, int to)
{
    if (held[place]->ref == 255 || names_of(last_of(held[place])) == 255)
        return;
    pbuf_ref(held[place]);
    held[to] = held[place];
    tell("ok", "dupmsg %c %c", name(place), name(to));
}

static void release(int place)
{
    pbuf_free(held[place]);
    held[place] = NULL;
    tell("ok", "freemsg %c", name(place));
}

static int can_join(int place, int tail)
{
    return place != tail && is_alone(place) && held[place]->tot_len + held[tail]->tot_len < MOST_BYTES;
}

static void concatenate(int place, int tail)
{
    if (!can_join(place, tail))
        return;
    pbuf_cat(held[place], held[tail]);
    held[tail] = NULL;
    tell("ok", "linkb %c %c", name(place), name(tail));
}

/* The caller keeps its reference to what is chained. */
static void chain(int place, int tail)
{
    if (!can_join(place, tail) || held[tail]->ref == 255 || names_of(last_of(held[tail])) == 255)
        return;
    pbuf_chain(held[place], held[tail]);
    tell("ok", "dupmsg %c z", name(tail));
    tell("ok", "linkb %c z", name(place));
}

/* Leaves only the first pbuf. The others lose the reference that they had from it. */
static void dechain(int place)
{
    int is_single = !held[place]->next;
    if (names_of(held[place]) > 1)
        return;
    pbuf_dechain(held[place]);
    tell(is_single ? "none" : "ok", "unlinkb %c z", name(place));
    if (!is_single)
        tell("ok", "freemsg z");
}

/* Taking bytes off */

/* Takes bytes off the first pbuf, or asks for more than the chain has. */
static void remove_header(int place)
{
    struct pbuf *p = held[place];
    int size = once_in(8) ? p->tot_len + 1 + below(40) : below(p->len + 1);
    if (names_of(p) > 1)
        return;
    tell(pbuf_remove_header(p, size) ? "refused 8 Short" : "ok", "adjmsg %c %d", name(place), size);
}

/* Takes bytes off the beginning, and frees the pbufs that have none left. */
static void free_header(int place)
{
    struct pbuf *p = held[place];
    int left = below(p->tot_len + 1), size = left;
    if (!is_alone(place))
        return;
    for (; p && left > 0 && left >= p->len; p = p->next) {
        left -= p->len;
        tell("ok", "freeb %c", name(place));
    }
    if (p && left > 0)
        tell("ok", "adjmsg %c %d", name(place), left);
    held[place] = pbuf_free_header(held[place], size);
}

/* Takes bytes off the end, and frees the pbufs after the one that is the last then. */
static void shrink(int place)
{
    struct pbuf *p = held[place];
    int before = pbuf_clen(p), size = p->tot_len, left = below(size + 1);
    if (!is_alone(place))
        return;
    pbuf_realloc(p, left);
    tell("ok", "adjmsg %c %d", name(place), left - size);
    if (left == size)
        return;
    for (int k = before - 1; k >= pbuf_clen(p); k--) {
        tell("ok", "rmvb %c %d z", name(place), k);
        tell("ok", "freemsg z");
    }
}

/* Overwrites the last bytes. */
static void overwrite(int place)
{
    struct pbuf *p = held[place];
    const struct pbuf *last = last_of(p);
    int size = below((last->len < PIECE ? last->len : PIECE) + 1);
    u8_t bytes[PIECE];
    if (size == 0 || !is_alone(place))
        return;
    draw_bytes(bytes, size);
    pbuf_take_at(p, bytes, size, p->tot_len - size);
    tell("ok", "adjmsg %c %d", name(place), -size);
    tell("ok", "write %c %d %s", name(place), pbuf_clen(p) - 1, hex(bytes, size));
}

/* Looking */

static void look_at_block(int place)
{
    int k = below(pbuf_clen(held[place]) + 1);
    const struct pbuf *p = held[place];
    char reply[128] = "refused 5 NoSuchBlock";
    for (int left = k; p && left > 0; left--)
        p = p->next;
    if (p)
        sprintf(reply, "block M_DATA len=%d band=0 room=%d names=%d", p->len, room_in(p), names_of(p));
    tell(reply, "block %c %d", name(place), k);
}

static void look_at_bytes(int place)
{
    u8_t bytes[PIECE];
    char reply[8 + 2 * PIECE];
    int at = below(held[place]->tot_len + 2);
    sprintf(reply, "bytes %s", hex(bytes, pbuf_copy_partial(held[place], bytes, PIECE, at)));
    tell(reply, "read %c %d", name(place), at);
}

static void look_at_size(int place)
{
    char reply[32];
    sprintf(reply, "size %d", held[place]->tot_len);
    tell(reply, "%s %c", once_in(2) ? "size" : "msgdsize", name(place));
}

static void look_around(void)
{
    char reply[64];
    int size = draw_size() % (greatest() + 1);
    caller = "player";
    tell(is_there_room(size) ? "yes" : "no", "testb %d", size);
    sprintf(reply, "census %d 0 %d", BLOCKS - blocks_held(), blocks_held());
    tell(reply, "census");
}

/* Actions */

static const struct {
    void (*act)(int place);
    int often;
    const char *caller;
} on_one[] = {
    {release, 10, "pbuf_free"}, {dechain, 3, "pbuf_dechain"}, {remove_header, 6, "pbuf_remove_header"},
    {free_header, 2, "pbuf_free_header"}, {shrink, 3, "pbuf_realloc"}, {overwrite, 4, "pbuf_take_at"}, {coalesce, 6, "pbuf_coalesce"},
    {look_at_block, 12, "player"}, {look_at_bytes, 12, "pbuf_copy_partial"}, {look_at_size, 6, "player"},
};

static void act_on_one(int place)
{
    int drawn = below(64), k = 0;
    while (drawn >= on_one[k].often)
        drawn -= on_one[k++].often;
    caller = on_one[k].caller;
    on_one[k].act(place);
}

static void act_on_two(int place, int other, int free)
{
    switch (below(5)) {
    case 0:
        caller = "pbuf_cat";
        concatenate(place, other);
        break;
    case 1:
        caller = "pbuf_chain";
        chain(place, other);
        break;
    case 2:
        caller = "pbuf_clone";
        if (free >= 0)
            clone(place, free);
        break;
    default:
        caller = "pbuf_ref";
        if (free >= 0)
            refer(place, free);
    }
}

static void act(void)
{
    int place = draw_place(1), free = draw_place(0);
    if (once_in(20))
        look_around();
    else if (free >= 0 && (place < 0 || once_in(4)))
        allocate(free);
    else if (once_in(3) && blocks_held() < BLOCKS / 2)
        act_on_two(place, draw_place(1), free);
    else
        act_on_one(place);
}

static void tell_header(void)
{
    printf("h pool 1 %d\n", BLOCKS);
    for (int class = first_class(); class <= last_class(); class++)
        printf("h class %d %d\n", capacity_in(memp_pools[class]), memp_pools[class]->num);
    puts("h queue 1 0 n -\nh bufcalls 0 1");
}

static void tell_report(void)
{
    printf("r blocks free=%d queued=0 held=%d total=%d\n", BLOCKS - blocks_held(), blocks_held(), BLOCKS);
    for (int class = first_class(); class <= last_class(); class++)
        printf("r data size=%d free=%d total=%d\n", capacity_in(memp_pools[class]), free_in(memp_pools[class]), memp_pools[class]->num);
    puts("r queue 0 msgs=0 bytes=0 read=1 noenable=0 enabled=0\nr run -\nr wishes -");
}

int main(int count, char **words)
{
    if (count != 3)
        return 64;
    seed_dice(atol(words[1]));
    source = once_in(2) ? PBUF_POOL : PBUF_RAM;
    memp_init();
    tell_header();
    for (int left = atoi(words[2]); left > 0; left--)
        act();
    tell_report();
    return 0;
}
