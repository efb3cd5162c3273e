/* Has ppp's STREAMS modules do drawn work.
 *
 *     ppp SEED ACTIONS
 */
#include "dice.h"
#include "line.h"
#include "packets.h"

#include <sys/dlpi.h>
#include <net/ppp_defs.h>
#include <net/ppp-comp.h>
#include <net/pppio.h>

static int links_left = 4;
static int is_compressing;

/* Messages that the network layer keeps until they are acknowledged. */
#define KEPT 3
static mblk_t *kept[KEPT];

/* Messages */

/* A message with these bytes, in one block or a few; null if out of memory. */
static mblk_t *message(const void *from, int size)
{
    const u_char *bytes = from;
    mblk_t *first = NULL;
    do {
        int part = size > 1 && once_in(3) ? 1 + below(size - 1) : size;
        mblk_t *mp = allocb(part + (once_in(3) ? below(40) : 0), BPRI_MED);
        if (!mp) {
            freemsg(first);
            return NULL;
        }
        memcpy(mp->b_wptr, bytes, part);
        mp->b_wptr += part;
        if (first)
            linkb(first, mp);
        else
            first = mp;
        bytes += part;
        size -= part;
    } while (size > 0);
    return first;
}

/* A message whose first block has a structure and a type, followed by another message; null if out of memory. */
static mblk_t *headed(int type, const void *head, int size, mblk_t *behind)
{
    mblk_t *mp = allocb(size, BPRI_MED);
    if (!mp) {
        freemsg(behind);
        return NULL;
    }
    memcpy(mp->b_wptr, head, size);
    mp->b_wptr += size;
    mp->b_datap->db_type = type;
    mp->b_cont = behind;
    return mp;
}

static void send_down(strhead_t *head, mblk_t *mp)
{
    if (mp)
        put(write_of(head, HEAD), mp);
}

static void send_ioctl(strhead_t *head, int command, const void *data, int size)
{
    static uint number;
    struct iocblk block;
    mblk_t *behind = data ? headed(M_DATA, data, size, NULL) : NULL;
    memset(&block, 0, sizeof block);
    block.ioc_cmd = command;
    block.ioc_id = ++number;
    block.ioc_count = size;
    send_down(head, headed(M_IOCTL, &block, sizeof block, behind));
}

static void send_number(strhead_t *head, int command, int number)
{
    send_ioctl(head, command, &number, sizeof number);
}

static void send_pair(strhead_t *head, int command, int one, int other)
{
    int pair[2] = {one, other};
    send_ioctl(head, command, pair, sizeof pair);
}

static void request(int primitive, uint value)
{
    uint words[4] = {primitive, value, DL_CLDLS, 0};
    send_down(network, headed(M_PROTO, words, sizeof words, NULL));
}

/* Actions */

static void write_control(void)
{
    u_char bytes[MOST_PACKET];
    if (bcanput(write_of(control, HEAD), 0))
        send_down(control, message(bytes, draw_control_packet(bytes)));
}

static void let_go(int place)
{
    if (kept[place])
        look(kept[place]);
    freemsg(kept[place]);
    kept[place] = NULL;
}

static void let_one_go(void)
{
    let_go(below(KEPT));
}

static void keep(mblk_t *mp)
{
    int place = below(KEPT);
    let_go(place);
    kept[place] = dupmsg(mp);
}

static void write_network(void)
{
    u_char bytes[MOST_PACKET];
    uint words[4] = {DL_UNITDATA_REQ, 0, 0, 0};
    mblk_t *mp = message(bytes, draw_network_packet(bytes));
    if (mp)
        mp = headed(M_PROTO, words, sizeof words, mp);
    if (mp && once_in(3))
        keep(mp);
    send_down(network, mp);
}

static void write_many(void)
{
    for (int count = below(16); count > 0; count--)
        write_network();
}

static void draw_frame(void)
{
    u_char packet[MOST_PACKET];
    if (line.size + MOST_FRAME <= (int)sizeof line.bytes)
        line.size += framed(line.bytes + line.size, packet, draw_packet_of_peer(packet));
}

/* Receives some bytes of the line, if they can be passed on. */
static void receive(void)
{
    int size = 1 + below(200);
    mblk_t *mp;
    if (line.size < size)
        draw_frame();
    if (size > line.size)
        size = line.size;
    if (size == 0 || !bcanput(read_of(line_stream, TERMINAL)->q_next, 0))
        return;
    mp = message(line.bytes, size);
    line.size -= size;
    memmove(line.bytes, line.bytes + size, line.size);
    if (mp)
        putnext(read_of(line_stream, TERMINAL), mp);
}

static void serve_some(void)
{
    for (int count = 1 + below(4); count > 0; count--)
        serve_next();
}

/* Reads a message of a stream, if there is one. */
static int read_from(strhead_t *head)
{
    mblk_t *mp = getq(read_of(head, HEAD));
    if (mp) {
        look(mp);
        freemsg(mp);
    }
    return mp != NULL;
}

static void read_control(void)
{
    read_from(control);
}

static void read_network(void)
{
    read_from(network);
}

static void read_all(void)
{
    while (read_from(control))
        ;
    while (read_from(network))
        ;
}

static void set_flags(void)
{
    int bits = COMP_AC | DECOMP_AC | COMP_PROT | DECOMP_PROT | COMP_VJC | DECOMP_VJC;
    send_pair(control, PPPIO_CFLAGS, once_in(4) ? below(256) & bits : bits, bits);
}

static void set_maps(void)
{
    if (once_in(2))
        send_number(control, PPPIO_XACCM, below(2) * 0x000a0000);
    else
        send_number(control, PPPIO_RACCM, below(2) * 0x000a0000);
}

static void set_sizes(void)
{
    static const int sizes[] = {1500, 1500, 296, 4000, 60000};
    send_number(control, once_in(2) ? PPPIO_MRU : PPPIO_MTU, sizes[below(5)]);
}

static void ask(void)
{
    static const int commands[] = {PPPIO_GETSTAT, PPPIO_GETCSTAT, PPPIO_GIDLE, PPPIO_GCLEAN, PPPIO_LASTMOD, PPPIO_BIND};
    send_ioctl(once_in(4) ? network : control, commands[below(6)], NULL, 0);
}

static void set_mode(void)
{
    send_pair(control, PPPIO_NPMODE, PPP_IP, once_in(3) ? below(4) : NPMODE_PASS);
}

/* Has both directions allocate memory for compression, and agrees to it as a peer would: the driver sees its own message come back.
 * This is done once in a script: the second time, bsd-comp.c would use new memory that it has not initialized. */
static void begin_compression(void)
{
    static const u_char option[] = {CI_BSD_COMPRESS, CILEN_BSD_COMPRESS, BSD_MAKE_OPT(BSD_CURRENT_VERSION, 12)};
    u_char agreed[] = {PPP_ALLSTATIONS, PPP_UI, PPP_CCP >> 8, PPP_CCP & 255, CCP_CONFACK, 1, 0, CCP_HDRLEN + sizeof option, 0, 0, 0};
    if (is_compressing)
        return;
    is_compressing = 1;
    memcpy(agreed + sizeof agreed - sizeof option, option, sizeof option);
    send_ioctl(control, PPPIO_XCOMP, option, sizeof option);
    send_ioctl(control, PPPIO_RCOMP, option, sizeof option);
    send_pair(control, PPPIO_CFLAGS, CCP_ISOPEN, CCP_ISOPEN | CCP_ISUP);
    send_down(control, message(agreed, sizeof agreed));
}

static void use_compression(void)
{
    send_pair(control, PPPIO_CFLAGS, CCP_ISUP, CCP_ISUP);
}

static void reset_header_compression(void)
{
    static const u_char slots[2] = {15, 15};
    send_ioctl(control, PPPIO_VJINIT, slots, sizeof slots);
}

/* Sends a primitive of the network layer, in an order that may be wrong. */
static void change_state(void)
{
    static const int primitives[] = {DL_INFO_REQ, DL_ATTACH_REQ, DL_BIND_REQ, DL_UNBIND_REQ, DL_CONNECT_REQ, DL_RESET_REQ, DL_NONE};
    int primitive = primitives[below(7)];
    request(primitive, primitive == DL_BIND_REQ ? (once_in(5) ? PPP_IPV6 : PPP_IP) : 0);
}

static void bind_network(void)
{
    request(DL_ATTACH_REQ, 0);
    request(DL_BIND_REQ, PPP_IP);
}

static void flush(void)
{
    u_char what = 1 + below(3);
    if (once_in(3)) {
        mblk_t *mp = headed(M_FLUSH, &what, 1, NULL);
        if (mp)
            putnext(read_of(line_stream, TERMINAL), mp);
    } else {
        send_down(once_in(2) ? control : network, headed(M_FLUSH, &what, 1, NULL));
    }
}

static void hang_up(void)
{
    mblk_t *mp = headed(M_HANGUP, "", 0, NULL);
    if (mp)
        putnext(read_of(line_stream, TERMINAL), mp);
}

static void link_or_unlink(int command)
{
    struct linkblk block;
    memset(&block, 0, sizeof block);
    block.l_qbot = write_of(line_stream, LOWER);
    send_ioctl(control, command, &block, sizeof block);
}

static int is_linked(void)
{
    return write_of(line_stream, LOWER)->q_ptr != NULL;
}

/* ppp_ahdlc never frees the message with its unit number, so there are few links. */
static void relink(void)
{
    if (links_left == 0)
        return;
    if (is_linked())
        link_or_unlink(I_UNLINK);
    else if (links_left-- > 0)
        link_or_unlink(I_LINK);
}

static void stop_or_go(void)
{
    is_stopped = !is_stopped;
    if (!is_stopped)
        qenable(write_of(line_stream, TERMINAL));
}

/* An action: how often it is drawn, and as whom it makes calls. */
#define ACTION(name, often) {name, often, "player " #name}
static const struct {
    void (*act)(void);
    int often;
    const char *caller;
} actions[] = {
    ACTION(write_control, 12), ACTION(write_network, 18), ACTION(write_many, 2), ACTION(receive, 40), ACTION(serve_some, 24),
    ACTION(read_control, 4), ACTION(read_network, 4), ACTION(read_all, 2), ACTION(let_one_go, 3), ACTION(stop_or_go, 2),
    ACTION(set_flags, 2), ACTION(set_maps, 1), ACTION(set_sizes, 1), ACTION(set_mode, 1), ACTION(ask, 3), ACTION(change_state, 2),
    ACTION(bind_network, 2), ACTION(begin_compression, 1), ACTION(use_compression, 3), ACTION(reset_header_compression, 1),
    ACTION(flush, 1), ACTION(hang_up, 1), ACTION(look_around, 1),
};

static void act(void)
{
    int sum = 0, k = 0, drawn;
    struct frame frame;
    for (size_t i = 0; i < sizeof actions / sizeof *actions; i++)
        sum += actions[i].often;
    for (drawn = below(sum); drawn >= actions[k].often; k++)
        drawn -= actions[k].often;
    ddi_enter(&frame, NULL, actions[k].caller);
    actions[k].act();
    if (once_in(400))
        relink();
    ddi_leave(&frame);
}

static void begin(void)
{
    send_ioctl(control, PPPIO_NEWPPA, NULL, 0);
    relink();
    set_flags();
    bind_network();
    set_mode();
}

static void flush_all(queue_t *q)
{
    flushq(q, FLUSHALL);
}

static void finish(void)
{
    for (int place = 0; place < KEPT; place++)
        let_go(place);
    if (is_linked())
        link_or_unlink(I_UNLINK);
    close_part(line_stream, FRAMER);
    close_part(line_stream, COMPRESSOR);
    close_part(network, DRIVER);
    close_part(control, DRIVER);
    each(flush_all);
    look_around();
}

int main(int count, char **words)
{
    static const struct strm_class_spec many[] = {{16, 90}, {64, 120}, {128, 90}, {256, 60}, {512, 30}, {1024, 20}, {2048, 16}, {4096, 12}};
    static const struct strm_class_spec few[] = {{16, 20}, {64, 20}, {256, 20}, {1024, 6}, {4096, 4}};
    static const struct strm_config ample = {.mblks = 400, .classes = many, .class_count = 8}, scarce = {.mblks = 60, .classes = few, .class_count = 5};
    if (count != 3)
        return 64;
    seed_dice(atol(words[1]));
    if (str_init(once_in(3) ? &scarce : &ample) != 0)
        return 1;
    make_streams();
    begin();
    for (int left = atoi(words[2]); left > 0; left--)
        act();
    finish();
    str_fini();
    return 0;
}
