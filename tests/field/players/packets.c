#include "packets.h"
#include "dice.h"

#include <string.h>

#define FLAG 0x7e
#define ESCAPE 0x7d
#define TRANS 0x20

enum { IP = 0x21, IPV6 = 0x57, COMPRESSED = 0xfd, UNKNOWN = 0x4321, IPCP = 0x8021, CCP = 0x80fd, LCP = 0xc021 };
enum { TCP = 6, UDP = 17, ACKED = 16, SYNCHRONIZED = 18 };

/* What a connection of TCP has sent, as far as its headers tell. */
static struct connection {
    unsigned short identity, port;
    unsigned int sequence, acknowledged;
} connections[4] = {{1, 80, 1000, 5000}, {7, 22, 70, 900}, {3, 53, 1, 1}, {9, 6000, 123456, 654321}};

static unsigned char *write_number(unsigned char *at, unsigned long number, int octets)
{
    while (octets-- > 0)
        *at++ = number >> 8 * octets;
    return at;
}

static unsigned char *write_drawn(unsigned char *at, int size)
{
    while (size-- > 0)
        *at++ = once_in(3) ? below(256) : "~}a"[below(3)];
    return at;
}

/* Mostly short, now and then as long as a packet may be. */
static int draw_size(int most)
{
    return below(once_in(6) ? most : most < 80 ? most : 80);
}

static unsigned char *write_ip_header(unsigned char *at, int size, int identity, int protocol)
{
    at = write_number(at, 0x4500, 2);
    at = write_number(at, size, 2);
    at = write_number(at, identity, 2);
    at = write_number(at, 0, 2);
    at = write_number(at, 64, 1);
    at = write_number(at, protocol, 1);
    at = write_number(at, 0xbeef, 2);
    at = write_number(at, 0x0a000001, 4);
    return write_number(at, 0x0a000002, 4);
}

static int draw_tcp_packet(unsigned char *bytes)
{
    struct connection *connection = &connections[below(4)];
    int size = draw_size(1400);
    unsigned char *at = write_ip_header(bytes, 40 + size, connection->identity++, TCP);
    at = write_number(at, 4000 + connection->port, 2);
    at = write_number(at, connection->port, 2);
    at = write_number(at, connection->sequence, 4);
    at = write_number(at, connection->acknowledged, 4);
    at = write_number(at, 0x50, 1);
    at = write_number(at, once_in(12) ? SYNCHRONIZED : ACKED, 1);
    at = write_number(at, 8192, 2);
    at = write_number(at, below(65536), 2);
    at = write_number(at, 0, 2);
    connection->sequence += size;
    connection->acknowledged += once_in(2) ? below(2000) : 0;
    return write_drawn(at, size) - bytes;
}

static int draw_udp_packet(unsigned char *bytes)
{
    int size = draw_size(1400);
    unsigned char *at = write_ip_header(bytes, 28 + size, below(65536), UDP);
    at = write_number(at, 53, 2);
    at = write_number(at, 1024 + below(64), 2);
    at = write_number(at, 8 + size, 2);
    at = write_number(at, 0, 2);
    return write_drawn(at, size) - bytes;
}

int draw_network_packet(unsigned char *bytes)
{
    if (once_in(20))
        return write_drawn(bytes, below(24)) - bytes;
    return once_in(4) ? draw_udp_packet(bytes) : draw_tcp_packet(bytes);
}

/* The header of a packet, whole or without what may be left out. */
static unsigned char *write_ppp_header(unsigned char *at, int protocol, int whole)
{
    if (whole || !once_in(4))
        at = write_number(at, 0xff03, 2);
    return write_number(at, protocol, !whole && protocol < 0x100 && once_in(3) ? 1 : 2);
}

static unsigned char *write_control(unsigned char *at)
{
    int size = once_in(3) ? 0 : draw_size(300);
    at = write_number(at, 1 + below(15), 1);
    at = write_number(at, below(256), 1);
    at = write_number(at, 4 + size, 2);
    return write_drawn(at, size);
}

static int draw_protocol(void)
{
    static const int protocols[] = {LCP, LCP, LCP, IPCP, CCP, UNKNOWN, IPV6, COMPRESSED};
    return protocols[below(sizeof protocols / sizeof *protocols)];
}

int draw_control_packet(unsigned char *bytes)
{
    if (once_in(30))
        return write_drawn(bytes, 1 + below(6)) - bytes;
    return write_control(write_ppp_header(bytes, draw_protocol(), 1)) - bytes;
}

int draw_packet_of_peer(unsigned char *bytes)
{
    unsigned char *at;
    if (once_in(30))
        return write_drawn(bytes, 1 + below(6)) - bytes;
    if (once_in(3))
        return write_control(write_ppp_header(bytes, draw_protocol(), 0)) - bytes;
    at = write_ppp_header(bytes, IP, 0);
    return at - bytes + draw_network_packet(at);
}

static unsigned char *write_escaped(unsigned char *at, int byte)
{
    if (byte < TRANS || byte == FLAG || byte == ESCAPE) {
        *at++ = ESCAPE;
        byte ^= TRANS;
    }
    *at++ = byte;
    return at;
}

/* The check sequence of a frame after one more byte. */
static unsigned int checked(unsigned int sequence, int byte)
{
    sequence ^= byte;
    for (int bit = 0; bit < 8; bit++)
        sequence = sequence >> 1 ^ (sequence & 1 ? 0x8408 : 0);
    return sequence;
}

int framed(unsigned char *frame, const unsigned char *packet, int size)
{
    unsigned int sequence = 0xffff;
    unsigned char *at = frame;
    *at++ = FLAG;
    for (int k = 0; k < size; k++) {
        sequence = checked(sequence, packet[k]);
        at = write_escaped(at, packet[k]);
    }
    sequence ^= once_in(12) ? below(65536) : 0xffff;
    at = write_escaped(at, sequence & 255);
    at = write_escaped(at, sequence >> 8);
    *at++ = FLAG;
    return at - frame;
}
