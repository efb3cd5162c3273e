/* Drawn packets of the Point-to-Point Protocol, and their frames. */
#ifndef FIELD_PACKETS_H
#define FIELD_PACKETS_H

/* The most bytes of a packet, and of one in a frame. */
#define MOST_PACKET 1504
#define MOST_FRAME (2 * MOST_PACKET + 8)

/* Each writes bytes and returns how many. A packet of the network layer has no header of PPP, a control packet has all of it, and a
 * packet from the peer may have a part of it. */
int draw_network_packet(unsigned char *bytes);
int draw_control_packet(unsigned char *bytes);
int draw_packet_of_peer(unsigned char *bytes);
/* A packet as a frame: between flags, escaped, and with a check sequence, which is now and then wrong. */
int framed(unsigned char *frame, const unsigned char *packet, int size);
#endif
