/* Tested, not proved: passes frames through ppp_ahdlc.c, packets through ppp.c as a multiplexer over ppp_comp.c and ppp_ahdlc.c, and those of SunOS 4
 * through if_ppp.c over both. These are ppp's STREAMS modules, as they are. */
#define WITH_NETWORK
#include "modules.h"

#include <strm_ddi.h>

#include <errno.h>
#include <stdio.h>
#include <string.h>

#include <sys/dlpi.h>
#include <net/ppp_defs.h>
#include <net/pppio.h>

extern struct streamtab pppinfo, pcmpinfo, phdlinfo, if_pppinfo;
int if_ppp_unload(void);
time_t kernel_time;

static int passed, failed;

#define CHECK(what) ((what) ? (void)passed++ : (void)(failed++, printf("%s:%d: not %s\n", __FILE__, __LINE__, #what)))

static unsigned char frame[1504], back[8192];

/* Draws a frame with the header of a packet of IP. */
static void draw(size_t size, unsigned seed)
{
	for (size_t k = 0; k < size; k++)
		frame[k] = (unsigned char)((seed = seed * 1103515245 + 12345) >> 16);
	memcpy(frame, "\xff\x03\x00\x21", 4);
}

static int comes_back(strhead_t *head, size_t size)
{
	size_t count;

	return str_read(head, back, sizeof back, &count) == 0 && count == size && memcmp(frame, back, size) == 0;
}

static void test_framer(void)
{
	strhead_t *head;
	size_t length = sizeof(unsigned);
	int value, code, same = 0, sent;
	unsigned map = 0;
	struct ppp_stats stats;

	CHECK(str_init(NULL) == 0 && str_open(&echoinfo, 0, 0, &head) == 0 && str_push(head, &phdlinfo) == 0);
	CHECK(str_ioctl(head, PPPIO_XACCM, &map, &length, sizeof map, &value) == 0);
	for (unsigned k = 0; k < 1000; k++) {
		size_t size = 4 + k * 37 % 1500;
		draw(size, k);
		same += str_write(head, frame, size) == 0 && comes_back(head, size);
	}
	CHECK(same == 1000);
	length = 0;
	CHECK(str_ioctl(head, PPPIO_GETSTAT, &stats, &length, sizeof stats, &value) == 0 && length == sizeof stats);
	CHECK(stats.p.ppp_ipackets == 1000 && stats.p.ppp_opackets == 1000 && stats.p.ppp_ierrors == 0);
	CHECK(str_ioctl(head, 0x7777, NULL, NULL, 0, &value) == EINVAL);
	draw(504, 7);
	echo_is_stopped = 1;
	for (sent = 0; (code = str_write(head, frame, 504)) == 0 && sent < 100; sent++)
		;
	CHECK(code == EAGAIN && sent > 10 && sent < 30);
	echo_is_stopped = 0;
	qenable(WR(str_queue(head, 2)));
	for (same = 0; comes_back(head, 504); same++)
		;
	CHECK(same == sent);
	CHECK(str_push(head, &pcmpinfo) == 0);
	for (same = 0, sent = 0; sent < 200; sent++) {
		draw(304, (unsigned)sent);
		same += str_putmsg(head, NULL, 0, frame, 304, 0, sent % 4) == 0 && comes_back(head, 304);
	}
	CHECK(same == 200);
	CHECK(str_pop(head) == 0 && str_pop(head) == 0 && str_pop(head) == EINVAL && str_close(head) == 0);
	CHECK(str_fini() == 0);
}

static unsigned request(strhead_t *net, unsigned primitive, unsigned value)
{
	unsigned words[4] = { primitive, value, DL_CLDLS, 0 }, reply = ~0u;
	mblk_t *mp;

	if (str_putmsg(net, words, sizeof words, NULL, 0, M_PROTO, 0) != 0 || (mp = str_getmsg(net)) == NULL)
		return reply;
	memcpy(&reply, mp->b_rptr, sizeof reply);
	freemsg(mp);
	return reply;
}

static int packet_comes_back(strhead_t *net, const unsigned char *packet, size_t size)
{
	unsigned words[4] = { DL_UNITDATA_REQ, 0, 0, 0 };
	mblk_t *mp = NULL;
	int is_same;

	if (str_putmsg(net, words, sizeof words, packet, size, M_PROTO, 0) != 0 || (mp = str_getmsg(net)) == NULL)
		return 0;
	is_same = *(unsigned *)mp->b_rptr == DL_UNITDATA_IND && mp->b_cont && msgdsize(mp) == size && pullupmsg(mp->b_cont, -1) &&
		memcmp(mp->b_cont->b_rptr, packet, size) == 0;
	freemsg(mp);
	return is_same;
}

static void test_multiplexer(void)
{
	strhead_t *control, *net, *lower;
	unsigned char packet[600];
	int pair[2] = { PPP_IP, NPMODE_PASS }, ppa = 0, value, same = 0;
	size_t length = sizeof ppa;

	CHECK(str_init(NULL) == 0);
	CHECK(str_open(&pppinfo, 0, CLONEOPEN, &control) == 0 && str_open(&pppinfo, 0, CLONEOPEN, &net) == 0);
	CHECK(str_open(&echoinfo, 0, 0, &lower) == 0 && str_push(lower, &phdlinfo) == 0 && str_push(lower, &pcmpinfo) == 0);
	CHECK(str_ioctl(control, PPPIO_NEWPPA, &ppa, &length, sizeof ppa, &value) == 0);
	CHECK(str_link(control, lower) == 0);
	CHECK(request(net, DL_ATTACH_REQ, (unsigned)ppa) == DL_OK_ACK && request(net, DL_BIND_REQ, PPP_IP) == DL_BIND_ACK);
	length = sizeof pair;
	CHECK(str_ioctl(control, PPPIO_NPMODE, pair, &length, sizeof pair, &value) == 0);
	for (size_t k = 0; k < 500; k++) {
		size_t size = 40 + k * 7 % 500;
		for (size_t at = 0; at < size; at++)
			packet[at] = (unsigned char)(at * 7 + k);
		packet[0] = 0x45;
		packet[9] = 17;
		same += packet_comes_back(net, packet, size);
	}
	CHECK(same == 500);
	CHECK(str_unlink(control, lower) == 0 && str_close(lower) == 0 && str_close(net) == 0 && str_close(control) == 0);
	CHECK(str_fini() == 2); /* ppp.c never frees an M_CTL of a link, nor the M_PROTO of an attachment */
}

struct ifqueue ipintrq = { NULL, &ipintrq.first, IFQ_MAXLEN, 0 };
struct ifnet *ifnet;
struct inpcb tcb = { .inp_next = &tcb }, udb = { .inp_next = &udb };
struct in_ifaddr *in_ifaddr;

void if_attach(struct ifnet *ifp)
{
	ifnet = ifp;
}

void m_freem(struct mbuf *m)
{
	while (m) {
		struct mbuf *next = m->m_next;
		kmem_free(m, sizeof *m);
		m = next;
	}
}

/* Has the network send a packet to an address of a family: small mbufs and large ones in turn. */
static int output(const unsigned char *packet, int size, int family)
{
	struct sockaddr to = { .sa_family = (sa_family_t)family };
	struct mbuf *first = NULL, **last = &first;

	for (int at = 0, part; at < size; at += part) {
		MGET(*last, 0, 0);
		if (at % 2)
			MCLGET(*last);
		part = at % 2 ? 901 : 61;
		part = part < size - at ? part : size - at;
		memcpy(mtod(*last, unsigned char *), packet + at, (size_t)part);
		(*last)->m_len = part;
		last = &(*last)->m_next;
	}
	return ifnet->if_output(ifnet, first, &to);
}

/* Whether the first packet that came for the network is this one, of the interface. Takes it. */
static int came(const unsigned char *packet, int size)
{
	struct mbuf *first = ipintrq.first;
	int at = -(int)sizeof ifnet, is_same = first && memcmp(mtod(first, char *), &ifnet, sizeof ifnet) == 0;

	if (!first)
		return 0;
	for (struct mbuf *m = first; m; m = m->m_next) {
		int skipped = at < 0 ? -at : 0;
		is_same = is_same && at + m->m_len <= size && memcmp(mtod(m, char *) + skipped, packet + at + skipped, (size_t)(m->m_len - skipped)) == 0;
		at += m->m_len;
	}
	if ((ipintrq.first = first->m_act) == NULL)
		ipintrq.last = &ipintrq.first;
	ipintrq.count--;
	m_freem(first);
	return is_same && at == size;
}

static void test_interface(void)
{
	strhead_t *head;
	unsigned char packet[1400];
	unsigned map = 0;
	int unit = 2, same = 0, value;
	size_t length = sizeof unit;
	struct ifnet *interface;

	CHECK(str_init(NULL) == 0 && str_open(&echoinfo, 0, 0, &head) == 0);
	CHECK(str_push(head, &phdlinfo) == 0 && str_push(head, &pcmpinfo) == 0 && str_push(head, &if_pppinfo) == 0);
	CHECK(str_ioctl(head, PPPIO_XACCM, &map, &length, sizeof map, &value) == 0);
	length = sizeof unit;
	CHECK(str_ioctl(head, PPPIO_NEWPPA, &unit, &length, 0, &value) == 0 && ifnet && ifnet->if_unit == unit);
	length = sizeof unit;
	CHECK(str_ioctl(head, PPPIO_NEWPPA, &unit, &length, 0, &value) == EINVAL && if_ppp_unload() == EBUSY);
	CHECK(output(packet, 20, AF_INET) == ENETDOWN);
	ifnet->if_flags |= IFF_UP;
	CHECK(output(packet, 20, AF_UNIX) == EAFNOSUPPORT);
	for (int k = 0; k < 500; k++) {
		int size = 20 + k * 7 % 1380;
		for (int at = 0; at < size; at++)
			packet[at] = (unsigned char)(at * 7 + k);
		same += output(packet, size, AF_INET) == 0 && str_run() > 0 && came(packet, size);
	}
	CHECK(same == 500 && ifnet->if_opackets == 500 && ifnet->if_ipackets == 500 && ifnet->if_ierrors == 0);
	for (int k = 0; k < IFQ_MAXLEN + 10; k++)
		same += output(packet, 40, AF_INET) == 0 && str_run() > 0;
	CHECK(ipintrq.count == IFQ_MAXLEN && ifnet->if_ierrors == 10);
	while (came(packet, 40))
		same--;
	CHECK(same == 510 && ipintrq.count == 0);
	interface = ifnet;
	CHECK(str_write(head, packet, 10) == 0 && str_close(head) == 0 && if_ppp_unload() == 0 && !ifnet);
	kmem_free(interface, sizeof *interface); /* if_ppp.c never frees it */
	CHECK(str_fini() == 0);
}

int main(void)
{
	test_framer();
	test_multiplexer();
	test_interface();
	printf("%d passed, %d failed\n", passed, failed);
	return failed > 0;
}
