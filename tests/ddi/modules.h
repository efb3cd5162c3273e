/* A driver and modules for the tests of ddi, written as any for STREAMS. */
#ifndef MODULES_H
#define MODULES_H
#include <sys/stream.h>

extern struct streamtab echoinfo;	/* a driver that sends up what comes down, while there is room, and waits while echo_is_stopped */
extern struct streamtab passinfo;	/* a module that passes messages on */
extern struct streamtab holdinfo;	/* a module that queues messages, and passes them on by service procedures */
extern struct streamtab mixerinfo;	/* a module that changes the order of messages, by the ioctls below */
extern struct streamtab suminfo;	/* a driver with a transparent ioctl */

extern int echo_is_stopped, hold_depth, hold_deepest, mixer_freed, mixer_ticks, mixer_depth, mixer_writer_depth;

/* Of the mixer: messages are held on its write queue. Each ioctl does something with them, and returns the queue's number of messages. */
enum { HOLD = 'm' << 8, RELEASE, SWAP, DROP_BAND, LEND, TICK, EXCLUSIVE, AWAIT };

#ifdef WITH_NETWORK
/* What if_ppp.c sees of SunOS 4: a network whose packets are chains of mbufs, in one input queue. */
#include <stddef.h>
#include <net/if.h>

struct mbuf {
	struct mbuf *m_next, *m_act;
	int m_off, m_len;
	unsigned char small[112], large[1024];
};
#define MLEN ((int)sizeof ((struct mbuf *)0)->small)
#define MCLBYTES ((int)sizeof ((struct mbuf *)0)->large)
#define MMAXOFF ((int)offsetof(struct mbuf, large) - 1)
#define MGET(m, wait, type) ((m) = kmem_alloc(sizeof(struct mbuf), KM_NOSLEEP), (m)->m_off = offsetof(struct mbuf, small))
#define MCLGET(m) ((m)->m_off = offsetof(struct mbuf, large))
#define mtod(m, type) ((type)((char *)(m) + (m)->m_off))
struct ifqueue { struct mbuf *first, **last; int ifq_maxlen, count; };
#define IFQ_MAXLEN 50
#define IF_QFULL(q) ((q)->count >= (q)->ifq_maxlen)
#define IF_DROP(q) ((void)0)
#define IF_ENQUEUE(q, m) (*(q)->last = (m), (q)->last = &(m)->m_act, (q)->count++)
struct ifnet {
	char *if_name;
	int if_unit, if_mtu, if_flags, if_ipackets, if_ierrors, if_opackets, if_oerrors, (*if_ioctl)();
	int (*if_output)(struct ifnet *, struct mbuf *, struct sockaddr *);
	struct ifqueue if_snd;
	struct ifaddr *if_addrlist;
	struct ifnet *if_next;
};
extern struct ifqueue ipintrq;
extern struct ifnet *ifnet;
extern struct inpcb { struct inpcb *inp_next; struct { struct { struct ifnet *rt_ifp; } *ro_rt; } inp_route; } tcb, udb;
extern struct in_ifaddr { struct ifaddr ia_ifa; struct in_ifaddr *ia_next; } *in_ifaddr;
void m_freem(struct mbuf *m), if_attach(struct ifnet *ifp);
#define in_losing(pcb) ((void)0)
#define rtinit(from, to, command, flag) ((void)0)
#define schednetisr(number) ((void)0)
#define splhigh() 0
#define splimp() 0
#define suser() 1
enum { KMEM_SLEEP, KMEM_NOSLEEP };
#define minor_t kernel_minor_t
#endif
#endif
