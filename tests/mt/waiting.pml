/*
 * The protocol by which threads wait in c/strm_mt.c, for spin: some send and some receive, at one queue with room for one message. Each makes
 * CALLS calls, which wait for ever, or may leave at any time because their deadline has passed or they are cancelled. What is done under the
 * lock is one step or several; what comes after the unlock is not under it. Names are those of c/strm_mt.c. Claims, for all orders of steps:
 *
 *   - When the lock is unlocked, no call stands in a line that could go on. If no thread can take a step, each has ended, or stands there.
 *   - A call that need not wait overtakes none that stands in its line.
 *   - No post is left when a call returns.
 *   - No message is lost or doubled, and a thread that was cancelled holds none.
 *
 * With -DREADERS the model is that of strm_mt_lock and strm_mt_rdlock instead, down to the mutex. -DFAULT=1 to 3, and with -DREADERS 4, plants a
 * fault, for which a claim must fail.
 */
#ifndef FAULT
#define FAULT 0
#endif

#ifndef READERS

#ifndef THREADS
#define THREADS 4
#endif
#define ROOM 1
#ifndef CALLS
#define CALLS 1
#endif

mtype = { GONE, STANDING, SERVED, POSTED };
mtype = { FOR_EVER, DEADLINE, CANCELLED };

bool locked;
byte msgs, sent, got;
mtype state[THREADS] = GONE;
byte post[THREADS];
bool has[THREADS];		/* a message that the call received */
chan receiving = [THREADS] of { byte };
chan sending = [THREADS] of { byte };

/* What an unlock does first. Those that are served go into the channel `served`. */
inline serve()
{
	do
	:: len(receiving) > 0 && msgs > 0 -> receiving?who; msgs--; has[who] = true; state[who] = SERVED; served!who
	:: len(sending) > 0 && msgs < ROOM && FAULT != 1 -> sending?who; msgs++; sent++; state[who] = SERVED; served!who
	:: else -> break
	od;
	who = 0
}

inline unlock()
{
	atomic {
		serve();
		assert(!(len(receiving) > 0 && msgs > 0) && !(len(sending) > 0 && msgs < ROOM));
		locked = false
	};
	do
	:: len(served) > 0 ->
		atomic { served?who; assert(state[who] == SERVED); state[who] = POSTED; post[who]++; who = 0 }
	:: else -> break
	od
}

/* A call whose deadline has passed, or whose thread is cancelled: it leaves its line, or takes its post. */
inline was_served()
{
	atomic { !locked; locked = true };
	if
	:: state[me] == STANDING ->
		atomic { if :: sends -> sending??eval(me) :: else -> receiving??eval(me) fi; state[me] = GONE }
		unlock()
	:: state[me] != STANDING ->
		unlock();
		if
		:: FAULT == 2
		:: FAULT != 2 && post[me] > 0 -> post[me]--
		fi;
		if
		:: mode == CANCELLED && has[me] && FAULT != 3 ->
			atomic { !locked; locked = true };
			atomic { msgs++; has[me] = false }
			unlock()
		:: else
		fi
	fi
}

proctype Thread(byte me; bool sends)
{
	chan served = [THREADS] of { byte };
	mtype mode;
	byte calls, who;

	do
	:: calls < CALLS ->
		atomic {
			!locked;
			locked = true;
			calls++;
			if :: mode = FOR_EVER :: mode = DEADLINE :: mode = CANCELLED fi
		}
		if
		:: sends && msgs < ROOM ->
			atomic { assert(len(sending) == 0); msgs++; sent++ }
			unlock()
		:: !sends && msgs > 0 ->
			atomic { assert(len(receiving) == 0); msgs--; has[me] = true }
			unlock()
		:: else ->
			atomic { if :: sends -> sending!me :: else -> receiving!me fi; state[me] = STANDING }
			unlock();
end_wait:		if
			:: post[me] > 0 -> post[me]--
			:: mode != FOR_EVER -> was_served()
			fi
		fi;
		atomic {
			assert(post[me] == 0);
			if :: has[me] && (mode != CANCELLED || FAULT != 3) -> has[me] = false; got++ :: else fi;
			assert(!has[me]);
			state[me] = GONE
		}
	:: calls == CALLS -> break
	od
}

/* Looks once no thread can take a step. */
active proctype Watch()
{
	byte at;

	timeout;
	assert(!locked);
	do
	:: at < THREADS -> assert(state[at] == GONE || state[at] == STANDING); at++
	:: else -> break
	od;
	assert(sent == got + msgs)
}

init
{
	atomic {
		run Thread(0, true);
		run Thread(1, false);
		run Thread(2, true);
		if :: THREADS == 4 -> run Thread(3, false) :: else fi
	}
}

#else

#define TURNS 2

mtype = { FREE, HELD, SOUGHT };

mtype mutex = FREE;
bool awaited, changing;
byte readers, post, looking;
byte asleep, woken;		/* the threads that sleep until the mutex is free, and those of them that were woken */

inline take_mutex()
{
	atomic { mine = mutex == FREE; mutex = (mine -> HELD : mutex) };
	do
	:: mine -> break
	:: !mine ->
		atomic { mine = mutex == FREE; mutex = (mine && FAULT == 3 -> HELD : SOUGHT) };
		if
		:: mine
		:: !mine -> atomic { if :: mutex == SOUGHT -> asleep++; sleeps = true :: else fi }
			if :: sleeps -> atomic { woken > 0 -> woken--; sleeps = false } :: else fi
		fi
	od;
	mine = false
}

inline free_mutex()
{
	atomic { wakes = mutex == SOUGHT; mutex = FREE };
	atomic { if :: wakes && asleep > 0 && FAULT != 4 -> asleep--; woken++ :: else fi; wakes = false }
}

proctype Reader()
{
	byte turns;
	bool mine, sleeps, wakes;

	do
	:: turns < TURNS ->
		turns++;
		take_mutex();
		readers++;
		free_mutex();
		looking++;
		assert(!changing);
		looking--;
		atomic { readers--; wakes = readers == 0 && awaited };
		if :: wakes && FAULT != 1 -> post++ :: else fi
	:: turns == TURNS -> break
	od
}

proctype Writer()
{
	byte turns;
	bool mine, sleeps, wakes, waits;

	do
	:: turns < TURNS ->
		turns++;
		take_mutex();
		if
		:: readers != 0 ->
			atomic { awaited = true; waits = readers != 0 };
			if :: waits && FAULT != 2 -> atomic { post > 0 -> post-- } :: else fi;
			atomic { awaited = false; assert(post == 0) }
		:: else
		fi;
		assert(!changing);
		changing = true;
		assert(looking == 0);
		changing = false;
		free_mutex()
	:: turns == TURNS -> break
	od
}

init { atomic { run Reader(); run Reader(); run Writer(); run Writer() } }

#endif
