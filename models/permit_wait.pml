/* The bounded wait for a permit, of resil_permit.

   HOLDERS threads hold one permit each and give it back once, by a release or a raise; CALLERS wait for one, and keep it;
   PASSERS try once, and give back what they took. No sleep ends by itself, but TIMEOUTS of them: with such an end a caller has lost
   its time, and gives up after a last try that is refused.

   A step is one load, add or exchange of the permit word or of `waiting`. The sleep is on the permit word: it begins in the step in
   which the word is found to be 0. */

#ifndef PASSERS
#define PASSERS 0
#endif
#ifndef TIMEOUTS
#define TIMEOUTS 0
#endif

byte free, waiting;
/* Who lies asleep on the permit word, and whose time may still end. */
bool asleep[CALLERS];
byte timeouts = TIMEOUTS;

inline wake_one() {
    if
    :: atomic { asleep[0] -> asleep[0] = false }
#if CALLERS > 1
    :: atomic { asleep[1] -> asleep[1] = false }
#endif
#if CALLERS > 2
    :: atomic { asleep[2] -> asleep[2] = false }
#endif
    :: else
    fi
}

/* `Permits::release`, and `Permits::raise` too: one add, and `Permits::wake_waiter`. */
inline release() {
#ifdef LOADS_WAITING_FIRST
    somebody = (waiting != 0);
    free++;
#else
    free++;
    somebody = (waiting != 0);
#endif
    if
    :: somebody -> wake_one()
    :: !somebody
    fi
}

/* `Permits::try_acquire`: a load and an exchange, again where another came between. */
inline try_acquire() {
    do
    :: atomic { free == 0 -> taken = false; found = 0; break }
    :: atomic { free > 0 -> found = free }
        if
        :: atomic { free == found -> free--; taken = true; found = 0; break }
        :: free != found
        fi
    od
}

proctype Holder() {
    bool somebody;
    release()
}

proctype Passer() {
    bool somebody, taken;
    byte found;
    try_acquire();
    if
    :: taken -> release()
    :: !taken
    fi
}

/* `Permits::acquire_within` */
proctype Caller(byte me) {
    bool taken, late;
    byte found;
    try_acquire();
    if
    :: taken -> goto end
    :: !taken
    fi;
    waiting++;
again:
#ifdef LEAVES_WITHOUT_A_LAST_TRY
    if
    :: late -> goto out
    :: !late
    fi;
#endif
    try_acquire();
    if
    :: taken || late -> goto out
    :: !taken && !late
    fi;
    /* `Permits::sleep` */
    atomic {
        if
#ifdef SLEEPS_WITHOUT_A_LOOK
        :: asleep[me] = true
#else
        :: free == 0 -> asleep[me] = true
        :: free > 0
#endif
        fi
    }
    if
    :: !asleep[me]
    :: atomic { asleep[me] && timeouts > 0 -> timeouts--; asleep[me] = false; late = true }
    fi;
    /* The time may end at the same moment as a wake-up. */
    if
    :: atomic { timeouts > 0 -> timeouts--; late = true; goto again }
    :: goto again
    fi;
out:
    waiting--;
end:
    skip
}

/* Where nobody can take a step any more, none lies asleep while a permit is free. */
proctype Monitor() {
    byte count;
    timeout;
    do
    :: count < CALLERS -> assert(free == 0 || !asleep[count]); count++
    :: else -> break
    od
}

init {
    atomic {
        byte count = 0;
        do
        :: count < CALLERS -> run Caller(count); count++
        :: else -> break
        od;
        count = 0;
        do
        :: count < HOLDERS -> run Holder(); count++
        :: else -> break
        od;
        count = 0;
        do
        :: count < PASSERS -> run Passer(); count++
        :: else -> break
        od;
        run Monitor()
    }
}
