/* The door of resil_lock, where seats sleep that find the lock taken.

   SEATS seats take TURNS turns each. The code means a sleep to end by its time, 100 microseconds, since those that are awake may leave
   before they have released the lock so often that a sleeper is called in. Here no sleep ends by itself, but TIMEOUTS of them, and
   a worker beside finds nothing to do and calls in again and again, as long as a sleeper is counted. So what is
   shown is that no sleeper is forgotten: it is counted as long as it sleeps, and the next one that calls in wakes one.

   A step is one load, store, add or exchange of a shared word. A pause is no step. */

#ifndef RELEASES
#define RELEASES 2
#endif
#ifndef TIMEOUTS
#define TIMEOUTS 0
#endif

bool held;
/* The door: 0 or the number of the next release since a seat lay down; and of `openings`, how often one was woken, whether it
   still is what a seat has read. */
byte waiting;
bool stands[SEATS];
/* Who lies asleep on `openings`, how many sleeps may still end by themselves, and how many turns were taken. */
bool asleep[SEATS];
byte timeouts = TIMEOUTS;
byte turns;

inline raise_openings() {
    d_step {
        stands[0] = false;
        stands[1] = false;
#if SEATS > 2
        stands[2] = false;
#endif
    }
}

inline wake_one() {
    if
    :: atomic { asleep[0] -> asleep[0] = false }
    :: atomic { asleep[1] -> asleep[1] = false }
#if SEATS > 2
    :: atomic { asleep[2] -> asleep[2] = false }
#endif
    :: else
    fi
}

/* `Door::call_in` */
inline call_in() {
    if
    :: waiting != 0 -> waiting = 0; raise_openings(); wake_one()
    :: waiting == 0
    fi
}

/* `Door::open`, behind a release. */
inline open() {
    release = waiting;
    if
    :: release == 0
    :: release > 0 && release < RELEASES -> waiting = release + 1
    :: release >= RELEASES -> call_in()
    fi;
    release = 0
}

/* `Door::expect_sleeper` */
inline expect_sleeper() {
    if
    :: waiting == 0 -> waiting = 1
    :: waiting != 0
    fi
}

proctype Seat(byte me) {
    byte left = TURNS, release;

    /* `Lock::spin` and `Lock::wait_at_door` */
try:
    if
    :: left == 0 -> goto end
    :: left > 0
    fi;
    if
    :: !held ->
        if
        :: atomic { !held -> held = true; goto turn }
        :: held
        fi
    :: held
    fi;
#ifdef READS_OPENINGS_LAST
    expect_sleeper();
    stands[me] = true;
#else
    stands[me] = true;
    expect_sleeper();
#endif
    if
    :: !held -> goto try
    :: held
    fi;
    /* `Door::sleep` */
    atomic {
        if
        :: stands[me] -> asleep[me] = true; stands[me] = false
        :: !stands[me]
        fi
    }
    if
    :: !asleep[me]
    :: atomic { asleep[me] && timeouts > 0 -> timeouts--; asleep[me] = false }
    fi;
#ifndef WHO_WAKES_EXPECTS_NOBODY
    expect_sleeper();
#endif
    goto try;

turn:
    atomic { held = false; turns++; left-- }
    open();
    goto try;
end:
    skip
}

/* A worker that finds nothing to do, again and again. */
proctype Idle() {
    do
    :: waiting != 0 -> call_in()
    od
}

/* Where nobody can take a step any more, each seat has had its turns. */
proctype Monitor() {
    timeout;
    assert(turns == SEATS * TURNS)
}

init {
    atomic {
        byte count = 0;
        do
        :: count < SEATS -> run Seat(count); count++
        :: else -> break
        od;
        run Idle();
        run Monitor()
    }
}
