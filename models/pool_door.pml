/* A door of bindings/rust's ThreadPool, where workers of a recorded pool sleep that find the lock taken while they have an answer in
   hand. Those of another pool have handed it out before.

   WORKERS workers have an answer each. Each takes the lock once and hands its answer out, while somebody else takes it TURNS times. HANDLES
   handles look for the answers, and call in at each look. In the code a sleep ends with its time too, and behind SLEEPS of them a
   worker waits in the mutex's own row; here no sleep ends by itself but TIMEOUTS of them, and the last one has no time.

   A step is one access of a word or of the mutex, one taking or release of the threshold, or one call of the bell. A pause is no step. */

#ifndef TURNS
#define TURNS 2
#endif
#ifndef TIMEOUTS
#define TIMEOUTS 0
#endif

/* The lock of the pool, and the door: its flag, its threshold, and who lies asleep. */
bool held, is_slept_at, threshold;
bool asleep[WORKERS];
byte turns, answers, timeouts = TIMEOUTS;

#define all_answered (answers == WORKERS)

inline enter_threshold() { atomic { !threshold -> threshold = true } }

inline wake_all() {
    d_step {
        asleep[0] = false;
        asleep[1] = false;
#if WORKERS > 2
        asleep[2] = false
#endif
    }
}

/* `Door::call_in` */
inline call_in() {
    if
    :: is_slept_at ->
        is_slept_at = false;
#ifndef CALLS_BESIDE_THE_THRESHOLD
        enter_threshold();
        threshold = false;
#endif
        wake_all()
    :: !is_slept_at
    fi
}

/* `Door::lock` and `Door::wait`, and then the hand-out and the release */
proctype Worker(byte me) {
try:
    if
    :: atomic { !held -> held = true; goto taken }
    :: held
    fi;
    /* `Door::sleep` */
#ifdef SAYS_SO_BESIDE_THE_THRESHOLD
    is_slept_at = true;
    enter_threshold();
#else
    enter_threshold();
#ifndef SAYS_NOTHING
    is_slept_at = true;
#endif
#endif
    atomic { threshold = false; asleep[me] = true }
    if
    :: !asleep[me]
    :: atomic { asleep[me] && timeouts > 0 -> timeouts--; asleep[me] = false }
    fi;
    enter_threshold();
    threshold = false;
    goto try;
taken:
    answers++;
    held = false
}

/* Submitters, or workers that have more to do: who takes the lock and comes again. */
proctype Other() {
    do
    :: turns < TURNS ->
        if
        :: atomic { !held -> held = true; turns++ }
            held = false
        fi
    :: turns == TURNS -> break
    od
}

/* `patience::looks`, again and again */
proctype Handle() {
    do
    :: all_answered -> break
    :: atomic { !all_answered -> skip }
        call_in();
        /* Nothing changes until somebody says that he sleeps, or all is answered. */
        is_slept_at || all_answered
    od
}

/* Where nobody can take a step any more, all answers are out. */
proctype Monitor() {
    timeout;
    assert(all_answered && turns == TURNS && !held)
}

init {
    byte i = 0;
    atomic {
        do
        :: i < WORKERS -> run Worker(i); i++
        :: else -> break
        od;
        i = 0;
        do
        :: i < HANDLES -> run Handle(); i++
        :: else -> break
        od;
        run Other();
        run Monitor()
    }
}
