/* Who waits for a permit of bindings/rust's Bulkhead: tasks that stand in a row, and threads that sleep.

   PERMITS permits are held at first, each by one holder, who gives it back. TASKS tasks await a permit and THREADS threads sleep for
   one; who gets one gives it back or, with KEEPS, keeps it. The first task awaits MANY permits, by one place in the row. While it is the
   first there it gathers them, one at a time of those that are free (a slice is one permit here), and goes on by its own polls. LEAVES
   of the tasks may be dropped at any time, GIVE_UP of the threads may give up at any time, and BARGERS others take a permit by a plain
   try and give it back.

   A step is one operation on the permits, on `waiting` or on the bell, or one hold of the gate's lock but for the permits. */

#ifndef LEAVES
#define LEAVES 0
#endif
#ifndef GIVE_UP
#define GIVE_UP 0
#endif
#ifndef BARGERS
#define BARGERS 0
#endif
#ifndef TASKS
#define TASKS 1
#endif
#ifndef MANY
#define MANY 1
#endif
#ifndef THREADS
#define THREADS 1
#endif

byte free, waiting, threads;
bool gate, thread_first;
/* The row, how many permits its tasks have got, which threads sleep on the bell, and who was woken. */
chan row = [TASKS + 1] of { byte };
byte given[TASKS + 1];
/* Which tasks have all, and which one gathers by its own polls: its waker isn't there. */
bool has_all[TASKS + 1], polls[TASKS + 1];
bool asleep[THREADS + 1];
byte leaves = LEAVES, give_up = GIVE_UP;
/* Who still waits when nobody can take a step. */
byte waits_on;

inline lock_gate() { atomic { !gate -> gate = true } }

inline try(got) { d_step { got = (free > 0); free = free - got } }

#define NEEDS(who) (who == 0 -> MANY : 1)

/* `Bulkhead::give`, by who has the gate: whether the first task has all that it awaits. */
inline give(got, who) {
    d_step {
        row?<who>;
        given[who]++;
        got = (given[who] == NEEDS(who));
        if
        :: got -> row?who; has_all[who] = true; polls[who] = false; waiting--
        :: else
        fi
    }
}

/* `Bulkhead::hand_on`, by who has the gate: whether it wakes the first task, which has all or goes on by itself. */
inline hand_on(got, who) {
    got = false;
    if
    :: len(row) > 0 ->
        row?<who>;
        if
        :: polls[who]
        :: else ->
            try(got);
            if
            :: got -> give(got, who);
                if
                :: got
                :: else -> polls[who] = true; got = true
                fi
            :: else
            fi
        fi
    :: else
    fi
}

/* `Bulkhead::hand_on_all`, by who has the gate. */
inline hand_on_all(got, who) {
    do
    :: hand_on(got, who);
        if
        :: got
        :: else -> break
        fi
    od
}

inline wake_one_thread() {
    if
    :: atomic { asleep[0] -> asleep[0] = false }
#if THREADS > 1
    :: atomic { asleep[1] -> asleep[1] = false }
#endif
    :: else
    fi
}

/* `Bulkhead::pass_on`: whether a task has got the permit. */
inline pass_on(got, who) {
    lock_gate();
    if
    :: len(row) > 0 && !(threads > 0 && thread_first) ->
        thread_first = true;
        give(got, who);
        got = true
#ifdef WHO_FINDS_NO_TASK_KEEPS_IT
    :: len(row) == 0 -> got = true
#endif
    :: else -> got = false
    fi;
    gate = false
}

/* `Bulkhead::release` */
inline release(got, who) {
    if
    :: waiting > 0 -> pass_on(got, who)
    :: else -> got = false
    fi;
    if
    :: got
    :: else -> release_and_wake(got, who)
    fi
}

/* Its rest, and `Bulkhead::wake` */
inline release_and_wake(got, who) {
#ifdef LOOKS_BEFORE_IT_GIVES_BACK
    got = (waiting > 0);
    free++;
    if
    :: got ->
#else
    free++;
    if
    :: waiting > 0 ->
#endif
        lock_gate();
        if
        :: threads > 0 && (thread_first || len(row) == 0) ->
            thread_first = false;
            gate = false;
            wake_one_thread()
        :: else ->
            thread_first = true;
            hand_on(got, who);
            gate = false
        fi
    :: else
    fi
}

proctype Holder() {
    byte who;
    bool got;
    release(got, who)
}

proctype Barger() {
    byte who;
    bool got;
    try(got);
    if
    :: got -> release(got, who)
    :: !got
    fi
}

/* `Acquire` */
proctype Task(byte me) {
    byte who, count, other;
    bool got, stands;
    if
    :: waiting == 0 && NEEDS(me) == 1 -> try(got)
    :: else
    fi;
    if
    :: got -> goto has
    :: !got
    fi;
    /* `Bulkhead::stand` */
    lock_gate();
    waiting++;
    stands = (len(row) == 0);
    row!me;
#ifndef NOBODY_LOOKS_IN_THE_ROW
    if
    :: stands -> hand_on(got, who)
    :: else
    fi;
#endif
    gate = false;
polling:
    stands = false;
    waits_on++;
    if
    /* It fetches what it was given. */
    :: atomic { has_all[me] && !gate -> waits_on--; has_all[me] = false }
        goto has
    /* It was woken to go on by itself: `Bulkhead::go_on`. */
    :: atomic { polls[me] && !gate -> waits_on--; gate = true; polls[me] = false }
        hand_on(got, who);
        if
        :: has_all[me] ->
            has_all[me] = false;
#ifndef WHO_GATHERS_HANDS_NOTHING_ON
            hand_on_all(got, who);
#endif
            gate = false;
            goto has
        :: else -> gate = false; goto polling
        fi
    :: atomic { leaves > 0 -> leaves--; waits_on-- }
        /* the drop */
        lock_gate();
        atomic {
            count = len(row);
            do
            :: count > 0 ->
                row?other;
                if
                :: other == me -> stands = true
                :: else -> row!other
                fi;
                count--
            :: else -> break
            od;
            other = 0
        }
        has_all[me] = false;
        polls[me] = false;
        if
        :: stands -> waiting--; gate = false
        :: !stands -> gate = false
        fi;
#ifndef A_DROP_KEEPS_ITS_PERMIT
        count = given[me];
        goto gives_back
#else
        goto gone
#endif
    fi;
has:
    stands = false;
    count = NEEDS(me);
#ifdef KEEPS
    goto gone;
#endif
gives_back:
    given[me] = 0;
    do
    :: count > 0 -> count--; release(got, who)
    :: count == 0 -> break
    od;
    if
    :: stands && NEEDS(me) > 1 ->
        /* It may have left what is free. */
        lock_gate();
        hand_on_all(got, who);
        gate = false
    :: else
    fi;
gone:
    skip
}

/* `Bulkhead::wait` */
proctype Sleeper(byte me) {
    byte who;
    bool got, late;
    waiting++;
    lock_gate();
    threads++;
again:
    try(got);
    if
    :: got || late -> goto out
    :: else
    fi;
    atomic { asleep[me] = true; gate = false; waits_on++ }
    if
    :: atomic { !asleep[me] -> waits_on-- }
    :: atomic { asleep[me] && give_up > 0 -> give_up--; late = true; asleep[me] = false; waits_on-- }
    fi;
    lock_gate();
    goto again;
out:
    threads--;
    waiting--;
#ifndef A_THREAD_HANDS_NOTHING_ON
    /* what else is free, since it may have been woken for more than one */
    hand_on_all(late, who);
#endif
    gate = false;
#ifndef KEEPS
    if
    :: got -> release(got, who)
    :: !got
    fi
#endif
}

/* Where nobody can take a step any more, nobody waits while a permit is free and, where all come back, nobody at all. */
proctype Monitor() {
    timeout;
    assert(waits_on == 0 || free == 0);
    assert(waiting == waits_on);
#ifndef KEEPS
    assert(free == PERMITS)
#endif
}

init {
    atomic {
        byte count = 0;
        do
        :: count < PERMITS -> run Holder(); count++
        :: else -> break
        od;
        count = 0;
        do
        :: count < TASKS -> run Task(count); count++
        :: else -> break
        od;
        count = 0;
        do
        :: count < THREADS -> run Sleeper(count); count++
        :: else -> break
        od;
        count = 0;
        do
        :: count < BARGERS -> run Barger(); count++
        :: else -> break
        od;
        run Monitor()
    }
}
