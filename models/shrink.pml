/* How fewer permits of bindings/rust's Bulkhead are in use, while tasks wait for them.

   PERMITS permits are held at first, each by one holder, who gives it back. TASKS tasks await a permit and give it back, and BARGERS
   others take one by a plain try and give it back. One operator shrinks by SHRINK permits, PERMITS at most, and raises RAISE of them then.

   A step is one operation on the permits or on `wanted`, or one hold of the gate's lock but for these. */

#ifndef BARGERS
#define BARGERS 0
#endif
#ifndef RAISE
#define RAISE 0
#endif
#ifndef TASKS
#define TASKS 2
#endif

byte free, wanted, retired, owed;
bool gate;
/* The row, and whose tasks have got a permit. */
chan row = [TASKS + 1] of { byte };
bool given[TASKS + 1];
/* Who still waits when nobody can take a step. */
byte waits_on;

inline lock_gate() { atomic { !gate -> gate = true } }

inline try(got) { d_step { got = (free > 0); free = free - got } }

/* `Bulkhead::pay`, by who has the gate. */
inline pay(got) {
    do
    :: owed > 0 ->
        try(got);
        if
        :: got -> retired++; owed--; wanted--
        :: !got -> break
        fi
    :: owed == 0 -> break
    od
}

/* `Bulkhead::hand_on`, by who has the gate: whether a task has got a permit. */
inline hand_on(got, who) {
    pay(got);
    if
    :: len(row) == 0 -> got = false
    :: len(row) > 0 ->
        try(got);
        if
        :: got -> row?who; given[who] = true; wanted--
        :: !got
        fi
    fi
}

/* `Bulkhead::pass_on`: whether the permit is retired, or a task has got it. */
inline pass_on(got, who) {
    lock_gate();
    if
#ifndef THE_ROW_COMES_FIRST
    :: owed > 0 -> owed--; wanted--; retired++; got = true
    :: owed == 0 && len(row) > 0 ->
#else
    :: owed > 0 && len(row) == 0 -> owed--; wanted--; retired++; got = true
    :: len(row) > 0 ->
#endif
        assert(owed == 0);
        row?who;
        given[who] = true;
        wanted--;
        got = true
    :: owed == 0 && len(row) == 0 -> got = false
    fi;
    gate = false
}

/* `Bulkhead::release`, and `Bulkhead::wake` */
inline release(got, who) {
    if
    :: wanted > 0 -> pass_on(got, who)
    :: else -> got = false
    fi;
    if
    :: got
    :: else ->
        free++;
        if
        :: wanted > 0 -> lock_gate(); hand_on(got, who); gate = false
        :: else
        fi
    fi
}

proctype Holder() {
    byte who;
    bool got;
    release(got, who)
}

proctype Barger() {
    byte who;
    bool got;
    try(got);
    if
    :: got -> release(got, who)
    :: !got
    fi
}

/* `Acquire` */
proctype Task(byte me) {
    byte who;
    bool got;
    if
    :: wanted == 0 -> try(got)
    :: else
    fi;
    if
    :: got -> goto has
    :: !got
    fi;
    lock_gate();
    wanted++;
    got = (len(row) == 0);
    row!me;
    if
    :: got -> hand_on(got, who)
    :: !got
    fi;
    gate = false;
    waits_on++;
    atomic { given[me] && !gate -> waits_on--; given[me] = false };
has:
    release(got, who)
}

/* `Bulkhead::shrink`, and then `Bulkhead::raise` */
proctype Operator() {
    byte who, count;
    bool got;
    lock_gate();
#ifdef LOOKS_BEFORE_IT_OWES
    do
    :: count < SHRINK ->
        try(got);
        if
        :: got -> count++; retired++
        :: !got -> break
        fi
    :: else -> break
    od;
    owed = SHRINK - count;
    wanted = wanted + owed;
#else
    owed = SHRINK;
    wanted = wanted + owed;
    pay(got);
#endif
    gate = false;
    if
    :: RAISE > 0 ->
        lock_gate();
        count = (RAISE < owed -> RAISE : owed);
        owed = owed - count;
        wanted = wanted - count;
        count = RAISE - count;
        do
        :: count > 0 -> count--; retired--; free++
        :: else -> break
        od;
        do
        :: hand_on(got, who);
            if
            :: got
            :: !got -> break
            fi
        od;
        gate = false
    :: else
    fi
}

/* Where nobody can take a step any more, all permits are free or retired, as many are as the operator wanted, and nobody waits while
   a permit is free or is owed. */
proctype Monitor() {
    timeout;
    assert(free + retired == PERMITS);
    assert(owed == 0 || free == 0);
    assert(waits_on == 0 || free == 0);
    assert(wanted == waits_on + owed);
    assert(retired + owed == SHRINK - RAISE)
}

init {
    atomic {
        byte count = 0;
        do
        :: count < PERMITS -> run Holder(); count++
        :: else -> break
        od;
        count = 0;
        do
        :: count < TASKS -> run Task(count); count++
        :: else -> break
        od;
        count = 0;
        do
        :: count < BARGERS -> run Barger(); count++
        :: else -> break
        od;
        run Operator();
        run Monitor()
    }
}
