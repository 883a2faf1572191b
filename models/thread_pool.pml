/* The threads of bindings/rust's ThreadPool: how they are started, search, sleep, are called, hold back, are joined and end.

   SUBMITTERS threads submit JOBS together to a pool of CORE to MAX threads and a queue of QUEUE, where STARTS_FAIL threads may fail
   to start. Jobs come in groups of GATE: one ends only once all of its group have begun, or while fewer may run or there are fewer
   threads. With SHRINK the sizes are lowered to it at any time and, with GROW, set back at any time behind that. With CLOSE the pool
   is closed at any time. JOINS threads join at any time; where the pool stays open, a job that was accepted behind the first of them
   ends only once that has returned. LATE keep-alives may come to an end.

   With RING, a submission whose reply is known to be `Queued` goes into a ring of that many places, without the lock; without RING
   there is no such place, as in a recorded pool.

   With ENDS, a job may end without the lock, and the rule hears of it from whoever has the lock next: models/pool_ends.pml has the steps
   of such an end.

   A step is one hold of the lock, one load or store of `found`, or one call of the bell. The joins are told under the lock. Of the
   ring, a step is one access of its word or of a place. A thread that is about to search or to sleep has the lock for two steps, since
   places may be taken before and after it says so. A place that was taken is voided by whoever finds it unwritten: in the code he
   waits for a moment before, which is as if it had been written earlier. */

#ifndef SUBMITTERS
#define SUBMITTERS 1
#endif
#ifndef QUEUE
#define QUEUE JOBS
#endif
#ifndef STARTS_FAIL
#define STARTS_FAIL 0
#endif
#ifndef GATE
#define GATE 1
#endif
#ifndef LATE
#define LATE 0
#endif
#ifndef JOINS
#define JOINS 0
#endif
#ifndef RING
#define RING 0
#endif
/* How many threads there are places for. */
#ifndef PLACES
#define PLACES MAX
#endif

/* The rule, under the lock. */
byte core = CORE, max = MAX, workers, running, accepted, submitted;
bool closed;
/* The book, under the lock: numbers of jobs, and who does what. */
chan queue = [JOBS] of { byte };
chan firsts = [JOBS] of { byte };
chan orphans = [JOBS] of { byte };
byte threads, missing, asleep, called, held, alarms;
bool searching;
#ifdef ENDS
/* Jobs that have ended without the lock. */
chan ended = [MAX] of { byte };
#endif
/* Whether somebody has the lock for more than a step. */
bool locked;
/* What a worker does when it has the lock. */
mtype = { ran, was_called, sleeps, searches, lies_down };
/* Beside the lock. */
bool found;
#if RING > 0
/* The ring. The word: how many places are granted, how many are taken from `head` on, and whether a submission calls a thread that
   sleeps. Of each place, whose it is and whether he has written; of each submitter, whether his place was voided. */
byte granted, used, head, owner[RING];
bool written[RING], voided[SUBMITTERS], calls_sleeper;
#else
#define used 0
#endif
/* How many submissions the rule will hear of, or may. */
byte on_way;
bool parked[PLACES], taken[PLACES];
/* What is seen from outside. */
byte begun, finished, fails = STARTS_FAIL, late = LATE;
#if JOINS > 0
byte last[JOINS], left[JOINS], joined;
bool joining[JOINS], returned[JOINS];
#endif

#define waits (len(queue) > 0)
#define can_pick (len(orphans) > 0 || (waits && running < max))
#define holds_back (waits && !can_pick)

/* Whether all jobs of a group have begun, in the order of their numbers, or the rest of it won't come. */
#if GATE == 1
#define has_company(job) true
#else
#define group_end(job) (GATE * ((job + GATE - 1) / GATE))
#define has_company(job) (begun >= group_end(job) || \
    (group_end(job) > accepted && on_way == 0 && (closed || submitted == JOBS)))
#endif

inline wake_one() {
    if
    :: atomic { parked[0] -> parked[0] = false }
#if PLACES > 1
    :: atomic { parked[1] -> parked[1] = false }
#endif
#if PLACES > 2
    :: atomic { parked[2] -> parked[2] = false }
#endif
    :: else
    fi
}

inline wake_all() {
    d_step {
        parked[0] = false;
#if PLACES > 1
        parked[1] = false;
#endif
#if PLACES > 2
        parked[2] = false
#endif
    }
}

#if RING > 0
/* `Book::tell_rule` */
inline tell_rule() {
    d_step {
        do
        :: used > 0 ->
            if
            :: written[head] ->
                /* What was granted is queued. */
                assert(!closed && workers >= core && len(queue) < QUEUE);
                accepted++;
                on_way--;
                queue!accepted
            :: else -> voided[owner[head]] = true
            fi;
            written[head] = false;
            owner[head] = 0;
            head = (head + 1) % RING;
            used--
        :: else -> break
        od
    }
}

/* `Book::grant`: as many places as there is room for, and as the ring has. */
inline grant() {
    granted = (closed || missing > 0 || threads < core -> granted : (QUEUE - len(queue) < RING -> QUEUE - len(queue) : RING))
}

/* `Book::end_grant` */
inline end_grant() {
#ifndef KEEPS_THE_GRANT
    granted = 0;
#endif
    tell_rule()
}

/* `Book::take_in` */
inline take_in() {
    if
    :: used > 0 -> tell_rule(); grant()
    :: else
    fi
}

/* `Book::set_calls` */
inline set_calls() {
    calls_sleeper = (asleep > 0 && called == 0 && !searching)
}
#else
inline grant() { skip }
inline end_grant() { skip }
inline take_in() { skip }
inline set_calls() { skip }
#endif

/* `Joins::settle` */
inline settle() {
#if JOINS > 0
    d_step {
        byte j = 0;
        do
        :: j < JOINS ->
            if
            :: joining[j] && left[j] == 0 && (!closed || threads == 0) -> joining[j] = false
            :: else
            fi;
            j++
        :: else -> break
        od;
        j = 0
    }
#else
    skip
#endif
}

/* `Book::finish` and `Crew::finish` */
inline finish(job) {
    running--;
    finished++;
#if JOINS > 0
    d_step {
        byte k = 0;
        do
        :: k < JOINS ->
#ifdef JOINS_WAIT_FOR_ALL
            left[k] = running + len(queue);
#else
            left[k] = left[k] - (joining[k] && job <= last[k] -> 1 : 0);
#endif
            k++
        :: else -> break
        od;
        k = 0
    }
#endif
    settle()
}

/* `Book::waits` */
inline take_in_if_none_waits() {
    if
    :: !waits -> take_in()
    :: else
    fi
}

/* `Crew::take_ends` */
inline take_ends(job) {
#ifdef ENDS
    do
    :: len(ended) > 0 -> ended?job; finish(job); job = 0
    :: else -> break
    od
#else
    skip
#endif
}

/* `Crew::pick`: a job's number, or 0. */
inline pick(job) {
#ifndef PICKS_BESIDE_THE_ENDS
    take_ends(job);
#endif
    take_in_if_none_waits();
    if
    :: len(orphans) > 0 -> orphans?job
    :: else ->
        if
#ifdef PICKS_ABOVE_THE_SIZE
        :: waits && running < workers -> queue?job; running++; assert(running <= max)
        :: else ->
#else
        :: waits && running < max && running < workers -> queue?job; running++; assert(running <= max)
        :: else ->
#endif
            if
            :: len(firsts) > 0 -> firsts?job
            :: else -> job = 0
            fi
        fi
    fi;
#ifndef HOLDS_BACK_FOR_GOOD
    if
    :: held > 0 && !waits && used == 0 -> alarms++; held = 0; wake_all()
    :: else
    fi
#endif
}

/* `Crew::call`, whose bell is rung once the lock is let go. */
inline call(rings) {
    rings = false;
    take_in_if_none_waits();
    if
    :: !can_pick
    :: can_pick && searching -> found = true
    :: can_pick && !searching ->
        if
        :: called == 0 && asleep > 0 -> asleep--; called++; set_calls(); rings = true
        :: else
        fi
    fi
}

/* `Book::ends_idle` */
inline ends_idle(ends) {
    ends = false;
    take_in();
    do
    :: !ends && !waits && running < workers && (workers > core || closed) ->
        workers--;
        if
        :: missing > 0 -> missing--
        :: else -> ends = true
        fi
    :: else -> break
    od
}

/* `Book::end_missing` */
inline end_missing() {
#ifndef NOBODY_ENDS_WHO_IS_MISSING
    do
    :: missing > 0 && !waits && running < workers && (workers > core || closed) -> workers--; missing--
    :: else -> break
    od
#else
    skip
#endif
}

/* A job, from its begin to its end. */
inline do_job(job) {
    begun++;
    assert(begun <= JOBS);
    has_company(job) || max < GATE || threads < GATE;
#if JOINS > 0 && !defined(CLOSE)
    !joining[0] || job <= last[0]
#endif
}

proctype Worker(byte me) {
    byte job, seen;
    mtype came = ran;
    bool rings, ends, holds, limited;

    /* `Crew::work` */
    atomic {
        !locked;
        if
        :: len(firsts) > 0 -> firsts?job; goto do_it
        :: else -> goto turn
        fi
    }

do_it:
    do_job(job);
    if
    :: atomic { !locked; finish(job); job = 0; came = ran; goto turn }
#ifdef ENDS
    :: ended!job -> atomic { !locked -> job = 0; came = ran; goto turn }
#endif
    fi;

    /* `Crew::next` of a worker that has run a job or was called, and `Crew::sleep` */
    atomic {
        skip;
turn:   skip;
        pick(job);
#ifndef WHO_IS_CALLED_CALLS_NOBODY
        if
        :: came == was_called || (came == sleeps && job > 0) -> call(rings)
        :: else
        fi;
#endif
        if
        :: job > 0 -> came = ran
        :: job == 0 && came == sleeps && closed && !holds_back ->
            /* `Book::ends_closed` */
            ends_idle(ends);
#ifndef ITS_WORKER_STAYS
            missing = missing + !ends;
#endif
            goto leave
        :: job == 0 && came == sleeps && !(closed && !holds_back) -> locked = true; came = lies_down
        :: job == 0 && came != sleeps && (searching || closed || holds_back) -> came = sleeps
        :: else -> searching = true; found = false; locked = true; came = searches
        fi
    }
    if
    :: rings -> wake_one(); rings = false
    :: !rings
    fi;
    if
    :: came == ran -> goto do_it
    :: atomic { came == sleeps && !locked -> goto turn }
    :: came == lies_down -> goto lie_down
    :: came == searches
    fi;

    atomic { set_calls(); locked = false }
    /* `Crew::search`: it ends with what comes in, or by its time. */
    if
    :: found
    :: used > 0
    :: skip
    fi;
    atomic {
        !locked;
        searching = false;
#ifndef ITS_SEARCH_GOES_ON
        set_calls();
#endif
        came = sleeps;
        goto turn
    }

    /* `Crew::wait` */
    atomic {
        skip;
lie_down:
#ifdef TOLD_BEFORE_ITS_SLEEP
        /* It tells the rule what came after its last look, and looks at the ring alone before it sleeps. */
        take_in();
        goto say_so
    }
    atomic {
        skip;
say_so: asleep++;
        set_calls();
        if
        :: used > 0 ->
#else
        asleep++;
        set_calls();
        take_in_if_none_waits();
        if
#ifdef NO_LOOK_BEFORE_ITS_SLEEP
        :: false ->
#else
        :: can_pick ->
#endif
#endif
            asleep--;
            set_calls();
            locked = false;
            came = was_called;
            goto turn
        :: else
        fi;
        limited = (workers > core && !waits);
        holds = holds_back;
        seen = alarms;
        held = held + holds;
        locked = false;
lie_on: parked[me] = true
    }
    if
    :: atomic { !parked[me] -> limited = limited }
    :: atomic { parked[me] && limited && late > 0 -> late--; parked[me] = false; ends = true }
    fi;
    atomic {
        !locked;
        if
        :: called > 0 -> called--; came = was_called
        :: called == 0 && (alarms != seen || ends) -> asleep--; came = (alarms != seen -> was_called : sleeps)
        :: else -> goto lie_on
        fi;
        ends = false;
        held = held - (alarms == seen -> holds : 0);
        holds = false;
        seen = 0;
        limited = false;
        set_calls();
        if
        :: came == was_called -> goto turn
        :: else ->
            ends_idle(ends);
            if
            :: ends -> goto leave
            :: else -> goto turn
            fi
        fi
    }

    atomic {
        skip;
leave:  threads--;
        taken[me] = false;
        settle()
    }
}

/* `Crew::start_thread` of a thread that is counted, and `Crew::do_without`. */
inline start_thread(place, job, rings) {
    atomic {
        !locked;
        place = 0;
        do
        :: place < PLACES && taken[place] -> place++
        :: else -> break
        od;
        if
        :: place < PLACES -> taken[place] = true; run Worker(place); place = PLACES
        :: fails > 0 -> fails--; place = 0
        fi
    }
    if
    :: place == PLACES
    :: place < PLACES ->
        atomic {
            !locked;
            end_grant();
            threads--;
            missing++;
            if
            :: len(firsts) > 0 -> firsts?job; orphans!job; job = 0
            :: else
            fi;
            settle()
        }
        do
        :: atomic { !locked && threads > 0 ->
#ifdef WITHOUT_A_THREAD_NOBODY_IS_CALLED
                rings = false
#else
                call(rings)
#endif
            }
            break
        :: atomic { !locked && threads == 0 ->
                pick(job);
                if
                :: job == 0 -> rings = false; end_missing()
                :: else
                fi
            }
            if
            :: job == 0 -> break
            :: job > 0 -> do_job(job); atomic { !locked; finish(job); job = 0 }
            fi
        od;
        if
        :: rings -> wake_one(); rings = false
        :: !rings
        fi
    fi
}

/* `Crew::submit`, again and again. */
proctype Submitter(byte me) {
    byte place, job;
    bool rings, starts;
#if RING > 0
    bool calls;
#endif
    do
    :: atomic { submitted < JOBS ->
            submitted++;
            on_way++
        }
#if RING > 0
        /* `Ring::submit` */
take:   if
        :: atomic { granted > 0 ->
                granted--;
                place = (head + used) % RING;
                owner[place] = me;
                used++;
                calls = calls_sleeper
            }
            atomic {
                if
                :: voided[me] -> voided[me] = false; place = 0; goto take
                :: else -> written[place] = true; place = 0
                fi
            }
            if
            :: !calls -> goto submits
            :: atomic { calls && !locked -> calls = false; goto call_one }
            fi
        :: granted == 0
        fi;
#endif
        atomic {
            !locked;
#if RING > 0
            /* Others may have been granted places meanwhile. Nobody voids one, since this one has the lock. */
            if
            :: granted > 0 ->
                granted--;
                owner[(head + used) % RING] = me;
                written[(head + used) % RING] = true;
                used++;
#ifdef WHO_WAITED_CALLS_NOBODY
                goto submits
#else
                goto call_one
#endif
            :: else
            fi;
#endif
            end_grant();
            on_way--;
            if
            :: closed
            :: !closed && (workers < core || (len(queue) == QUEUE && workers < max)) ->
                accepted++;
                workers++;
                running++;
                threads++;
                firsts!accepted;
                starts = true;
                grant()
            :: !closed && workers >= core && len(queue) < QUEUE ->
                accepted++;
                queue!accepted;
                grant();
                if
                :: missing > 0 -> missing--; threads++; starts = true
                :: else ->
call_one:           call(rings)
                fi
            :: else
            fi
        }
        if
        :: rings -> wake_one(); rings = false
        :: !rings
        fi;
        if
        :: starts -> starts = false; start_thread(place, job, rings)
        :: !starts
        fi;
submits: skip
    :: atomic { submitted == JOBS -> break }
    od
}

#ifdef CLOSE
/* `Crew::close` */
proctype Closer() {
    atomic { !locked; end_grant(); closed = true; end_missing(); alarms++; held = 0; settle() }
    found = true;
    wake_all()
}
#endif

#ifdef SHRINK
/* `Crew::resize` */
proctype Operator() {
    atomic { !locked; end_grant(); core = SHRINK; max = SHRINK; alarms++; held = 0 }
    wake_all();
#ifdef GROW
    atomic {
        !locked;
        end_grant();
        core = CORE;
        max = MAX;
#ifndef NOBODY_IS_CALLED_AT_A_RESIZE
        alarms++;
        held = 0
#endif
    }
#ifndef NOBODY_IS_CALLED_AT_A_RESIZE
    wake_all()
#endif
#endif
}
#endif

#if JOINS > 0
/* `Crew::join` */
proctype Join(byte me) {
    byte job;
    atomic { !locked; take_ends(job); take_in(); last[me] = accepted; left[me] = running + len(queue); joining[me] = true; settle() }
    atomic { !joining[me] -> joined++ }
}
#endif

/* Where nobody can take a step any more, each job has ended, each join has returned and each thread has left or sleeps. */
proctype Monitor() {
    timeout;
    assert(on_way == 0);
    assert(finished == accepted);
    assert(workers == threads + missing);
    assert(running == 0);
#if JOINS > 0
    assert(joined == JOINS);
#endif
#ifdef CLOSE
    assert(threads == 0);
    assert(workers == 0)
#endif
}

init {
    atomic {
        byte count = 0;
        do
        :: count < SUBMITTERS -> run Submitter(count); count++
        :: else -> break
        od;
#if JOINS > 0
        count = 0;
        do
        :: count < JOINS -> run Join(count); count++
        :: else -> break
        od;
#endif
#ifdef SHRINK
        run Operator();
#endif
#ifdef CLOSE
        run Closer();
#endif
        run Monitor()
    }
}
