/* The bell of resil_lock, where workers that find no job sleep.

   WORKERS threads work, SUBMITTERS others submit JOBS together, and a job ends only once GATE of them have begun, as one that
   calls a slow dependency, or once fewer may run. With CLOSE the pool is closed after the last submission; a worker leaves it once
   nothing runs, or with LEAVES_AT_ONCE, as in resil_pool, once there is nothing to pick. With SHRINK the maximum size is lowered to
   it at any time and, with GROW, set back at any later time. VISITS turns change nothing, as one that reads the numbers. No sleep
   times out, but TIMEOUTS of them.

   A step is one load, store, add or exchange of a shared word. A turn that asks for work in any case is one step: others read only
   `ready` without the lock, and it is written last. Any other turn takes two or three steps: it takes the lock, acts and reads
   `searcher`; it reads `sleepers` if there was no searcher; it writes `ready` and releases the lock. With WHOLE_TURNS it is one step. A
   searcher polls `ready` once, at any time: only its last poll matters. With ONE_LOOK a worker that found no job must not look for one
   again because of `ready`, unless another thread had a turn. */

#ifndef SUBMITTERS
#define SUBMITTERS 1
#endif
#ifndef TIMEOUTS
#define TIMEOUTS 0
#endif
#ifndef VISITS
#define VISITS 0
#endif

#define NONE 0
#define AWAKE 1
#define WOKEN 2

/* The lock; what is under it; and what its holder has read of the bell. */
bool held;
byte queued, begun, running, submitted, visited, max = WORKERS;
bool closed;
bool watched;
/* The bell; and of `rings`, whether it still is what a worker has read. */
bool ready;
byte searcher, sleepers;
bool stands[WORKERS];
#ifdef ONE_LOOK
/* Whose last look found no job, with no turn of another thread since. */
bool knows[WORKERS];
#define know(me) knows[me] = true
#define is_news(me) assert(!knows[me])
#else
#define know(me) skip
#define is_news(me) skip
#endif

/* Another thread has a turn. */
inline forget() {
#ifdef ONE_LOOK
    knows[0] = false;
#if WORKERS > 1
    knows[1] = false;
#endif
#if WORKERS > 2
    knows[2] = false;
#endif
#else
    skip
#endif
}

/* Who lies asleep on `rings`, how many sleeps may still time out, and how many workers have seen the end. */
bool asleep[WORKERS];
byte timeouts = TIMEOUTS;
byte over;

#define can_pick (queued > 0 && running < max)
/* A job ends once GATE have begun, or where fewer may run at once. */
#define may_end (begun >= GATE || max < GATE)

#ifdef LEAVES_AT_ONCE
#define is_over (closed && !can_pick)
#else
#define is_over (closed && queued == 0 && running == 0)
#endif

/* `Guarded::has_work`, by the holder of the lock. */
#define has_work (is_over || can_pick)

/* `Lock::release` begins, in the same step as the act of its turn: `Bell::is_watched` reads `searcher`. */
inline start_release() {
    d_step {
        forget();
#ifdef WHOLE_TURNS
        ready = (searcher == NONE && sleepers == 0 || has_work)
#else
        held = true;
        watched = (searcher != NONE)
#endif
    }
}

/* The rest of `Lock::release`: `Bell::is_watched` reads `sleepers`, then `Bell::set_ready`. */
inline end_release() {
#ifdef WHOLE_TURNS
    skip
#else
    if
    :: atomic { watched -> ready = has_work; watched = false; held = false }
    :: atomic { !watched -> watched = (sleepers != 0) }
        d_step {
#ifdef LEAVES_READY_IF_UNWATCHED
            ready = (watched -> has_work : ready);
#else
#ifdef UNWATCHED_IS_NOTHING_TO_DO
            ready = (watched && has_work);
#else
            ready = (!watched || has_work);
#endif
#endif
            watched = false;
            held = false
        }
    fi
#endif
}

inline raise_rings() {
    d_step {
        stands[0] = false;
#if WORKERS > 1
        stands[1] = false;
#endif
#if WORKERS > 2
        stands[2] = false;
#endif
    }
}

/* One that lies asleep wakes, whichever. */
inline wake_one() {
    if
    :: atomic { asleep[0] -> asleep[0] = false }
#if WORKERS > 1
    :: atomic { asleep[1] -> asleep[1] = false }
#endif
#if WORKERS > 2
    :: atomic { asleep[2] -> asleep[2] = false }
#endif
    :: else
    fi
}

inline wake_all() {
    d_step {
        asleep[0] = false;
#if WORKERS > 1
        asleep[1] = false;
#endif
#if WORKERS > 2
        asleep[2] = false;
#endif
    }
}

/* `Bell::ring` */
inline ring() {
    if
    :: sleepers == 0
    :: else ->
        if
        :: !ready
        :: else ->
            if
            :: atomic { searcher == NONE -> searcher = WOKEN }
                raise_rings();
                wake_one()
            :: searcher != NONE
            fi
        fi
    fi
}

/* `Bell::ring_for_all` */
inline ring_for_all() {
    raise_rings();
    wake_all()
}

/* `Pool::submit`, again and again, and `Pool::close`. */
proctype Submitter() {
    do
    :: atomic { submitted < JOBS && !held -> submitted++; queued++; start_release() }
        end_release();
        ring()
    :: submitted == JOBS -> break
    od
#ifdef CLOSE
    atomic { !held -> closed = true; start_release() }
    end_release();
    ring_for_all()
#endif
}

#if VISITS > 0
/* `Executor::numbers`, again and again. */
proctype Visitor() {
    do
    :: atomic { visited < VISITS && !held -> visited++; start_release() }
        end_release()
    :: visited == VISITS -> break
    od
}
#endif

#ifdef SHRINK
/* `Pool::resize` */
proctype Resizer() {
    atomic { !held -> max = SHRINK; start_release() }
    end_release();
    ring();
#ifdef GROW
    atomic { !held -> max = WORKERS; start_release() }
    end_release();
#ifndef GROWS_IN_SILENCE
    ring()
#endif
#endif
}
#endif

proctype Worker(byte me) {
    /* `Sleeper`: whether it is the one that searches, and whether it has given the search up and then seen `ready`. */
    bool searches, gave_up;

    /* A look that finds no job asks in any case: `Lock::release_after`. */
look:
    if
    :: atomic { !held && can_pick -> queued--; begun++; running++; start_release() }
        end_release()
    :: atomic { !held && !can_pick && is_over -> ready = true; goto left }
#ifdef ASKS_ONLY_IF_WATCHED
    :: atomic { !held && !can_pick && !is_over -> start_release(); know(me) }
        end_release();
        goto nothing
#else
    :: atomic { !held && !can_pick && !is_over -> forget(); know(me); ready = false; goto nothing }
#endif
    fi;

    /* `Sleeper::found` */
    if
    :: searches -> searcher = NONE; ring()
#ifndef WHO_GAVE_UP_IS_SILENT
    :: !searches && gave_up -> ring()
    :: !searches && !gave_up
#else
    :: !searches
#endif
    fi;
    atomic { may_end && !held -> running--; searches = false; gave_up = false; start_release() }
    end_release();
    goto look;

nothing:
    /* `Sleeper::wait` */
    if
    :: searches
    :: !searches ->
        if
        :: atomic { searcher == NONE -> searcher = AWAKE; searches = true }
        :: searcher != NONE ->
            if
            :: atomic { searcher == WOKEN -> searcher = AWAKE; searches = true }
            :: searcher != WOKEN
            fi
        fi
    fi;
    if
    :: atomic { searches && ready -> is_news(me); goto look }
    :: !searches || !ready
    fi;
#ifndef LOOKS_BEFORE_IT_IS_COUNTED
    sleepers++;
#endif
#ifndef READS_RINGS_LAST
    stands[me] = true;
#endif
    if
    :: searches -> searcher = NONE
    :: !searches
    fi;
    if
    :: atomic { ready -> is_news(me); gave_up = searches; goto up }
    :: atomic { !ready -> gave_up = false }
    fi;
#ifdef LOOKS_BEFORE_IT_IS_COUNTED
    sleepers++;
#endif
#ifndef SLEEPS_BESIDE_A_CALL
    if
    :: searcher == WOKEN -> goto up
    :: searcher != WOKEN
    fi;
#endif
#ifdef READS_RINGS_LAST
    stands[me] = true;
#endif
    atomic {
        if
        :: stands[me] -> asleep[me] = true; stands[me] = false
        :: !stands[me]
        fi
    }
    if
    :: !asleep[me]
    :: atomic { asleep[me] && timeouts > 0 -> timeouts--; asleep[me] = false }
    fi;
up:
    sleepers--;
    if
    :: atomic { searcher == WOKEN -> searcher = AWAKE; searches = true; goto look }
    :: atomic { searcher != WOKEN -> searches = false; goto look }
    fi;

left:
#ifndef LEAVES_IN_SILENCE
    ring_for_all();
#endif
    over++
}

/* Where nobody can take a step any more, each job has begun, and with CLOSE each worker has left. */
proctype Monitor() {
    timeout;
    assert(begun == JOBS);
#ifdef CLOSE
    assert(over == WORKERS)
#endif
}

init {
    atomic {
        byte count = 0;
        do
        :: count < WORKERS -> run Worker(count); count++
        :: else -> break
        od;
        count = 0;
        do
        :: count < SUBMITTERS -> run Submitter(); count++
        :: else -> break
        od;
#ifdef SHRINK
        run Resizer();
#endif
#if VISITS > 0
        run Visitor();
#endif
        run Monitor()
    }
}
