/* The hand-out of an answer, of the crate for rustc: a worker that writes it, and a handle that waits for it.

   The handle gives up TIMEOUTS times at most, as `JobHandle::wait_for` does, and then waits again. A sleep ends by a wake-up, or with the
   handle's time. `park` sleeps where no wake-up has come since the last one, and takes it. With DROPS the handle is dropped at any time, as
   a future is that was polled.

   Each of the two leaves the task once, and the one that finds that the other has left frees it: nobody reaches it behind that.

   A step is one access of the state. Of the two cells, the answer and the waiter, each access begins and ends: nobody else may be at it meanwhile. */

#ifndef TIMEOUTS
#define TIMEOUTS 0
#endif

/* The state, and whether the task was freed. */
bool answered, awaited, worker_left, handle_left, freed;
/* The cells, and who is at that of the waiter. */
bool answer, waiter;
byte at_waiter;
/* A wake-up of the handle's thread that it hasn't taken; whether the handle has its answer or was dropped; how often it may still give up. */
bool woken, has_answer, dropped;
byte timeouts = TIMEOUTS;

#define reach assert(!freed)

inline enter_waiter() { atomic { reach; at_waiter++; assert(at_waiter == 1) } }
inline leave_waiter() { atomic { reach; at_waiter-- } }
inline free_task() { atomic { reach; freed = true } }

/* `Task::end` and `HandOut::hand_out` */
proctype Worker() {
    bool found, some, is_last;
    /* Where the handle is gone nothing is handed out, and the task is freed. */
    atomic { reach; is_last = handle_left }
    if
    :: is_last -> goto free
    :: !is_last
    fi;
#ifndef HANDS_OUT_EARLY
    atomic { reach; answer = true }
#endif
#ifdef LOADS_AND_STORES
    atomic { reach; found = awaited; is_last = handle_left }
    atomic { reach; answered = true; worker_left = !found }
#else
    atomic {
        reach;
        found = awaited;
        is_last = handle_left;
        answered = true;
#ifdef LEAVES_WITH_A_WAITER
        worker_left = true
#else
        worker_left = !found
#endif
    }
#endif
#ifdef HANDS_OUT_EARLY
    atomic { reach; answer = true }
#endif
    if
    :: found ->
        enter_waiter();
        atomic { some = waiter; waiter = false }
        leave_waiter();
        atomic { reach; is_last = handle_left; worker_left = true }
        if
        :: some -> woken = true
        :: !some
        fi
    :: !found
    fi;
free:
    if
    :: is_last -> free_task()
    :: !is_last
    fi
}

/* `Task::wait` and `Task::sleep`, again and again; `Task::poll` takes the same steps, and lies down by giving up */
proctype Handle() {
    bool found;
wait:
    if
    :: atomic { answered -> reach; goto take }
    :: atomic { !answered -> reach }
#ifdef DROPS
    :: dropped = true; goto leave
#endif
    fi;
#ifndef AWAITED_BEFORE_THE_WAITER
    enter_waiter();
    waiter = true;
    leave_waiter();
    atomic { reach; found = answered; awaited = true }
#else
    atomic { reach; found = answered; awaited = true }
    enter_waiter();
    waiter = true;
    leave_waiter();
#endif
    if
    :: found -> goto take
    :: !found
    fi;
    do
    :: atomic { answered -> reach; goto take }
#ifdef DROPS
    :: dropped = true; goto leave
#endif
    :: !answered ->
        if
        :: atomic { woken -> woken = false }
        :: atomic { timeouts > 0 -> timeouts-- }
#ifdef GIVES_UP_AWAITED
            found = answered;
#else
            atomic { reach; found = answered; awaited = false }
#endif
            if
            :: found -> goto take
            :: !found -> goto wait
            fi
#ifdef DROPS
        :: dropped = true; goto leave
#endif
        fi
    od;
take:
    atomic { reach; assert(answer) }
    has_answer = true;
    /* `Held::drop` */
leave:
    atomic { reach; found = worker_left }
    if
    :: found
    :: !found ->
#ifdef LEAVES_UNSEEN
        atomic { reach; found = worker_left }
        atomic { reach; handle_left = true }
#else
        atomic { reach; found = worker_left; handle_left = true }
#endif
    fi;
    if
    :: found -> free_task()
    :: !found
    fi
}

/* Where nobody can take a step any more, the handle has its answer or was dropped, and the task was freed. */
proctype Monitor() {
    timeout;
    assert(has_answer || dropped);
    assert(freed)
}

init {
    atomic { run Worker(); run Handle(); run Monitor() }
}
