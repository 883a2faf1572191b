/* The mailbox of resil_task: one sender, who sends once, and one receiver, who waits for it.

   No sleep ends by itself, but TIMEOUTS of them. A step is one access of the mailbox's word, or a turn at its slot, which no two have
   at a time. The receiver looks once before it lies down, at whatever time: only its last look matters. */

#ifndef TIMEOUTS
#define TIMEOUTS 0
#endif

#define AWAKE 0
#define ASLEEP 1
#define SENT 2

byte word = AWAKE;
/* The slot holds what was sent; the receiver lies asleep; it has got what was sent; how many sleeps may still end by themselves. */
bool present, lies, got;
byte timeouts = TIMEOUTS;

/* `Mailbox::put` */
proctype Sender() {
    byte found;
    present = true;
#ifdef LOADS_AND_STORES
    found = word;
    word = SENT;
#else
    atomic { found = word; word = SENT }
#endif
    if
    :: found == ASLEEP -> lies = false
    :: found != ASLEEP
    fi
}

/* `Mailbox::take_once_sent` */
proctype Receiver() {
take:
    if
    :: word == SENT ->
        if
        :: atomic { present -> present = false; got = true; goto end }
        :: !present
        fi
    :: word != SENT
    fi;
    /* `Mailbox::sleep` */
    if
    :: word == SENT -> goto take
    :: word != SENT
    fi;
    if
    :: atomic { word == AWAKE -> word = ASLEEP }
    :: word != AWAKE
    fi;
    atomic {
#ifdef SLEEPS_WITHOUT_A_LOOK
        lies = true
#else
        if
        :: word == ASLEEP -> lies = true
        :: word != ASLEEP
        fi
#endif
    }
    if
    :: !lies
    :: atomic { lies && timeouts > 0 -> timeouts--; lies = false }
    fi;
    goto take;
end:
    skip
}

/* Where nobody can take a step any more, the receiver has got what was sent. */
proctype Monitor() {
    timeout;
    assert(got)
}

init {
    atomic { run Sender(); run Receiver(); run Monitor() }
}
