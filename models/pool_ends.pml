/* How jobs of bindings/rust's ThreadPool end while its lock is taken: the answer goes out before the rule knows that the job has ended.

   WORKERS workers run JOBS jobs each, one after the other. Each end goes by the lock, or without it. ASKERS threads ask for numbers at
   any time, and JOINS threads join at any time.

   A step is one access of a word beside the lock, or one hold of the lock; whoever asks for numbers or joins has the lock for as long
   as he waits for answers. The workers here have one word. Of more than 64 places each 64 have a word of their own, and whoever has the
   lock waits for one word and takes it after the other: an end that he knows of has begun in its word before he looks there. */

#ifndef JOBS
#define JOBS 1
#endif
#ifndef ASKERS
#define ASKERS 0
#endif
#ifndef JOINS
#define JOINS 0
#endif
#define ALL (WORKERS * JOBS)

bool locked;
/* Beside the lock: by workers, whose end has begun, and whose answer is out; and the number of the job. */
bool begun[WORKERS], out[WORKERS];
byte number[WORKERS];
/* Seen from outside: the answers, by jobs. */
bool answer[ALL];
/* The rule, under the lock: which jobs are finished. */
bool finished[ALL];
byte count;
#if JOINS > 0
byte left[JOINS];
bool joining[JOINS];
#endif

/* `Book::finish` and `Crew::settle` */
inline finish(job) {
    assert(!finished[job]);
    finished[job] = true;
    count++;
#if JOINS > 0
    k = 0;
    do
    :: k < JOINS ->
        left[k] = left[k] - joining[k];
#ifndef WAKES_NO_JOINER
        joining[k] = joining[k] && left[k] > 0;
#endif
        k++
    :: else -> break
    od;
    k = 0
#endif
}

/* `Ends::take` and `Crew::take_ends` */
inline take_ends() {
    d_step {
        i = 0;
        do
        :: i < WORKERS ->
            if
#ifdef TAKES_WHAT_HAS_BEGUN
            :: begun[i] ->
#else
            :: out[i] ->
#endif
                out[i] = false;
                begun[i] = false;
                finish(number[i])
            :: else
            fi;
            i++
        :: else -> break
        od;
        i = 0
    }
}

/* `Crew::lock_settled`: each end that has begun is told, once its answer is out. */
inline lock_settled() {
    atomic { !locked -> locked = true }
#ifndef WAITS_FOR_NO_ANSWER
    i = 0;
    do
    :: i < WORKERS ->
        if
        :: begun[i] -> out[i]
        :: !begun[i]
        fi;
        i++
    :: i == WORKERS -> break
    od;
    i = 0;
#endif
    take_ends()
}

proctype Worker(byte me) {
    byte job = me * JOBS, i, k;
    do
    :: job < (me + 1) * JOBS ->
        if
        :: atomic { !locked -> finish(job); answer[job] = true }
        :: number[me] = job;
#ifdef HANDS_OUT_BEFORE_IT_BEGINS
            answer[job] = true;
            begun[me] = true;
#else
            begun[me] = true;
            answer[job] = true;
#endif
            out[me] = true;
#ifndef LEAVES_ITS_END
            atomic { !locked -> take_ends() }
#endif
        fi;
        job++
    :: else -> break
    od
}

/* `ThreadPool::numbers`, by whoever has some of the answers. */
proctype Asker() {
    bool had[ALL];
    byte i, k, job;
    do
    :: job < ALL -> had[job] = answer[job]; job++
    :: else -> break
    od;
    lock_settled();
    d_step {
        job = 0;
        do
        :: job < ALL ->
            /* Whoever has an answer finds the job finished, and whoever finds a job finished finds its answer. */
            assert(!had[job] || finished[job]);
            assert(!finished[job] || answer[job]);
            job++
        :: else -> break
        od
    }
    locked = false
}

#if JOINS > 0
/* `ThreadPool::join` */
proctype Join(byte me) {
    byte i, k, last;
    lock_settled();
    d_step {
        left[me] = ALL - count;
        joining[me] = left[me] > 0;
        locked = false
    }
    atomic { !joining[me] -> last = ALL }
    assert(count == ALL)
}
#endif

/* Where nobody can take a step any more, each job is finished, its answer is out, and nobody waits. */
proctype Monitor() {
    timeout;
    assert(count == ALL && !locked);
#if JOINS > 0
    assert(!joining[0])
#endif
}

init {
    byte n = 0;
    atomic {
        do
        :: n < WORKERS -> run Worker(n); n++
        :: else -> break
        od;
        n = 0;
        do
        :: n < ASKERS -> run Asker(); n++
        :: else -> break
        od;
#if JOINS > 0
        n = 0;
        do
        :: n < JOINS -> run Join(n); n++
        :: else -> break
        od;
#endif
        run Monitor()
    }
}
