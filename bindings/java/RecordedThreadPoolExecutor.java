import java.io.*;
import java.nio.charset.StandardCharsets;
import java.nio.file.Path;
import java.time.Instant;
import java.time.temporal.ChronoUnit;
import java.util.*;
import java.util.concurrent.*;
import java.util.concurrent.atomic.*;
import java.util.concurrent.locks.*;

/**
 * A {@link ThreadPoolExecutor} that records its own history, for {@code resil} to judge, count and chart. Every decision is the JDK's.
 *
 * <p><b>What is recorded, and when.</b> A submission, before a handler is called, with what {@link #execute} did: {@code core} and {@code extra}
 * started a thread for the task, {@code queued} queued it, {@code first} did so and started the only thread, {@code handed} gave it to an idle
 * thread, {@code full} and {@code closed} rejected it. A take, when a thread gets a queued task; a finish, after {@link #afterExecute}; tasks that
 * leave the queue without a thread; threads that start without a task, or have exited; shutdowns, and changes of the sizes or of the time-out of core
 * threads. Events are in the order of the decisions: a submission holds a lock from before it looks at the pool until it is recorded; a thread holds
 * it from the end of its task until it has the next one, waits for one or has exited; all other operations hold it too. Times are microseconds since
 * the pool was made, and never go back. Tasks, hooks and handlers run without the lock. A thread factory runs with it, and must not wait for the
 * pool.
 *
 * <p><b>Files.</b> {@code NAME-00001.csv} and so on, skipping numbers that are taken, each up to 4 MB. Each begins with events that recreate the
 * state of the pool, so it can be judged and charted on its own. A daemon thread, one for all pools, writes them without the lock. A record that
 * can't continue ends, and the pool goes on: {@link #endRecord} and one line of {@link System.Logger} say why; RECORDING.md lists the causes.
 *
 * <p><b>Hooks.</b> {@link #beforeExecute}, {@link #afterExecute} and {@link #terminated} of a subclass get the caller's own task. The pool that runs
 * the tasks is a part of this object, and calls none of its other methods except {@link #getThreadFactory}.
 *
 * <p><b>What isn't recorded.</b> Which thread runs a task; that a thread whose task threw is replaced; that a future was cancelled, which still runs
 * and finishes at once; what a handler does. Callers are threads: the first 1,000 have a number each, and all others share one.
 */
public class RecordedThreadPoolExecutor extends ThreadPoolExecutor {
    private static final int COUNT_MASK = (1 << 29) - 1, CALLERS = 1000, FEW = 25_000; // the bits that the JDK compares; tasks that fit into half a file
    private static final int LIMIT = 4_000_000, CHUNK = 8192, WAKE = 1 << 16, MOST_WAITING = 4 << 20; // bytes of a file, and of waiting rows
    private static final long YEAR = 31_536_000_000_000L, SECOND = 1_000_000_000L; // in microseconds, and in nanoseconds
    private static final String NO_THREAD = "tasks wait, and the pool has no thread", MANY = "more tasks wait than half a file holds",
        LATE = "a thread that was started hasn't arrived for a second", CALLED = "endRecord was called";
    static ThreadFactory writers = work -> new Thread(null, work, "RecordedThreadPoolExecutor", 0, false); // replaced in tests

    private final File folder;
    private final String name;
    private final int keep;
    private final long bytes;
    private final Pool pool;
    private volatile ThreadFactory factory;
    private volatile RejectedExecutionHandler handler;

    /**
     * Like {@link ThreadPoolExecutor#ThreadPoolExecutor(int, int, long, TimeUnit, BlockingQueue, ThreadFactory, RejectedExecutionHandler)}. If no
     * file can be made, the pool works all the same: {@link #endRecord} says why.
     *
     * @param queue an empty {@link ArrayBlockingQueue}, {@link LinkedBlockingQueue} or {@link SynchronousQueue}, fair or not; the pool's own
     *     queue, returned by {@link #getQueue}, is a different one with the same capacity and order
     * @param folder the folder of the files, which is made if it doesn't exist
     * @param name the prefix of their names: 1 to 64 letters, digits, {@code -}, {@code _} and {@code .}
     * @param keep how many of this pool's files are kept, always the last ones; 0 for all
     * @param bytes the maximum total size of its files, in bytes; the last file is always kept; 0 for no limit
     * @throws IllegalArgumentException if the JDK's constructor throws it, the low 29 bits of the maximum size, which are all that the JDK
     *     compares, are 0 or below the core size, or another value isn't as described here
     */
    public RecordedThreadPoolExecutor(int core, int max, long keepAlive, TimeUnit unit, BlockingQueue<Runnable> queue, ThreadFactory factory,
            RejectedExecutionHandler handler, Path folder, String name, int keep, long bytes) {
        super(0, 1, 0, TimeUnit.SECONDS, new LinkedBlockingQueue<>()); // this one has no threads and no tasks: `pool` has
        if (!name.matches("[A-Za-z0-9._-]{1,64}")) throw new IllegalArgumentException("invalid name of a record: " + name);
        this.factory = Objects.requireNonNull(factory);
        this.handler = Objects.requireNonNull(handler);
        this.folder = folder.toFile();
        this.name = name;
        this.keep = keep;
        this.bytes = bytes;
        checkSizes(core, max);
        pool = new Pool(core, max, keepAlive, unit, likeQueue(queue));
    }

    /** The same, with the JDK's thread factory and {@link ThreadPoolExecutor.AbortPolicy}; keeps the last 100 files, up to 100,000,000 bytes. */
    public RecordedThreadPoolExecutor(int core, int max, long keepAlive, TimeUnit unit, BlockingQueue<Runnable> queue, Path folder, String name) {
        this(core, max, keepAlive, unit, queue, Executors.defaultThreadFactory(), new AbortPolicy(), folder, name, 100, 100_000_000);
    }

    /**
     * A recorded pool with the sizes, the kind of queue, the keep-alive time, the thread factory, the handler and the time-out of core threads
     * of a pool that has no thread and no task yet. What a subclass overrides isn't copied.
     *
     * @throws IllegalArgumentException if {@code other} isn't a {@link ThreadPoolExecutor}, has a thread or a task, is shut down, or has
     *     sizes or a queue that the constructor refuses
     */
    public static RecordedThreadPoolExecutor like(ExecutorService other, Path folder, String name) {
        if (!(other instanceof ThreadPoolExecutor)) throw new IllegalArgumentException("not a ThreadPoolExecutor: " + other);
        ThreadPoolExecutor pool = (ThreadPoolExecutor) other;
        if (pool.getPoolSize() > 0 || pool.isShutdown()) throw new IllegalArgumentException("the pool is in use or shut down: " + pool);
        RecordedThreadPoolExecutor made = new RecordedThreadPoolExecutor(pool.getCorePoolSize(), pool.getMaximumPoolSize(),
            pool.getKeepAliveTime(TimeUnit.NANOSECONDS), TimeUnit.NANOSECONDS, pool.getQueue(), pool.getThreadFactory(),
            pool.getRejectedExecutionHandler(), folder, name, 100, 100_000_000);
        made.allowCoreThreadTimeOut(pool.allowsCoreThreadTimeOut());
        return made;
    }

    private static void checkSizes(int core, int max) {
        if ((max & COUNT_MASK) < Math.max(core, 1)) throw new IllegalArgumentException("a maximum size too small for core size " + core + ": " + max);
    }

    private static JobQueue likeQueue(BlockingQueue<Runnable> queue) {
        Class<?> kind = queue.getClass();
        if (kind != SynchronousQueue.class && kind != ArrayBlockingQueue.class && kind != LinkedBlockingQueue.class || !queue.isEmpty())
            throw new IllegalArgumentException("a recorded pool can't have a queue that is a " + kind.getName() + " or already has tasks");
        return new JobQueue(queue.remainingCapacity(), kind == SynchronousQueue.class && isFair(queue));
    }

    /** A {@link SynchronousQueue} doesn't say whether it is fair, but its serial form contains the class name of its list of waiters. */
    private static boolean isFair(BlockingQueue<Runnable> queue) {
        ByteArrayOutputStream form = new ByteArrayOutputStream();
        try (ObjectOutputStream out = new ObjectOutputStream(form)) { out.writeObject(queue); } catch (IOException never) {
            throw new IllegalArgumentException(never);
        }
        return new String(form.toByteArray(), StandardCharsets.ISO_8859_1).contains("FifoWaitQueue");
    }

    /**
     * Ends the record and writes what is left of it; the pool goes on.
     *
     * @return why the record had already ended, or null if it hadn't
     */
    public String endRecord() { return pool.endRecord(); }

    /** Begins a record again after it has ended: a new file, from the pool's current state. Does nothing if it hasn't ended. */
    public void beginRecord() { pool.beginRecord(); }

    // ---- What is recorded.

    @Override public void execute(Runnable task) { if (!pool.submit(pool.newJob(task))) handler.rejectedExecution(task, this); }
    @Override public void shutdown() { pool.step(() -> { pool.shutdown(); return null; }); }
    @Override public List<Runnable> shutdownNow() { return pool.step(pool::stop); }

    /** {@inheritDoc} A size above the low 29 bits of the maximum size is refused. */
    @Override public void setCorePoolSize(int core) {
        pool.step(() -> { checkSizes(core, pool.getMaximumPoolSize()); pool.setCorePoolSize(core); return null; });
    }

    /** {@inheritDoc} A size whose low 29 bits are 0 or below the core size is refused. */
    @Override public void setMaximumPoolSize(int max) {
        pool.step(() -> { checkSizes(pool.getCorePoolSize(), max); pool.setMaximumPoolSize(max); return null; });
    }

    @Override public void allowCoreThreadTimeOut(boolean value) { pool.step(() -> { pool.allowCoreThreadTimeOut(value); return null; }); }
    @Override public boolean prestartCoreThread() { return pool.step(pool::prestartCoreThread); }
    @Override public int prestartAllCoreThreads() { return pool.step(pool::prestartAllCoreThreads); }
    @Override public boolean remove(Runnable task) { return pool.step(() -> pool.remove(task)); }
    @Override public void purge() { pool.step(() -> { pool.purge(); return null; }); }

    // ---- What the pool itself answers.

    @Override public BlockingQueue<Runnable> getQueue() { return pool.queue; }
    @Override public void setThreadFactory(ThreadFactory factory) { this.factory = Objects.requireNonNull(factory); }
    @Override public ThreadFactory getThreadFactory() { return factory; }
    @Override public void setRejectedExecutionHandler(RejectedExecutionHandler handler) { this.handler = Objects.requireNonNull(handler); }
    @Override public RejectedExecutionHandler getRejectedExecutionHandler() { return handler; }
    @Override public void setKeepAliveTime(long time, TimeUnit unit) { pool.setKeepAliveTime(time, unit); }
    @Override public long getKeepAliveTime(TimeUnit unit) { return pool.getKeepAliveTime(unit); }
    @Override public boolean allowsCoreThreadTimeOut() { return pool.allowsCoreThreadTimeOut(); }
    @Override public int getCorePoolSize() { return pool.getCorePoolSize(); }
    @Override public int getMaximumPoolSize() { return pool.getMaximumPoolSize(); }
    @Override public int getPoolSize() { return pool.getPoolSize(); }
    @Override public int getActiveCount() { return pool.getActiveCount(); }
    @Override public int getLargestPoolSize() { return pool.getLargestPoolSize(); }
    @Override public long getTaskCount() { return pool.getTaskCount(); }
    @Override public long getCompletedTaskCount() { return pool.getCompletedTaskCount(); }
    @Override public boolean isShutdown() { return pool.isShutdown(); }
    @Override public boolean isTerminating() { return pool.isTerminating(); }
    @Override public boolean isTerminated() { return pool.isTerminated(); }
    @Override public boolean awaitTermination(long time, TimeUnit unit) throws InterruptedException { return pool.awaitTermination(time, unit); }
    @Override public String toString() {
        String state = pool.toString();
        return getClass().getName() + "@" + Integer.toHexString(hashCode()) + state.substring(state.indexOf('['));
    }

    // ---- The pool that runs the tasks, and what is recorded of it.

    /** What is kept for a thread that submits: its number, a file, and its last submission in it. Plain numbers keep no class alive. */
    private static final int ID = 0, FILE = 1, NUMBER = 2;

    /** A task on its way through the pool. A job without a task is the seat of an idle thread that waits for another thread's job. */
    private static final class Job implements Runnable {
        final Runnable task;
        final long[] caller;
        long number;
        Job before, next, given; // links in its list; the job that this seat got
        Jobs list;
        Condition isGiven;
        Job(Runnable task, long[] caller) { this.task = task; this.caller = caller; }
        @Override public void run() { task.run(); }
    }

    /** Jobs in order, each in at most one list. No change allocates memory, so none fails half done. */
    private static final class Jobs {
        private final Job ends = new Job(null, null);
        volatile int size; // read without the lock
        Jobs() { ends.before = ends.next = ends; }
        Job first() { return after(ends); }
        Job last() { return ends.before == ends ? null : ends.before; }
        Job after(Job job) { return job.next == ends ? null : job.next; }

        void add(Job job) {
            job.list = this;
            job.next = ends;
            job.before = ends.before;
            job.before.next = ends.before = job;
            size++;
        }

        boolean remove(Job job) {
            if (job == null || job.list != this) return false;
            job.before.next = job.next;
            job.next.before = job.before;
            job.list = null;
            size--;
            return true;
        }
    }

    private interface Step<T, E extends Exception> { T run() throws E; }

    /**
     * Overflows here, before a lock is taken, if the caller's stack is too short for what is done with the lock: 3 KB or more, in a few large frames,
     * since a processor predicts only a limited number of returns.
     */
    private static long touchStack(int deep, long a, long b, long c, long d, long e, long f, long g, long h, long i, long j, long k, long l) {
        return deep == 0 ? a : touchStack(deep - 1, b + l, c, d + a, e, f + b, g, h, i + c, j, k + d, l, a)
            + (a ^ b ^ c ^ d ^ e ^ f ^ g ^ h ^ i ^ j ^ k ^ l);
    }

    private static void touchStack() { touchStack(32, 1, 2, 3, 4, 5, 6, 7, 8, 9, 10, 11, 12); }

    private final class Pool extends ThreadPoolExecutor {
        final JobQueue queue;
        final ReentrantLock lock;
        private final Condition arrived;
        private final RecordFiles files = new RecordFiles();
        private final long start = System.nanoTime();
        private final long[] others = {CALLERS + 1, 0, 0};
        private final AtomicLong callers = new AtomicLong();
        private final ThreadLocal<long[]> caller = ThreadLocal.withInitial(this::newCaller);
        private final Jobs running = new Jobs(); // this and everything below is used with the lock
        private int workers, arriving, file; // threads in the record; how many of them haven't reached the queue; files so far
        private int core, max;               // the sizes in the record, as the JDK compares them
        private boolean closed, stopped, timeOut, stopping; // as in the record; whether the JDK is just stopping the pool
        private boolean submitting, offered, queued, started, rejected, asked, failed; // of the current step
        private ArrayList<Part> parts = new ArrayList<>(List.of(new Part(null))); // yet to be written
        private int length, waiting;    // the characters of the file so far, and of all parts
        private boolean watched, woken; // whether the writer knows that there are any, and many
        private volatile long at, writtenAt; // the times of the last event, and of the last one taken to be written
        private volatile int writing;        // how many characters were taken to be written
        private volatile String ended;       // why the record has ended
        private volatile boolean told;       // whether that was logged

        Pool(int core, int max, long keepAlive, TimeUnit unit, JobQueue queue) {
            super(core, max, keepAlive, unit, queue);
            this.queue = queue;
            this.core = core;
            this.max = max & COUNT_MASK;
            lock = queue.lock;
            arrived = lock.newCondition();
            queue.pool = this;
            setThreadFactory(this::newThread);
            setRejectedExecutionHandler((job, pool) -> rejected = true);
            lock.lock();
            try { open("the pool is new"); } finally { release(); }
        }

        private long[] newCaller() { long id = callers.incrementAndGet(); return id > CALLERS ? others : new long[] {id, 0, 0}; }
        Job newJob(Runnable task) { return new Job(Objects.requireNonNull(task), caller.get()); }

        /** Returns whether the task was accepted. */
        boolean submit(Job job) {
            touchStack();
            lock.lock();
            boolean done = false;
            try {
                if (queue.capacity == 0 && arriving > 0 && ended == null) awaitThreads();
                offered = queued = started = rejected = false;
                submitting = true;
                super.execute(job);
                if (started) workers++;
                if (started && queued) arriving++;
                else if (started) running.add(job);
                done = true;
                if (!failed) log("submit", job, reply());
                return !rejected;
            } finally {
                submitting = false;
                try {
                    if (failed || queued && !done) workers = getPoolSize();
                    if (failed || queued && !done) cut("no thread came for a task");
                    asked = failed = false;
                    resume();
                } finally { release(); }
            }
        }

        private String reply() {
            return rejected ? closed ? "closed" : "full" : !queued ? offered ? "extra" : "core" : queue.capacity == 0 ? "handed" : started ? "first" : "queued";
        }

        /** A thread that was started without a task counts as idle, and idle threads must have arrived before a hand-off. */
        private void awaitThreads() {
            boolean interrupted = false;
            for (long nanos = SECOND; arriving > 0 && nanos > 0;) {
                try { nanos = arrived.awaitNanos(nanos); } catch (InterruptedException ended) { interrupted = true; }
            }
            if (interrupted) Thread.currentThread().interrupt();
            if (arriving > 0 && ended == null) end(new IOException(LATE));
        }

        /** Makes a thread of the pool: it begins with the submitted task, or by looking at the queue. */
        private Thread newThread(Runnable worker) {
            boolean hasTask = submitting && !queued, before = failed;
            asked = failed = true; // failed, unless there is a thread
            Thread thread = RecordedThreadPoolExecutor.this.getThreadFactory().newThread(new Runnable() {
                @Override public void run() {
                    if (!hasTask) lock.lock();
                    if (!hasTask) come();
                    try { worker.run(); } finally { leave(); }
                }
            });
            started = thread != null;
            failed = before || !started;
            return thread;
        }

        /** Called with the lock, which the thread keeps until it waits at the queue, has a task or has exited. */
        private void come() { if (--arriving == 0) arrived.signalAll(); resume(); }

        /** If the hook throws, the JDK doesn't run the task, and the thread ends. */
        @Override protected void beforeExecute(Thread thread, Runnable job) {
            try { RecordedThreadPoolExecutor.this.beforeExecute(thread, ((Job) job).task); } catch (Throwable thrown) { finish((Job) job); throw thrown; }
        }

        /** If the hook throws, some JDKs call it a second time; it never holds the lock. */
        @Override protected void afterExecute(Runnable job, Throwable thrown) {
            boolean again = lock.isHeldByCurrentThread();
            if (again) arriving++;
            if (again) lock.unlock();
            try { RecordedThreadPoolExecutor.this.afterExecute(((Job) job).task, thrown); } finally { finish((Job) job); if (again) come(); }
        }

        /** Keeps the lock for what the thread does next: it looks at the queue, or exits. */
        private void finish(Job job) { lock.lock(); if (running.remove(job)) log("finish", job, ""); }

        /** The thread has left the pool, which may have another in its place. */
        private void leave() {
            if (!lock.isHeldByCurrentThread()) lock.lock();
            try {
                boolean gone = getPoolSize() < workers;
                if (!gone && asked) arriving++;
                asked = failed = false;
                if (!gone) return;
                boolean idle = queue.jobs.size == 0 && (closed || workers > (timeOut ? 0 : core)), culled = stopped || workers > max;
                workers--;
                if (idle || culled) log(idle ? "idle" : "cull", null, "");
                else cut("no thread came for one whose task threw");
            } finally { release(); }
            if (isTerminated()) LockSupport.unpark(Writer.thread);
        }

        /** The hook doesn't hold the lock, which `step` and `leave` take again. What was done before the hook is recorded before it. */
        @Override protected void terminated() {
            if (lock.isHeldByCurrentThread()) settle();
            while (lock.isHeldByCurrentThread()) lock.unlock();
            RecordedThreadPoolExecutor.this.terminated();
        }

        List<Runnable> stop() {
            stopping = true;
            try { return super.shutdownNow(); } finally { stopping = false; }
        }

        /** The JDK drains the queue once the pool is stopped. */
        void drained() { if (!stopping || stopped) return; stopped = closed = true; log("stop", null, ""); }

        /** Takes a step with the lock. The outermost step is recorded, even if it throws. */
        <T, E extends Exception> T step(Step<T, E> step) throws E {
            touchStack();
            lock.lock();
            int held = lock.getHoldCount();
            try { return step.run(); } finally {
                while (lock.getHoldCount() < held) lock.lock();
                try { if (held == 1) settle(); } finally { release(); }
            }
        }

        /** Records what a step has done to the pool. Each event is logged after the fields are set, since a file may begin after it. */
        private void settle() {
            if (isShutdown() && !closed) { closed = true; log("close", null, ""); }
            int nowMax = getMaximumPoolSize() & COUNT_MASK;
            if (core != getCorePoolSize() || max != nowMax) { core = getCorePoolSize(); max = nowMax; log("resize", null, ""); }
            if (timeOut != allowsCoreThreadTimeOut()) { timeOut = !timeOut; log("time_out", null, ""); }
            for (int more = asked ? getPoolSize() - workers : 0; more > 0; more--) { workers++; arriving++; log("start", null, ""); }
            asked = failed = false;
            resume();
        }

        /** Releases the lock. If no thread can write, the one that had the lock does. */
        private void release() {
            boolean writes = Writer.thread == null && (waiting > CHUNK || waiting > 0 && at - writtenAt > 1_000_000);
            lock.unlock();
            if (writes && !lock.isHeldByCurrentThread()) write(false);
        }

        // ---- The record, with the lock. An error in it ends the record and throws nothing.

        void log(String event, Job job, String reply) {
            if (ended != null) return;
            try {
                if (waiting + writing > MOST_WAITING) throw new IOException("4 MiB of it wait for the disk");
                at = now();
                row(event, job, reply);
                watch();
                if (length > LIMIT) cut("the file was full");
            } catch (Throwable thrown) { end(thrown); }
        }

        private void row(String event, Job job, String reply) { row(event, job, reply, core, max); }

        /** Writes a row completely, or not at all. */
        private void row(String event, Job job, String reply, int core, int max) {
            StringBuilder rows = parts.get(parts.size() - 1).rows;
            int from = rows.length();
            try {
                if (event.equals("submit")) {
                    if (job.caller[FILE] != file) job.caller[NUMBER] = 0;
                    job.caller[FILE] = file;
                    job.number = ++job.caller[NUMBER];
                }
                rows.append(event).append(',');
                if (job == null) rows.append(',');
                else rows.append(job.caller[ID]).append(',').append(job.number);
                rows.append(',').append(reply).append(',');
                if (event.equals("resize")) rows.append(core).append(',').append(max).append(',');
                else rows.append(event.equals("time_out") ? timeOut ? ",,on" : ",,off" : ",,");
                rows.append(',').append(at).append('\n');
            } catch (Throwable thrown) { rows.setLength(from); throw thrown; }
            length += rows.length() - from;
            waiting += rows.length() - from;
        }

        /** Records a task that was put into the queue from outside the pool. */
        void logPut(Job job) {
            if (closed || workers < Math.max(core, 1)) cut("a task was put into the queue that the rule answers otherwise");
            else log("submit", job, queue.capacity == 0 ? "handed" : "queued");
        }

        /**
         * Records that a thread took a task. By the rule no thread of a stopped pool does. But one whose time was over before the stop looks once
         * more, and finds a task that was put into the queue after the stop.
         */
        void logTake(Job job) {
            if (stopped) cut("a thread of a stopped pool took a task");
            else log("take", job, "");
        }

        private long now() { return Math.max(at, (System.nanoTime() - start) / 1000); }

        /** Ends the record, unless it has ended. */
        private void end(Throwable thrown) {
            if (ended != null && ended != CALLED) return;
            try { ended = thrown instanceof IOException ? thrown.getMessage() : thrown.toString(); } catch (Throwable none) { ended = "no memory"; }
            watch();
        }

        /** Makes sure that whatever is to be written and logged is so within half a second. */
        private void watch() {
            if (!watched) Writer.add(this);
            else if (waiting > WAKE && !woken) LockSupport.unpark(Writer.thread);
            watched = true;
            woken = waiting > WAKE;
        }

        /** Ends the file and begins the next one. */
        private void cut(String why) { if (ended == null) open(why); }

        /** Begins a record again, if the reason why it ended is gone. */
        private void resume() {
            int tasks = queue.jobs.size;
            if (!pauses() || workers == 0 && tasks > 0 || ended == LATE && arriving > 0 || ended == MANY && tasks > FEW) return;
            open(ended == MANY ? "fewer tasks wait" : "a thread came");
        }

        private boolean pauses() { return ended == NO_THREAD || ended == LATE || ended == MANY; }

        /** Begins a file: its head, and the events that recreate the pool's current state. */
        private void open(String why) {
            int tasks = queue.jobs.size, idle = workers - running.size, before = waiting, last = parts.size();
            ended = workers == 0 && tasks > 0 ? NO_THREAD : null;
            try {
                if (ended != null) return;
                boolean sized = workers > core || workers < core && tasks > 0; // threads start below the core size, and tasks wait only above it
                at = now();
                file++;
                Part part = new Part(why);
                part.rows.append("core = ").append(core).append("\nmax = ").append(COUNT_MASK).append("\nqueue = ").append(queue.capacity)
                    .append("\nidle_for = ").append(Math.min(getKeepAliveTime(TimeUnit.MICROSECONDS), YEAR)).append("\nmade = ")
                    .append(1 + workers + tasks + (sized ? 1 : 0) + (timeOut ? 1 : 0) + (closed ? 1 : 0))
                    .append("\n---\nevent,caller,number,reply,core,max,time_out,at\n");
                waiting += length = part.rows.length();
                parts.add(part);
                row("resize", null, "", sized ? workers : core, Math.max(sized ? workers : core, max));
                for (Job job = running.first(); job != null; job = running.after(job)) row("submit", job, "core");
                for (int i = 0; i < idle; i++) row("start", null, "");
                for (Job job = queue.jobs.first(); job != null; job = queue.jobs.after(job)) {
                    row("submit", job, "queued");
                    if (length > LIMIT / 2) throw new IOException(MANY);
                }
                if (sized) row("resize", null, "");
                if (timeOut) row("time_out", null, "");
                if (closed) row(stopped ? "stop" : "close", null, "");
            } catch (Throwable thrown) {
                if (parts.size() > last) parts.remove(last);
                waiting = before;
                end(thrown);
            } finally { watch(); }
        }

        String endRecord() {
            touchStack();
            lock.lock();
            String before = ended;
            if (before == null || pauses()) ended = CALLED;
            lock.unlock();
            write(true);
            String now = ended;
            return before != null || now == CALLED ? before : now;
        }

        void beginRecord() {
            touchStack();
            lock.lock();
            try { if (ended != null) open("beginRecord was called"); } finally { release(); }
        }

        // ---- Writing, without the lock: one thread at a time, in order.

        /** Writes what there is, and logs why the record ended. If not patient, only if the lock is free soon. */
        void write(boolean patient) {
            try {
                touchStack();
                synchronized (files) {
                    List<Part> all = take(patient);
                    for (Part part : all) {
                        try { files.write(part); } catch (Throwable thrown) {
                            lock.lock();
                            try { end(thrown); } finally { lock.unlock(); }
                        }
                    }
                    writing = 0;
                }
                String why = ended;
                if (told || why == null || why == CALLED) return;
                told = true;
                System.getLogger(RecordedThreadPoolExecutor.class.getName())
                    .log(System.Logger.Level.WARNING, "the record of the pool " + name + " in " + folder + " ended, and the pool goes on: " + why);
            } catch (Throwable thrown) { writtenAt = at; }
        }

        /** Takes what there is to write. If that is nothing, the writer forgets this pool. */
        private List<Part> take(boolean patient) throws InterruptedException {
            if (patient) lock.lock();
            else if (!lock.tryLock(10, TimeUnit.MILLISECONDS)) return List.of();
            try {
                watched = waiting > 0;
                writtenAt = at;
                if (!watched) Writer.pools.remove(this);
                if (!watched) return List.of();
                ArrayList<Part> all = parts, none = new ArrayList<>(List.of(new Part(null)));
                parts = none;
                writing = waiting;
                waiting = 0;
                woken = false;
                return all;
            } finally { lock.unlock(); }
        }
    }

    /** The pool's threads get jobs from it, with the lock; other threads get tasks, and may put some. With capacity 0 it hands jobs over. */
    private static final class JobQueue extends AbstractQueue<Runnable> implements BlockingQueue<Runnable> {
        final ReentrantLock lock = new ReentrantLock();
        private final Condition filled = lock.newCondition(), freed = lock.newCondition();
        final Jobs jobs = new Jobs();
        private final Jobs seats = new Jobs(); // of idle threads, in order of arrival
        final int capacity;
        private final boolean fair;
        Pool pool;

        JobQueue(int capacity, boolean fair) { this.capacity = capacity; this.fair = fair; }

        private boolean add(Job job) {
            if (capacity == 0) return hand(job);
            if (jobs.size == capacity) return false;
            jobs.add(job);
            filled.signal();
            return true;
        }

        /** To the thread that came last, as {@link SynchronousQueue} does; to the first one if it is fair. */
        private boolean hand(Job job) {
            Job seat = fair ? seats.first() : seats.last();
            if (!seats.remove(seat)) return false;
            seat.given = job;
            seat.isGiven.signal();
            pool.running.add(job);
            return true;
        }

        private Job take(Job job) { if (job == null || !jobs.remove(job)) return null; freed.signal(); return job; }
        private Runnable drop(Job job) { if (take(job) == null) return null; pool.log("remove", job, ""); return job.task; }
        private boolean put(Job job) { if (!add(job)) return false; pool.logPut(job); return true; }

        @Override public boolean offer(Runnable task) {
            if (task instanceof Job) { pool.offered = true; return pool.queued = add((Job) task); }
            Job job = pool.newJob(task);
            return pool.step(() -> put(job));
        }

        @Override public boolean offer(Runnable task, long time, TimeUnit unit) throws InterruptedException {
            Job job = pool.newJob(task);
            return pool.step(() -> {
                if (Thread.interrupted()) throw new InterruptedException();
                for (long nanos = unit.toNanos(time); !put(job); nanos = freed.awaitNanos(nanos)) if (nanos <= 0) return false;
                return true;
            });
        }

        /** Waits for at most 292 years. */
        @Override public void put(Runnable task) throws InterruptedException { offer(task, Long.MAX_VALUE, TimeUnit.NANOSECONDS); }
        @Override public Runnable take() throws InterruptedException { return next(false, 0); }
        @Override public Runnable poll(long time, TimeUnit unit) throws InterruptedException { return next(true, unit.toNanos(time)); }

        /** A thread of the pool holds the lock. It releases the lock while it waits and when it gets a job, and keeps it otherwise. */
        private Runnable next(boolean timed, long nanos) throws InterruptedException {
            if (!lock.isHeldByCurrentThread()) return pool.step(() -> drop(await(timed, nanos)));
            Job job = capacity == 0 ? awaitJob(timed, nanos) : take(await(timed, nanos));
            if (job == null) return null;
            if (capacity > 0) pool.running.add(job);
            if (capacity > 0) pool.logTake(job);
            lock.unlock();
            return job;
        }

        private Job await(boolean timed, long nanos) throws InterruptedException {
            if (Thread.interrupted()) throw new InterruptedException();
            while (jobs.size == 0 && (!timed || nanos > 0)) { if (timed) nanos = filled.awaitNanos(nanos); else filled.await(); }
            return jobs.first();
        }

        /** A thread that is interrupted keeps a job that it already got. */
        private Job awaitJob(boolean timed, long nanos) throws InterruptedException {
            if (Thread.interrupted()) throw new InterruptedException();
            Job seat = new Job(null, null);
            seat.isGiven = lock.newCondition();
            seats.add(seat);
            long left = lock.hasWaiters(freed) ? Math.max(nanos, SECOND / 10) : nanos; // a waiting put also gets a thread without a keep-alive
            freed.signal();
            try {
                while (seat.given == null && (!timed || left > 0)) { if (timed) left = seat.isGiven.awaitNanos(left); else seat.isGiven.await(); }
            } catch (InterruptedException ended) {
                if (seat.given == null) throw ended;
                Thread.currentThread().interrupt();
            } finally { seats.remove(seat); }
            return seat.given;
        }

        @Override public Runnable poll() { return pool.step(() -> drop(jobs.first())); }
        @Override public Runnable peek() { return pool.step(() -> jobs.size == 0 ? null : jobs.first().task); }
        @Override public void clear() { drainTo(new ArrayList<>()); }
        @Override public int drainTo(Collection<? super Runnable> tasks) { return drainTo(tasks, Integer.MAX_VALUE); }
        @Override public int drainTo(Collection<? super Runnable> tasks, int most) {
            if (tasks == this) throw new IllegalArgumentException("a queue can't be drained into itself");
            return pool.step(() -> {
                pool.drained();
                int count = 0;
                for (; count < most && jobs.size > 0; count++) { tasks.add(jobs.first().task); drop(jobs.first()); }
                return count;
            });
        }

        /** Iterates over the tasks that wait now. */
        @Override public Iterator<Runnable> iterator() {
            List<Job> now = new ArrayList<>();
            pool.step(() -> {
                for (Job job = jobs.first(); job != null; job = jobs.after(job)) now.add(job);
                return null;
            });
            Iterator<Job> all = now.iterator();
            return new Iterator<>() {
                private Job last;
                @Override public boolean hasNext() { return all.hasNext(); }
                @Override public Runnable next() { return (last = all.next()).task; }
                @Override public void remove() { pool.step(() -> drop(Objects.requireNonNull(last))); }
            };
        }

        @Override public int size() { return jobs.size; }
        @Override public int remainingCapacity() { return capacity - jobs.size; }
    }

    /** Rows of a file. If they begin it, the head is with them, and `why` is the reason for the file. */
    private static final class Part {
        final String why;
        final Instant began = Instant.now();
        final StringBuilder rows = new StringBuilder(512);
        Part(String why) { this.why = why; }
    }

    /** The files of this pool. */
    private final class RecordFiles {
        private final ArrayDeque<long[]> own = new ArrayDeque<>(); // the number and the size of each of this pool's files that is kept
        private int number;
        private String record;  // which of the records with this name it is
        private long total;     // the sum of the sizes
        private boolean broken; // the rest of this file can't be written

        private File fileOf(long number) {
            return new File(folder, name + "-" + (number < 100_000 ? String.valueOf(100_000 + number).substring(1) : number) + ".csv");
        }

        void write(Part part) throws IOException {
            if (part.why == null && (broken || part.rows.length() == 0)) return;
            broken = true;
            if (part.why != null) begin(part);
            try { append(part.rows); } finally { if (own.getLast()[1] == 0) fileOf(own.removeLast()[0]).delete(); }
            broken = false;
        }

        /** Makes a file with the next free number, searched for in steps that double and then halve. */
        private void begin(Part part) throws IOException {
            folder.mkdirs();
            for (number++; !fileOf(number).createNewFile(); number++) {
                int step = 1;
                for (; fileOf(number + step).exists(); step *= 2) number += step;
                for (step /= 2; step > 0; step /= 2) if (fileOf(number + step).exists()) number += step;
            }
            own.addLast(new long[] {number, 0});
            if (record == null) record = ", process " + ProcessHandle.current().pid() + ", from file " + number;
            String whose = name.substring(Math.max(0, name.length() + record.length() - 64)) + record;
            part.rows.insert(0, "# " + name + ", file " + number + ": " + part.why + ".\nname = \"" + name + "\"\nrecord = \"" + whose
                + "\"\nbegan = " + part.began.truncatedTo(ChronoUnit.MICROS) + "\n");
        }

        /** Writes whole rows, and none across a page boundary, so that a killed process leaves whole rows. */
        private void append(StringBuilder rows) throws IOException {
            long[] last = own.getLast();
            File file = fileOf(last[0]);
            if (file.length() != last[1]) throw new IOException(file + " has changed since it was last written");
            trim(rows.length());
            try (FileOutputStream out = new FileOutputStream(file, true)) {
                for (int from = 0, end; from < rows.length(); from = end) {
                    end = (int) Math.min(rows.length(), from + 4096 - last[1] % 4096);
                    while (end > from && rows.charAt(end - 1) != '\n') end--;
                    if (end == from) end = rows.indexOf("\n", from) + 1;
                    try { out.write(rows.substring(from, end).getBytes(StandardCharsets.US_ASCII)); } catch (IOException thrown) {
                        out.getChannel().truncate(last[1]);
                        throw thrown;
                    }
                    last[1] += end - from;
                    total += end - from;
                }
            }
        }

        /** Deletes the first files until there is room for this many more bytes. */
        private void trim(int more) {
            while (own.size() > 1 && (keep > 0 && own.size() > keep || bytes > 0 && total + more > bytes)) {
                long[] gone = own.removeFirst();
                total -= gone[1];
                if (fileOf(gone[0]).length() == gone[1]) fileOf(gone[0]).delete();
            }
        }
    }

    /** The thread that writes for all pools: it starts with the first row, and exits when there has been none for five seconds. */
    private static final class Writer {
        static final Set<Pool> pools = ConcurrentHashMap.newKeySet(); // those with something to write
        static volatile Thread thread;
        private static Thread hook;
        private static volatile boolean exits;
        private static volatile int rounds;

        /** If no thread can be started, there is none. */
        static synchronized void add(Pool pool) {
            try {
                pools.add(pool);
                if (thread != null) return;
                Thread made = writers.newThread(Writer::run), end = writers.newThread(Writer::exit);
                made.setDaemon(true);
                made.setContextClassLoader(null);
                end.setContextClassLoader(null);
                made.start();
                thread = made;
                hook = end;
                Runtime.getRuntime().addShutdownHook(end);
            } catch (Throwable none) { hook = null; }
        }

        private static void run() {
            for (int quiet = 0; quiet < 10 || !goes(); quiet++) {
                for (Pool pool : pools) { pool.write(false); quiet = 0; }
                rounds++;
                LockSupport.parkNanos(Writer.class, exits ? 10_000_000 : 500_000_000);
            }
        }

        private static synchronized boolean goes() {
            if (!pools.isEmpty()) return false;
            thread = null;
            try { if (hook != null) Runtime.getRuntime().removeShutdownHook(hook); } catch (IllegalStateException ending) { exits = true; }
            return true;
        }

        /** The program exits. A slow disk delays it by at most five seconds. */
        private static void exit() {
            exits = true;
            for (int wait = 0, enough = rounds + 2; wait < 500 && thread != null && rounds < enough; wait++) {
                LockSupport.unpark(thread);
                LockSupport.parkNanos(10_000_000);
            }
        }
    }
}
