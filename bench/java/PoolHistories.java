import java.io.BufferedReader;
import java.io.IOException;
import java.io.InputStreamReader;
import java.io.PrintStream;
import java.util.AbstractQueue;
import java.util.ArrayList;
import java.util.Collection;
import java.util.Iterator;
import java.util.LinkedHashMap;
import java.util.List;
import java.util.Map;
import java.util.Random;
import java.util.Set;
import java.util.concurrent.ArrayBlockingQueue;
import java.util.concurrent.BlockingQueue;
import java.util.concurrent.ConcurrentHashMap;
import java.util.concurrent.CountDownLatch;
import java.util.concurrent.LinkedBlockingQueue;
import java.util.concurrent.SynchronousQueue;
import java.util.concurrent.ThreadPoolExecutor;
import java.util.concurrent.TimeUnit;
import java.util.concurrent.locks.LockSupport;
import java.util.concurrent.locks.ReentrantLock;

/**
 * Makes histories of the JDK's own ThreadPoolExecutor, and has a program judge them by the whole rule.
 *
 * <p>{@code PoolHistories FIRST COUNT PROGRAM [WORDS]} drives one pool for each seed from FIRST on. It takes one action at a time: a submission, the
 * end of a task, a removal, a prestart, a change of the sizes or of the time-out, an elapsed keep-alive, a shutdown. After each it waits until every
 * thread either runs a task or waits at the queue. What is written of a submission is read off what {@code execute} called (the queue's
 * {@code offer}, the thread factory, the handler), and never off the rule.
 *
 * <p>The program reads all histories on its standard input, and answers a line for each. A history as it was made must be legal. A copy with one
 * reply changed must be illegal, at that event. The last line is 'N passed, M failed'.
 *
 * <p>The property histories, if it is set, names a folder: a file SEED.csv there has the history of each seed in version 4 of its text, with the number of
 * each event as its time.
 */
public final class PoolHistories {
    private static final int LARGEST = 536_870_911;
    private static final long LONG_KEEP_ALIVE = TimeUnit.HOURS.toNanos(1);
    private static final int CHANGES = 6;
    private static final List<String> REPLIES = List.of("core", "queued", "extra", "full", "closed", "first", "handed");

    private PoolHistories() {}

    public static void main(String[] words) throws Exception {
        long first = Long.parseLong(words[0]);
        int count = Integer.parseInt(words[1]);
        List<Verdict> verdicts = new ArrayList<>();
        Map<String, Integer> seen = new LinkedHashMap<>();
        Process judge = new ProcessBuilder(List.of(words).subList(2, words.length)).redirectError(ProcessBuilder.Redirect.INHERIT).start();
        Thread reader = new Thread(() -> readVerdicts(judge, verdicts));
        reader.start();
        int[] counts = new int[2];
        List<Verdict> wanted = new ArrayList<>();
        try (PrintStream out = new PrintStream(judge.getOutputStream(), false, "US-ASCII")) {
            for (long seed = first; seed < first + count; seed++) {
                DrivenPool pool = new DrivenPool(seed);
                String fault = pool.drive();
                if (fault != null) {
                    counts[1]++;
                    System.out.println("seed " + seed + ": " + fault);
                    continue;
                }
                pool.events.forEach(event -> seen.merge(kindOf(event), 1, Integer::sum));
                writeFile(pool, seed);
                writeAll(out, pool, seed, wanted);
            }
        }
        reader.join();
        for (int place = 0; place < wanted.size(); place++) {
            boolean holds = place < verdicts.size() && verdicts.get(place).line.equals(wanted.get(place).line);
            counts[holds ? 0 : 1]++;
            if (!holds)
                System.out.println(wanted.get(place).what + ": wanted is " + wanted.get(place).line + ", the program says "
                    + (place < verdicts.size() ? verdicts.get(place).line : "nothing"));
        }
        System.out.println(seen);
        System.out.println(counts[0] + " passed, " + counts[1] + " failed");
        System.exit(counts[1] == 0 ? 0 : 1);
    }

    private static String kindOf(String event) {
        String[] fields = event.split(",", -1);
        return fields[0].equals("submit") ? fields[3] : fields[0];
    }

    // The history as it was made, and copies with one reply changed.
    private static void writeAll(PrintStream out, DrivenPool pool, long seed, List<Verdict> wanted) {
        write(out, pool, pool.events);
        wanted.add(new Verdict("seed " + seed, "legal"));
        List<Integer> submissions = new ArrayList<>();
        for (int place = 0; place < pool.events.size(); place++)
            if (pool.events.get(place).startsWith("submit")) submissions.add(place);
        Random random = new Random(~seed);
        for (int change = 0; change < CHANGES && !submissions.isEmpty(); change++) {
            int place = submissions.remove(random.nextInt(submissions.size()));
            List<String> changed = new ArrayList<>(pool.events);
            String[] fields = changed.get(place).split(",", -1);
            String other = REPLIES.get((REPLIES.indexOf(fields[3]) + 1 + random.nextInt(REPLIES.size() - 1)) % REPLIES.size());
            fields[3] = other;
            changed.set(place, String.join(",", fields));
            write(out, pool, changed);
            wanted.add(new Verdict("seed " + seed + " with " + other + " at event " + (place + 1), "illegal " + (place + 1)));
        }
    }

    private static void write(PrintStream out, DrivenPool pool, List<String> events) {
        out.println("pool," + pool.opening);
        events.forEach(out::println);
        out.println("end");
    }

    private static void writeFile(DrivenPool pool, long seed) throws IOException {
        String folder = System.getProperty("histories");
        if (folder == null) return;
        String[] sizes = pool.opening.split(",");
        try (PrintStream file = new PrintStream(folder + "/" + seed + ".csv", "US-ASCII")) {
            file.print("core = " + sizes[0] + "\nmax = " + sizes[1] + "\nqueue = " + sizes[2] + "\n---\nevent,caller,number,reply,core,max,time_out,at\n");
            for (int place = 0; place < pool.events.size(); place++) file.print(pool.events.get(place) + "," + place + "\n");
        }
    }

    private static void readVerdicts(Process judge, List<Verdict> verdicts) {
        try (BufferedReader lines = new BufferedReader(new InputStreamReader(judge.getInputStream()))) {
            for (String line; (line = lines.readLine()) != null;) verdicts.add(new Verdict("", line));
        } catch (IOException ended) {
            System.out.println("the program's answers can't be read: " + ended);
        }
    }

    private static final class Verdict {
        final String what, line;

        Verdict(String what, String line) {
            this.what = what;
            this.line = line;
        }
    }

    /** A task, which runs until its gate is opened. */
    private static final class Task implements Runnable {
        final CountDownLatch gate = new CountDownLatch(1);
        final DrivenPool pool;
        final boolean throwing;
        int caller, number;

        Task(DrivenPool pool, boolean throwing) {
            this.pool = pool;
            this.throwing = throwing;
        }

        String row(String event, String reply) {
            return event + "," + (caller + 1) + "," + number + "," + reply + ",,,";
        }

        @Override
        public void run() {
            if (Thread.currentThread() == pool.driver) return;
            pool.running.put(this, Thread.currentThread());
            for (boolean waits = true; waits;) {
                try {
                    gate.await();
                    waits = false;
                } catch (InterruptedException ignored) {
                    // shutdownNow interrupts tasks; these end where the driver says.
                }
            }
            if (throwing) throw new IllegalStateException("as the driver chose");
        }
    }

    /** The queue of a pool: what the pool asks of it is passed on to one of the JDK's, and watched. */
    private static final class WatchedQueue extends AbstractQueue<Runnable> implements BlockingQueue<Runnable> {
        final BlockingQueue<Runnable> inner;
        final DrivenPool pool;
        final Set<Thread> waiting = ConcurrentHashMap.newKeySet();
        Boolean offered;

        WatchedQueue(DrivenPool pool, BlockingQueue<Runnable> inner) {
            this.pool = pool;
            this.inner = inner;
        }

        @Override
        public boolean offer(Runnable task) {
            boolean taken = inner.offer(task);
            offered = taken;
            return taken;
        }

        @Override
        public Runnable take() throws InterruptedException {
            return poll(Long.MAX_VALUE, TimeUnit.NANOSECONDS);
        }

        // A worker's look. What it gets out of a queue with places is a take; by a hand-off the submission was one already.
        @Override
        public Runnable poll(long time, TimeUnit unit) throws InterruptedException {
            waiting.add(Thread.currentThread());
            Runnable task;
            try {
                task = time == Long.MAX_VALUE ? inner.take() : inner.poll(time, unit);
            } finally {
                waiting.remove(Thread.currentThread());
            }
            if (task != null && !(inner instanceof SynchronousQueue)) pool.logTake((Task) task);
            return task;
        }

        @Override
        public Runnable poll() {
            return inner.poll();
        }

        @Override
        public Runnable peek() {
            return inner.peek();
        }

        @Override
        public boolean remove(Object task) {
            return inner.remove(task);
        }

        @Override
        public int drainTo(Collection<? super Runnable> tasks) {
            return inner.drainTo(tasks);
        }

        @Override
        public int drainTo(Collection<? super Runnable> tasks, int most) {
            return inner.drainTo(tasks, most);
        }

        @Override
        public Iterator<Runnable> iterator() {
            return inner.iterator();
        }

        @Override
        public int size() {
            return inner.size();
        }

        @Override
        public boolean isEmpty() {
            return inner.isEmpty();
        }

        @Override
        public int remainingCapacity() {
            return inner.remainingCapacity();
        }

        @Override
        public void put(Runnable task) {
            throw new UnsupportedOperationException();
        }

        @Override
        public boolean offer(Runnable task, long time, TimeUnit unit) {
            throw new UnsupportedOperationException();
        }
    }

    /** One pool of the JDK's, its driver, and what happened. */
    private static final class DrivenPool {
        final Thread driver = Thread.currentThread();
        final List<String> events = new ArrayList<>();
        final Map<Task, Thread> running = new ConcurrentHashMap<>();
        final Set<Thread> threads = ConcurrentHashMap.newKeySet();
        final ReentrantLock log = new ReentrantLock();
        final List<Task> queued = new ArrayList<>();
        final List<Task> takes = new ArrayList<>();
        final int[] made = new int[4];
        final Random random;
        final String opening;
        final WatchedQueue queue;
        final ThreadPoolExecutor pool;
        final int largest;
        boolean makesThread, isTold, isStopped, isOver;
        int workers;
        Task submitted;

        DrivenPool(long seed) {
            random = new Random(seed);
            boolean isLarge = random.nextInt(40) == 0;
            largest = isLarge ? 500 : 1 + random.nextInt(random.nextInt(4) == 0 ? 20 : 5);
            int core = random.nextInt(3) == 0 ? 0 : random.nextInt(largest + 1);
            int max = random.nextInt(5) == 0 ? Integer.MAX_VALUE : Math.max(1, core + random.nextInt(largest - core + 1));
            int kind = random.nextInt(4);
            int places = kind == 0 ? 0 : kind == 3 ? Integer.MAX_VALUE : 1 + random.nextInt(6);
            queue = new WatchedQueue(this, kind == 0 ? new SynchronousQueue<>(random.nextBoolean())
                : kind == 1 ? new ArrayBlockingQueue<>(places) : new LinkedBlockingQueue<>(places));
            long keepAlive = random.nextInt(4) == 0 ? 0 : LONG_KEEP_ALIVE;
            pool = new ThreadPoolExecutor(core, max, keepAlive, TimeUnit.NANOSECONDS, queue, this::makeThread, handler(places)) {
                @Override
                protected void afterExecute(Runnable task, Throwable thrown) {
                    logEvent(((Task) task).row("finish", ""));
                }
            };
            // Some are opened without a bound, and then have their sizes set: sizes may then go above the first ones.
            boolean isRaised = random.nextBoolean();
            opening = core + "," + (isRaised ? LARGEST : compared(max)) + "," + places;
            if (isRaised) logSizes();
        }

        static int compared(int max) {
            return max & LARGEST;
        }

        void logSizes() {
            logEvent("resize,,,," + pool.getCorePoolSize() + "," + compared(pool.getMaximumPoolSize()) + ",");
        }

        java.util.concurrent.RejectedExecutionHandler handler(int places) {
            switch (random.nextInt(places == 0 ? 3 : 4)) {
                case 0:
                    return (task, pool) -> tellRefused();
                case 1:
                    return (task, pool) -> {
                        tellRefused();
                        new ThreadPoolExecutor.CallerRunsPolicy().rejectedExecution(task, pool);
                    };
                case 2:
                    return (task, pool) -> {
                        tellRefused();
                        new ThreadPoolExecutor.DiscardPolicy().rejectedExecution(task, pool);
                    };
                default:
                    return this::discardOldest;
            }
        }

        // As the JDK's DiscardOldestPolicy does; its poll and its second `execute` are one event each.
        void discardOldest(Runnable task, ThreadPoolExecutor pool) {
            tellRefused();
            if (pool.isShutdown()) return;
            Task oldest = (Task) pool.getQueue().poll();
            if (oldest != null) logRemoval(oldest);
            execute((Task) task);
        }

        Thread makeThread(Runnable worker) {
            if (Thread.currentThread() == driver) {
                makesThread = true;
                if (submitted == null) logStart();
            }
            Thread thread = new Thread(worker);
            thread.setDaemon(true);
            thread.setUncaughtExceptionHandler((ended, thrown) -> {});
            threads.add(thread);
            return thread;
        }

        void logEvent(String event) {
            log.lock();
            try {
                if (!isOver) events.add(event);
            } finally {
                log.unlock();
            }
        }

        void logStart() {
            workers++;
            logEvent("start,,,,,,");
        }

        // Several threads may take at once; `settleAfter` puts their takes into the order of the queue.
        void logTake(Task task) {
            log.lock();
            try {
                takes.add(task);
            } finally {
                log.unlock();
            }
        }

        void logRemoval(Task task) {
            queued.remove(task);
            logEvent(task.row("remove", ""));
        }

        // The reply that `execute` gave, by what it called.
        void tell(String reply) {
            if (isTold) return;
            isTold = true;
            if (reply.equals("core") || reply.equals("extra") || reply.equals("first")) workers++;
            if (reply.equals("queued") || reply.equals("first")) queued.add(submitted);
            logEvent(submitted.row("submit", reply));
        }

        void tellRefused() {
            tell(queue.offered == null ? "closed" : "full");
        }

        void execute(Task task) {
            task.caller = random.nextInt(made.length);
            task.number = ++made[task.caller];
            submitted = task;
            queue.offered = null;
            makesThread = isTold = false;
            pool.execute(task);
            if (queue.offered == null) tell("core");
            else if (!queue.offered) tell("extra");
            else if (queue.inner instanceof SynchronousQueue) tell("handed");
            else tell(makesThread ? "first" : "queued");
            submitted = null;
        }

        /** Takes the actions. Returns what kept the pool from settling, or null. */
        String drive() {
            int actions = largest == 500 ? 1_300 : 20 + random.nextInt(180);
            String fault = null;
            try {
                for (int action = 0; action < actions && fault == null; action++) fault = act(random.nextInt(100));
                if (fault == null && random.nextBoolean()) fault = runOut();
                return fault;
            } finally {
                log.lock();
                isOver = true;
                log.unlock();
                pool.shutdownNow();
                running.keySet().forEach(task -> task.gate.countDown());
            }
        }

        // Shuts the pool down, and ends one task after the other.
        String runOut() {
            String fault = settleAfter(this::close);
            while (fault == null && !running.isEmpty()) fault = settleAfter(this::finishOne);
            return fault;
        }

        String act(int choice) {
            int submissions = largest == 500 ? 60 : 45;
            if (choice < submissions) return settleAfter(() -> execute(new Task(this, random.nextInt(8) == 0)));
            if (choice < 72) return settleAfter(this::finishOne);
            if (choice < 80) return settleAfter(this::resize);
            if (choice < 84) return settleAfter(pool::prestartCoreThread);
            if (choice < 85) return settleAfter(pool::prestartAllCoreThreads);
            if (choice < 89) return settleAfter(this::setTimeOut);
            if (choice < 92) return settleAfter(this::removeAny);
            if (choice < 94) return settleAfter(this::removeFront);
            if (choice < 98) return elapse();
            if (random.nextInt(6) > 0) return null;
            return settleAfter(random.nextInt(3) > 0 ? this::close : this::stop);
        }

        void finishOne() {
            if (running.isEmpty()) return;
            List<Task> all = new ArrayList<>(running.keySet());
            all.sort((one, other) -> one.caller != other.caller ? one.caller - other.caller : one.number - other.number);
            Task task = all.get(random.nextInt(all.size()));
            running.remove(task);
            task.gate.countDown();
        }

        void resize() {
            int core = random.nextInt(largest + 1), max = Math.max(1, core + random.nextInt(largest - core + 1));
            boolean isWithin = max <= Integer.parseInt(opening.split(",")[1]);
            if (!isWithin) return;
            // Each setter is an event; the first one is that which keeps the core size at most the maximum.
            boolean isMaxFirst = max >= pool.getCorePoolSize();
            for (boolean setsMax : new boolean[] {isMaxFirst, !isMaxFirst}) {
                int newCore = setsMax ? pool.getCorePoolSize() : core, newMax = setsMax ? max : compared(pool.getMaximumPoolSize());
                logEvent("resize,,,," + newCore + "," + newMax + ",");
                if (setsMax) pool.setMaximumPoolSize(max);
                else pool.setCorePoolSize(core);
            }
        }

        void setTimeOut() {
            boolean on = random.nextBoolean();
            if (on && pool.getKeepAliveTime(TimeUnit.NANOSECONDS) == 0) return;
            logEvent("time_out,,,,,," + (on ? "on" : "off"));
            pool.allowCoreThreadTimeOut(on);
        }

        void removeAny() {
            if (queued.isEmpty()) return;
            Task task = queued.get(random.nextInt(queued.size()));
            if (pool.remove(task)) logRemoval(task);
        }

        void removeFront() {
            Task task = (Task) pool.getQueue().poll();
            if (task != null) logRemoval(task);
        }

        void close() {
            if (!pool.isShutdown()) logEvent("close,,,,,,");
            pool.shutdown();
        }

        void stop() {
            if (!isStopped) logEvent("stop,,,,,,");
            isStopped = true;
            pool.shutdownNow().forEach(task -> logRemoval((Task) task));
        }

        // All that may end for want of work ends; then the keep-alive is what it was.
        String elapse() {
            long keepAlive = pool.getKeepAliveTime(TimeUnit.NANOSECONDS);
            if (keepAlive == 0) return null;
            String fault = settleAfter(() -> pool.setKeepAliveTime(1, TimeUnit.NANOSECONDS));
            pool.setKeepAliveTime(keepAlive, TimeUnit.NANOSECONDS);
            return fault != null ? fault : settleAfter(() -> {});
        }

        // Acts while no thread can log, waits until all is quiet, and writes what threads did: takes in the order of the queue, then ends.
        String settleAfter(Runnable action) {
            int before;
            log.lock();
            try {
                action.run();
                before = events.size();
            } finally {
                log.unlock();
            }
            long end = System.nanoTime() + TimeUnit.SECONDS.toNanos(20);
            for (int quiet = 0; quiet < 3; quiet = isQuiet() ? quiet + 1 : 0) {
                if (System.nanoTime() > end) return "the pool does not settle after event " + before;
                LockSupport.parkNanos(5_000);
            }
            while (!takes.isEmpty()) {
                Task front = queued.remove(0);
                if (!takes.remove(front)) return "a task was taken that is not at the front of the queue, after event " + before;
                events.add(front.row("take", ""));
            }
            for (; workers > pool.getPoolSize(); workers--) events.add(queue.isEmpty() ? "idle,,,,,," : "cull,,,,,,");
            return workers < pool.getPoolSize() ? "a thread began that no event reports, after event " + before : null;
        }

        // Whether each thread runs a task or waits at the queue, and none has a reason to do anything else.
        boolean isQuiet() {
            threads.removeIf(thread -> thread.getState() == Thread.State.TERMINATED);
            if (threads.size() != pool.getPoolSize() || !queue.waiting.isEmpty() && (!queue.isEmpty() || pool.isShutdown())) return false;
            boolean isTimed = pool.getKeepAliveTime(TimeUnit.NANOSECONDS) >= LONG_KEEP_ALIVE;
            return threads.stream().allMatch(thread -> {
                Thread.State state = thread.getState();
                if (running.containsValue(thread)) return state == Thread.State.WAITING;
                return queue.waiting.contains(thread) && !thread.isInterrupted()
                    && (state == Thread.State.WAITING || isTimed && state == Thread.State.TIMED_WAITING);
            });
        }
    }
}
