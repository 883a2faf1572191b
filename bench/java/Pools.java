import java.io.BufferedReader;
import java.io.IOException;
import java.io.InputStreamReader;
import java.util.ArrayList;
import java.util.Arrays;
import java.util.List;
import java.util.concurrent.ExecutionException;
import java.util.concurrent.Future;
import java.util.concurrent.LinkedBlockingQueue;
import java.util.concurrent.ThreadPoolExecutor;
import java.util.concurrent.TimeUnit;
import java.util.concurrent.atomic.AtomicLong;
import java.util.concurrent.locks.LockSupport;

/**
 * Jobs through the JDK's ThreadPoolExecutor. With the word {@code recorded} a listener writes the submissions, takes and
 * finishes into one history under a lock, with a receipt for each submission and a result for each job; else nothing is
 * recorded. The lines of standard input are those of resil_bench; {@code answers} goes by {@code submit} and its futures.
 */
public final class Pools {
    /** How often a wait for a job's start looks before it yields at each look. */
    private static final int SPINS = 2000;

    /** How many pairs are timed for a line {@code pairs}; and the pauses before them, as in crates/resil_bench. */
    private static final int PAIRS = 100;
    private static final int PAUSES = 20_001;
    private static final int STEP = 997;

    private enum Kind { SUBMIT, TAKE, FINISH, CLOSE }

    private enum Reply { CORE, QUEUED }

    private record Event(Kind kind, int caller, long number, Reply reply) {}

    private record Receipt(long number, Reply reply, long[] script) {}

    private record Result(int caller, long number, long value) {}

    /** A job: it answers the first number of its script. */
    private static final class Job implements Runnable {
        final int caller;
        final long number;
        final long[] script;
        final AtomicLong started;
        boolean queued;
        long value;

        Job(int caller, long number, long[] script, AtomicLong started) {
            this.caller = caller;
            this.number = number;
            this.script = script;
            this.started = started;
        }

        @Override
        public void run() {
            started.incrementAndGet();
            value = script[0];
        }
    }

    /** The executor, with or without its listener. */
    private static final class Pool extends ThreadPoolExecutor {
        final boolean recorded;
        final List<Event> history = new ArrayList<>();
        final List<Result> results = new ArrayList<>();
        final AtomicLong started = new AtomicLong();

        Pool(boolean recorded, int workers) {
            super(workers, workers, 0, TimeUnit.SECONDS, new LinkedBlockingQueue<>(65_536));
            this.recorded = recorded;
        }

        void submit(Job job, List<Receipt> receipts) {
            if (!recorded) {
                execute(job);
                return;
            }
            synchronized (history) {
                Reply reply = getPoolSize() < getCorePoolSize() ? Reply.CORE : Reply.QUEUED;
                job.queued = reply == Reply.QUEUED;
                history.add(new Event(Kind.SUBMIT, job.caller, job.number, reply));
                execute(job);
                receipts.add(new Receipt(job.number, reply, job.script.clone()));
            }
        }

        @Override
        protected void beforeExecute(Thread thread, Runnable runnable) {
            if (recorded && ((Job) runnable).queued) {
                Job job = (Job) runnable;
                synchronized (history) {
                    history.add(new Event(Kind.TAKE, job.caller, job.number, null));
                }
            }
        }

        @Override
        protected void afterExecute(Runnable runnable, Throwable thrown) {
            if (recorded) {
                Job job = (Job) runnable;
                synchronized (history) {
                    history.add(new Event(Kind.FINISH, job.caller, job.number, null));
                    results.add(new Result(job.caller, job.number, job.value));
                }
            }
        }

        long close() throws InterruptedException {
            synchronized (history) {
                history.add(new Event(Kind.CLOSE, 0, 0, null));
            }
            shutdown();
            awaitTermination(1, TimeUnit.HOURS);
            return recorded ? results.size() : started.get();
        }
    }

    /** So many jobs by one caller. */
    private static void submitAll(Pool pool, int caller, long jobs) {
        List<Receipt> receipts = new ArrayList<>();
        for (long number = 1; number <= jobs; number++) {
            pool.submit(new Job(caller, number, new long[] {1}, pool.started), receipts);
        }
    }

    private static void run(boolean recorded, int callers, int workers, long jobs) throws InterruptedException {
        Pool pool = new Pool(recorded, workers);
        Thread[] threads = new Thread[callers];
        for (int i = 0; i < callers; i++) {
            int caller = i + 1;
            threads[i] = new Thread(() -> submitAll(pool, caller, jobs / callers));
            threads[i].start();
        }
        for (Thread thread : threads) {
            thread.join();
        }
        System.out.println("pool: " + pool.close() + " results");
    }

    /** So many works by one caller, each of which answers its number: how many answers were right. */
    private static long answersOf(ThreadPoolExecutor pool, long works, long atOnce)
            throws ExecutionException, InterruptedException {
        long right = 0;
        for (long left = works; left > 0; left -= atOnce) {
            List<Future<Long>> all = new ArrayList<>();
            for (long number = 0; number < Math.min(left, atOnce); number++) {
                long own = number;
                all.add(pool.submit(() -> own));
            }
            for (int number = 0; number < all.size(); number++) {
                right += all.get(number).get() == number ? 1 : 0;
            }
        }
        return right;
    }

    /** Works that do nothing, of so many callers: how many were finished. */
    private static void works(int callers, int workers, long works) throws InterruptedException {
        Pool pool = new Pool(false, workers);
        Runnable nothing = () -> {};
        Thread[] threads = new Thread[callers];
        for (int i = 0; i < callers; i++) {
            threads[i] = new Thread(() -> {
                for (long number = 0; number < works / callers; number++) {
                    pool.execute(nothing);
                }
            });
            threads[i].start();
        }
        for (Thread thread : threads) {
            thread.join();
        }
        pool.close();
        System.out.println("works: " + pool.getCompletedTaskCount());
    }

    private static void answers(int callers, int workers, long works, long atOnce) throws InterruptedException {
        Pool pool = new Pool(false, workers);
        AtomicLong right = new AtomicLong();
        Thread[] threads = new Thread[callers];
        for (int i = 0; i < callers; i++) {
            threads[i] = new Thread(() -> {
                try {
                    right.addAndGet(answersOf(pool, works / callers, Math.min(atOnce, 65_536 / callers)));
                } catch (ExecutionException | InterruptedException error) {
                    throw new IllegalStateException(error);
                }
            });
            threads[i].start();
        }
        for (Thread thread : threads) {
            thread.join();
        }
        pool.close();
        System.out.println("answers: " + right.get());
    }

    /** Tells the median and the 99th hundredth of the ns from a submission to its start, while all workers are idle. */
    private static void starts(int workers, int jobs) throws InterruptedException {
        Pool pool = new Pool(false, workers);
        pool.prestartAllCoreThreads();
        long[] times = new long[jobs];
        for (int job = 0; job < jobs; job++) {
            LockSupport.parkNanos(500_000);
            AtomicLong start = new AtomicLong();
            long begun = System.nanoTime();
            pool.submit(() -> start.set(System.nanoTime() - begun));
            while (start.get() == 0) {
                Thread.onSpinWait();
            }
            times[job] = start.get();
        }
        pool.close();
        Arrays.sort(times);
        System.out.println(times[jobs / 2] + " " + times[jobs * 99 / 100] + " ns, " + jobs + " jobs");
    }

    private static void waitFor(AtomicLong started, long count) {
        for (int tries = 0; started.get() < count; tries++) {
            if (tries < SPINS) {
                Thread.onSpinWait();
            } else {
                Thread.yield();
            }
        }
    }

    /** Submits two works, of which the first ends once the second has started, and answers in how many ns both have. */
    private static long timePair(Pool pool, int pairs) {
        long pause = (long) (pairs % PAUSES) * STEP % PAUSES;
        long start = System.nanoTime();
        while (System.nanoTime() - start < pause) {
            Thread.onSpinWait();
        }
        start = System.nanoTime();
        long both = pool.started.get() + 2;
        for (int half = 0; half < 2; half++) {
            pool.execute(() -> {
                pool.started.incrementAndGet();
                waitFor(pool.started, both);
            });
        }
        waitFor(pool.started, both);
        return System.nanoTime() - start;
    }

    /** A pool that is open until the line {@code close}. */
    private static void open(boolean recorded, int workers, BufferedReader lines)
            throws IOException, InterruptedException {
        Pool pool = new Pool(recorded, workers);
        pool.prestartAllCoreThreads();
        List<Receipt> receipts = new ArrayList<>();
        List<Long> times = new ArrayList<>();
        long submitted = 0;
        System.out.println("open");
        for (String line = lines.readLine(); line != null && !line.equals("close"); line = lines.readLine()) {
            if (line.equals("echo")) {
                System.out.println("echo");
                continue;
            }
            if (line.equals("pairs")) {
                for (int pair = 0; pair < PAIRS; pair++) {
                    times.add(timePair(pool, times.size()));
                }
                submitted += 2 * PAIRS;
                System.out.println("pairs");
                continue;
            }
            if (line.equals("times")) {
                times.forEach(nanos -> System.out.print(nanos + " "));
                System.out.println("ns");
                continue;
            }
            submitted++;
            pool.submit(new Job(1, submitted, new long[] {1}, pool.started), receipts);
            waitFor(pool.started, submitted);
            System.out.println("started");
        }
        System.out.println("closed: " + pool.close() + " results");
    }

    public static void main(String[] args) throws IOException, InterruptedException {
        boolean recorded = args.length > 0 && args[0].equals("recorded");
        BufferedReader lines = new BufferedReader(new InputStreamReader(System.in));
        for (String line = lines.readLine(); line != null; line = lines.readLine()) {
            String[] words = line.split(" ");
            if (words[0].equals("open")) {
                open(recorded, Integer.parseInt(words[1]), lines);
            } else if (words[0].equals("works")) {
                works(Integer.parseInt(words[1]), Integer.parseInt(words[2]), Long.parseLong(words[3]));
            } else if (words[0].equals("starts")) {
                starts(Integer.parseInt(words[1]), Integer.parseInt(words[2]));
            } else if (words[0].equals("answers")) {
                long atOnce = words.length > 4 ? Long.parseLong(words[4]) : 65_536;
                answers(Integer.parseInt(words[1]), Integer.parseInt(words[2]), Long.parseLong(words[3]), atOnce);
            } else {
                run(recorded, Integer.parseInt(words[1]), Integer.parseInt(words[2]), Long.parseLong(words[3]));
            }
        }
    }
}
