import java.nio.file.Path;
import java.util.*;
import java.util.concurrent.*;
import java.util.concurrent.atomic.AtomicLong;
import java.util.concurrent.locks.LockSupport;

/**
 * Random loads of a recorded pool: {@code FOLDER FIRST COUNT} puts the loads of the seeds FIRST and on through pools whose files are
 * {@code FOLDER/load-SEED-*.csv}, and reports what the JDK and the callers counted of each, for tools/check_recorder:
 * {@code load-SEED own=N calls=N rejected=N completed=N left=N largest=N ended=WHY}, where own are the callers' own submissions and left is
 * what waits in the end. If FOLDER is {@code bare} the same loads are the JDK's own pool's. {@code FOLDER long JOBS} is one load whose files
 * fill up.
 */
public final class RandomLoads {
    private final Random random;
    private final AtomicLong own = new AtomicLong(), calls = new AtomicLong(), rejected = new AtomicLong();
    private final ThreadPoolExecutor pool;
    private final int most;

    private RandomLoads(Path folder, long seed) {
        random = new Random(seed);
        int core = seed == 0 ? 2 : random.nextInt(6);
        most = core + 4;
        int max = random.nextInt(6) == 0 ? Integer.MAX_VALUE : Math.max(1, core + random.nextInt(5)), keep = random.nextInt(4);
        BlockingQueue<Runnable> queue = queue(seed == 0 ? 0 : random.nextInt(6), 1 + random.nextInt(40));
        Thread.setDefaultUncaughtExceptionHandler((thread, thrown) -> { });
        RejectedExecutionHandler handler = handler(seed, queue instanceof SynchronousQueue);
        pool = folder.toString().equals("bare") ? new ThreadPoolExecutor(core, max, keep, TimeUnit.MILLISECONDS, queue, Thread::new, handler) {
            @Override protected void beforeExecute(Thread thread, Runnable task) { fail(task); }
            @Override protected void afterExecute(Runnable task, Throwable thrown) { fail(task); }
        } : new RecordedThreadPoolExecutor(core, max, keep, TimeUnit.MILLISECONDS, queue, Thread::new, handler, folder, "load-" + seed, 0, 0) {
            @Override protected void beforeExecute(Thread thread, Runnable task) { fail(task); }
            @Override protected void afterExecute(Runnable task, Throwable thrown) { fail(task); }
        };
    }

    private static BlockingQueue<Runnable> queue(int kind, int places) {
        return kind < 2 ? new ArrayBlockingQueue<>(places) : kind == 2 ? new LinkedBlockingQueue<>(places) : kind == 3 ? new LinkedBlockingQueue<>()
            : new SynchronousQueue<>(kind == 5);
    }

    /** A hook that sometimes throws. It gets the callers' own tasks. */
    private static void fail(Runnable task) {
        if (task.getClass().getName().startsWith("RecordedThreadPoolExecutor")) System.out.println("a hook gets " + task);
        if (ThreadLocalRandom.current().nextInt(60) == 0) throw new IllegalStateException("a hook that throws");
    }

    /** The JDK's four in turn, the last one written out, since it calls execute; and two that wait for a place. */
    private RejectedExecutionHandler handler(long seed, boolean handsOver) {
        RejectedExecutionHandler jdk = List.of(new ThreadPoolExecutor.AbortPolicy(), new ThreadPoolExecutor.CallerRunsPolicy(),
            new ThreadPoolExecutor.DiscardPolicy(), (RejectedExecutionHandler) (task, to) -> {
                if (to.isShutdown() || handsOver) return; // with a hand-off this would recurse
                to.getQueue().poll();
                calls.incrementAndGet();
                to.execute(task);
            }, (task, to) -> put(to, () -> {
                if (handsOver) return to.getQueue().offer(task, 1, TimeUnit.MILLISECONDS); // a put would wait for ever after a shutdown
                to.getQueue().put(task);
                return true;
            }), (task, to) -> put(to, () -> to.getQueue().offer(task, 2, TimeUnit.MILLISECONDS))).get((int) (seed % 6));
        return (task, to) -> { rejected.incrementAndGet(); jdk.rejectedExecution(task, to); };
    }

    private void put(ThreadPoolExecutor to, Callable<Boolean> step) {
        try { if (!to.isShutdown() && step.call()) calls.incrementAndGet(); } catch (Exception never) { throw new IllegalStateException(never); }
    }

    private void submit(Random random, List<Future<?>> futures) {
        long micros = random.nextInt(200);
        boolean fails = random.nextInt(20) == 0;
        Runnable task = () -> { if (micros > 20) LockSupport.parkNanos(micros * 1000); if (fails) throw new IllegalStateException("a task that throws"); };
        FutureTask<?> future = new FutureTask<>(task, null);
        boolean isFuture = random.nextInt(3) == 0;
        own.incrementAndGet();
        calls.incrementAndGet();
        try { pool.execute(isFuture ? future : task); } catch (RejectedExecutionException | IllegalStateException full) { Thread.yield(); }
        if (isFuture) futures.add(future);
    }

    /** A caller's thread: its tasks, some of which it takes back. */
    private Thread caller(long seed) {
        Random random = new Random(seed);
        int tasks = 10 + random.nextInt(50), pause = random.nextInt(300);
        return new Thread(() -> {
            List<Future<?>> futures = new ArrayList<>();
            for (int i = 0; i < tasks; i++) {
                submit(random, futures);
                if (!futures.isEmpty() && random.nextInt(10) == 0) futures.get(random.nextInt(futures.size())).cancel(random.nextBoolean());
                if (!futures.isEmpty() && random.nextInt(30) == 0) pool.remove((Runnable) futures.get(futures.size() - 1));
                if (random.nextInt(50) == 0) pool.purge();
                if (random.nextInt(3) == 0) LockSupport.parkNanos(pause * 1000L);
                if (random.nextInt(40) == 0) LockSupport.parkNanos(4_000_000);
            }
        });
    }

    private void manage(boolean shuts) {
        for (int i = random.nextInt(12); i > 0; i--) {
            LockSupport.parkNanos(random.nextInt(2_000_000));
            try {
                if (random.nextInt(3) == 0) pool.setCorePoolSize(random.nextInt(most));
                else if (random.nextInt(2) == 0) pool.setMaximumPoolSize(1 + random.nextInt(most));
                else if (random.nextInt(3) == 0) pool.prestartCoreThread();
                else if (random.nextInt(3) == 0) pool.prestartAllCoreThreads();
                else if (random.nextInt(3) == 0) pool.allowCoreThreadTimeOut(random.nextBoolean());
                else pool.setKeepAliveTime(random.nextInt(3), TimeUnit.MILLISECONDS);
            } catch (IllegalArgumentException refused) { Thread.yield(); }
        }
        if (shuts && random.nextBoolean()) pool.shutdown();
        else if (shuts) pool.shutdownNow();
    }

    private void run(String name) throws InterruptedException {
        List<Thread> threads = new ArrayList<>();
        for (int i = 1 + random.nextInt(8); i > 0; i--) threads.add(caller(random.nextLong()));
        for (Thread thread : threads) thread.start();
        manage(random.nextInt(5) < 2);
        for (Thread thread : threads) thread.join();
        end(name);
    }

    private void end(String name) throws InterruptedException {
        pool.shutdown();
        if (!pool.awaitTermination(60, TimeUnit.SECONDS)) throw new IllegalStateException(name + " hangs: " + pool);
        String ended = pool instanceof RecordedThreadPoolExecutor ? ((RecordedThreadPoolExecutor) pool).endRecord() : null;
        System.out.println(name + " own=" + own + " calls=" + calls + " rejected=" + rejected + " completed=" + pool.getCompletedTaskCount()
            + " left=" + pool.getQueue().size() + " largest=" + pool.getLargestPoolSize() + " ended=" + ended);
    }

    private void fill(int jobs) throws InterruptedException {
        List<Thread> threads = new ArrayList<>();
        for (int caller = 0; caller < 4; caller++) {
            threads.add(new Thread(() -> {
                for (int i = 0; i < jobs / 4; i++) {
                    calls.incrementAndGet();
                    try { pool.execute(() -> { }); } catch (RejectedExecutionException full) { Thread.yield(); }
                }
            }));
        }
        for (Thread thread : threads) thread.start();
        for (Thread thread : threads) thread.join();
        end("load-0");
    }

    public static void main(String[] args) throws InterruptedException {
        Path folder = Path.of(args[0]);
        if (args[1].equals("long")) { new RandomLoads(folder, 0).fill(Integer.parseInt(args[2])); return; }
        long first = Long.parseLong(args[1]);
        for (long seed = first; seed < first + Long.parseLong(args[2]); seed++) new RandomLoads(folder, seed).run("load-" + seed);
    }
}
