import java.nio.file.Path;
import java.util.*;
import java.util.concurrent.*;
import java.util.concurrent.locks.LockSupport;
import java.util.function.Function;

/**
 * Callers whose stack overflows inside the pool: {@code FOLDER POOLS} makes that many pools for each of the calls below, and prints a line
 * 'passed ..' or 'failed ..' for each call: afterwards every pool must run what is submitted to it. tools/check_recorder judges the files.
 */
public final class RecorderStacks {
    private interface Call { void make(ThreadPoolExecutor pool, int turn); }

    private static void recurse(Call call, ThreadPoolExecutor pool, int turn) {
        try { call.make(pool, turn); } catch (RejectedExecutionException full) { Thread.onSpinWait(); }
        recurse(call, pool, turn + 1);
    }

    private static Thread start(Runnable work, int stack) {
        Thread thread = new Thread(null, () -> {
            try { work.run(); } catch (StackOverflowError | RejectedExecutionException deep) { Thread.yield(); }
        }, "caller", stack, false);
        thread.setDaemon(true);
        thread.start();
        return thread;
    }

    /** Runs callers, some with more stack than others, one after the other; then returns whether a task still runs. */
    private static boolean isAlive(ThreadPoolExecutor pool, Runnable work, int stack) throws InterruptedException {
        for (int i = 0; i < 4; i++) start(work, stack + i * 40_000).join(20_000);
        CountDownLatch ran = new CountDownLatch(1);
        start(() -> {
            while (ran.getCount() > 0) {
                try { pool.execute(ran::countDown); } catch (RejectedExecutionException | StackOverflowError full) { Thread.yield(); }
                LockSupport.parkNanos(10_000_000);
            }
        }, 1 << 20);
        if (!ran.await(20, TimeUnit.SECONDS)) return false;
        pool.shutdown();
        return pool.awaitTermination(20, TimeUnit.SECONDS);
    }

    /** Every other pool of a call hands over; but none of those that resubmit, since nothing would end that. */
    private static void run(String[] args, String name, RejectedExecutionHandler handler, Function<ThreadPoolExecutor, Runnable> work) throws InterruptedException {
        int pools = Integer.parseInt(args[1]), dead = 0;
        for (int i = 0; i < pools; i++) {
            BlockingQueue<Runnable> queue = i % 2 == 0 || name.equals("resubmits") ? new ArrayBlockingQueue<>(4) : new SynchronousQueue<>();
            ThreadPoolExecutor pool = new RecordedThreadPoolExecutor(2, 3, 1, TimeUnit.SECONDS, queue, Executors.defaultThreadFactory(), handler,
                Path.of(args[0]), name + "-" + i, 3, 0);
            if (!isAlive(pool, work.apply(pool), 200_000 + 1000 * i)) dead++;
        }
        System.out.println((dead == 0 ? "passed " : "failed ") + name + ": " + dead + " of " + pools + " pools are dead");
    }

    public static void main(String[] args) throws InterruptedException {
        Map<String, Call> calls = Map.of("execute", (pool, turn) -> pool.execute(() -> { }), "poll", (pool, turn) -> pool.getQueue().poll(),
            "offer", (pool, turn) -> pool.getQueue().offer(() -> { }), "iterator", (pool, turn) -> pool.getQueue().iterator().hasNext(),
            "remove", (pool, turn) -> pool.remove(null), "setter", (pool, turn) -> pool.setMaximumPoolSize(2 + turn % 3),
            "time-out", (pool, turn) -> pool.allowCoreThreadTimeOut(turn % 2 == 0), "prestart", (pool, turn) -> pool.prestartAllCoreThreads());
        for (String name : calls.keySet()) run(args, name, new ThreadPoolExecutor.DiscardPolicy(), pool -> () -> recurse(calls.get(name), pool, 0));
        run(args, "resubmits", (task, to) -> to.execute(task), pool -> {
            for (int busy = 0; busy < 3 + 4; busy++) pool.execute(() -> LockSupport.parkNanos(100_000_000));
            return () -> pool.execute(() -> { });
        });
        System.exit(0);
    }
}
