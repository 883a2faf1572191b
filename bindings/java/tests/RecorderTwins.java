import java.nio.file.*;
import java.util.*;
import java.util.concurrent.*;
import java.util.concurrent.atomic.AtomicInteger;
import java.util.function.*;

/**
 * Recorded pools beside the JDK's own: {@code FOLDER SCRIPTS} makes the same random steps on both, each once the one before is done, so that
 * only the rule decides. After each step both must have the same threads, tasks, refusals and sizes. Then, for each queue, both must keep the
 * same threads beyond the keep-alive time. A line 'passed ..' or 'failed ..' for each, for tools/check_recorder, which judges the files.
 */
public final class RecorderTwins {
    private static final List<String> KINDS = List.of("array", "linked", "unbounded", "handoff", "fair");
    private interface Step { Object make(Twin twin) throws Exception; }

    private static BlockingQueue<Runnable> queue(String kind, int places) {
        return kind.equals("array") ? new ArrayBlockingQueue<>(places) : kind.equals("linked") ? new LinkedBlockingQueue<>(places)
            : kind.equals("unbounded") ? new LinkedBlockingQueue<>() : new SynchronousQueue<>(kind.equals("fair"));
    }

    /** A task that ends once it is released or interrupted. */
    private static final class Held extends CountDownLatch implements Runnable {
        final boolean fails;
        final Twin twin;
        volatile boolean accepted, runs;
        volatile Thread by;
        Held(boolean fails, Twin twin) { super(1); this.fails = fails; this.twin = twin; }
        @Override public void run() {
            by = Thread.currentThread();
            runs = true;
            try { await(); } catch (InterruptedException stopped) { countDown(); }
            twin.ended.incrementAndGet();
            runs = false;
            if (fails) throw new IllegalStateException("a task that throws");
        }
    }

    /** One of two pools on which the same steps are made. */
    private static final class Twin {
        final ThreadPoolExecutor pool;
        final List<Thread> threads = new CopyOnWriteArrayList<>();
        final List<Held> tasks = new ArrayList<>();
        final AtomicInteger ended = new AtomicInteger();
        final boolean handsOver;

        Twin(ThreadPoolExecutor bare, Path folder, String name) {
            bare.setThreadFactory(task -> {
                Thread thread = new Thread(task);
                thread.setUncaughtExceptionHandler((t, thrown) -> { });
                threads.add(thread);
                return thread;
            });
            handsOver = bare.getQueue() instanceof SynchronousQueue;
            pool = folder == null ? bare : RecordedThreadPoolExecutor.like(bare, folder, name);
        }

        Object submit(Held task) { tasks.add(task); pool.execute(task); return task.accepted = true; }
        Object release() { tasks.forEach(Held::countDown); return null; }

        private boolean isSettled() { // only threads with nothing to do wait
            for (Held task : tasks) {
                if (task.runs ? task.getCount() == 0 : handsOver && task.accepted && task.by == null || task.fails && task.by != null && task.by.isAlive()) return false;
            }
            threads.removeIf(thread -> thread.getState() == Thread.State.TERMINATED);
            boolean quiet = threads.stream().noneMatch(t -> t.isInterrupted() || t.getState() != Thread.State.WAITING && t.getState() != Thread.State.TIMED_WAITING);
            long running = tasks.stream().filter(task -> task.runs).count(), size = pool.getPoolSize();
            boolean done = running == size || pool.getQueue().isEmpty() && size <= pool.getMaximumPoolSize() && !pool.isShutdown();
            return quiet && done && threads.size() == size && running == pool.getActiveCount() && pool.getCompletedTaskCount() == ended.get();
        }

        /** What a step returns or throws, and the state once it is done. */
        String make(Step step) throws InterruptedException {
            Object given;
            try { given = step.make(this); } catch (Exception thrown) { given = thrown.getClass().getName(); }
            until(() -> isSettled() && isSettled(), "it doesn't settle: " + pool);
            return given + " " + pool.getPoolSize() + " threads, " + pool.getLargestPoolSize() + " at most, " + pool.getQueue().size() + " wait, "
                + pool.getActiveCount() + " run, " + ended + " ended, sizes " + pool.getCorePoolSize() + " " + pool.getMaximumPoolSize() + " "
                + pool.allowsCoreThreadTimeOut() + pool.isShutdown() + pool.isTerminated();
        }

        /** Makes idle threads end that may end. */
        Object timeOut() throws InterruptedException {
            pool.setKeepAliveTime(1, TimeUnit.MILLISECONDS);
            int kept = Math.max(pool.getActiveCount(), pool.allowsCoreThreadTimeOut() ? 0 : pool.getCorePoolSize());
            until(() -> pool.getPoolSize() <= kept, "threads stay: " + pool);
            pool.setKeepAliveTime(1, TimeUnit.HOURS);
            return null;
        }
    }

    private static void until(BooleanSupplier holds, String told) throws InterruptedException {
        for (int i = 0; i < 60_000 && !holds.getAsBoolean(); i++) Thread.sleep(1);
        if (!holds.getAsBoolean()) throw new IllegalStateException(told);
    }

    private static Step draw(Random random) {
        int size = random.nextInt(6), task = random.nextInt(1000);
        boolean yes = random.nextBoolean();
        Function<Twin, Held> any = twin -> twin.tasks.isEmpty() ? new Held(false, twin) : twin.tasks.get(task % twin.tasks.size());
        switch (random.nextInt(16)) {
            case 0: return twin -> { twin.pool.setCorePoolSize(size); return null; };
            case 1: return twin -> { twin.pool.setMaximumPoolSize(size); return null; };
            case 2: return twin -> yes ? twin.pool.prestartCoreThread() : twin.pool.prestartAllCoreThreads();
            case 3: return twin -> { twin.pool.allowCoreThreadTimeOut(yes); return null; };
            case 4: return Twin::timeOut;
            case 5: return twin -> yes ? twin.pool.remove(any.apply(twin)) : twin.pool.getQueue().poll() != null;
            case 6: case 7: case 8: case 9: return twin -> { any.apply(twin).countDown(); return null; };
            default: return twin -> twin.submit(new Held(task % 7 == 0, twin));
        }
    }

    /** Runs a script on both; returns where they differ, or null. */
    private static String differ(long seed, String kind, Path folder) throws InterruptedException {
        Random random = new Random(seed);
        int core = random.nextInt(4), max = Math.max(1, core + random.nextInt(4)), places = 1 + random.nextInt(4);
        Supplier<ThreadPoolExecutor> made = () -> new ThreadPoolExecutor(core, max, 1, TimeUnit.HOURS, queue(kind, places));
        Twin own = new Twin(made.get(), null, null), recorded = new Twin(made.get(), folder, "script-" + kind + "-" + seed);
        for (int i = 0; i <= 42; i++) {
            boolean now = random.nextBoolean();
            Step end = now ? twin -> twin.pool.shutdownNow().size() : twin -> { twin.pool.shutdown(); return null; };
            Step step = i < 40 ? draw(random) : i == 40 ? end : i == 41 ? Twin::release : twin -> twin.pool.awaitTermination(1, TimeUnit.MINUTES);
            String wanted = own.make(step), found = recorded.make(step);
            if (!wanted.equals(found)) return "seed " + seed + ", step " + i + ": " + found + ", and the JDK's own: " + wanted;
        }
        return ((RecordedThreadPoolExecutor) recorded.pool).endRecord();
    }

    /** Runs eight tasks at once, then one after the other: with a hand-off only the last thread continues, with other queues all take turns. */
    private static String keep(Path folder) throws Exception {
        Map<Twin, Integer> all = new LinkedHashMap<>(); // and the threads that stay
        for (String kind : KINDS) for (Path to : Arrays.asList(null, folder)) {
            boolean hands = kind.equals("handoff") || kind.equals("fair");
            ThreadPoolExecutor bare = new ThreadPoolExecutor(hands ? 0 : 8, 8, 2, TimeUnit.SECONDS, queue(kind, 100));
            bare.allowCoreThreadTimeOut(!hands);
            Twin twin = new Twin(bare, to, "threads-" + kind);
            all.put(twin, kind.equals("handoff") ? 1 : 8);
            for (int i = 0; i < 8; i++) twin.submit(new Held(false, twin));
            twin.make(Twin::release);
        }
        BooleanSupplier one = () -> all.keySet().stream().allMatch(twin -> all.get(twin) == 8 || twin.pool.getPoolSize() == 1);
        long start = System.nanoTime(), second = 1_000_000_000;
        for (long past = 0; past < 3 * second || !one.getAsBoolean() && past < 20 * second; past = System.nanoTime() - start) {
            for (Twin twin : all.keySet()) twin.pool.submit(() -> { }).get();
            Thread.sleep(15);
        }
        List<String> wrong = new ArrayList<>();
        all.forEach((twin, stay) -> { if (twin.pool.getPoolSize() != stay) wrong.add(twin.pool + ", but " + stay + " stay"); });
        all.keySet().forEach(twin -> twin.pool.shutdown());
        return wrong.isEmpty() ? null : wrong.toString();
    }

    /** So many tasks wait that no file can restate them, and then fewer. */
    private static String wait(Path folder) throws Exception {
        Held held = new Held(false, new Twin(new ThreadPoolExecutor(1, 1, 1, TimeUnit.SECONDS, new LinkedBlockingQueue<>()), folder, "many"));
        ThreadPoolExecutor pool = held.twin.pool;
        pool.execute(held);
        for (int i = 0; i < 130_000; i++) pool.execute(() -> { });
        held.countDown();
        until(() -> pool.getQueue().isEmpty(), "tasks wait: " + pool);
        pool.submit(() -> { }).get();
        pool.shutdown();
        ((RecordedThreadPoolExecutor) pool).endRecord();
        return Files.readString(folder.resolve("many-00002.csv")).contains(": fewer tasks wait.\n") ? null : "it begins otherwise";
    }

    private static void tell(String name, String fault) { System.out.println(fault == null ? "passed " + name : "failed " + name + ": " + fault); }

    public static void main(String[] args) throws Exception {
        Path folder = Path.of(args[0]);
        for (int seed = 1; seed <= Integer.parseInt(args[1]); seed++) for (String kind : KINDS) tell("a script on " + kind, differ(seed, kind, folder));
        String fault = "";
        for (int i = 0; i < 3 && fault != null; i++) fault = keep(folder); // if the machine stalls, threads may end
        tell("the threads that stay", fault);
        tell("tasks that no file can restate", wait(folder));
        System.exit(0);
    }
}
