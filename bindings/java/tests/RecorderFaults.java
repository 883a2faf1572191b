import java.io.IOException;
import java.lang.ref.WeakReference;
import java.lang.reflect.*;
import java.net.*;
import java.nio.file.*;
import java.util.*;
import java.util.concurrent.*;
import java.util.concurrent.ThreadPoolExecutor.*;
import java.util.concurrent.atomic.AtomicInteger;
import java.util.concurrent.locks.LockSupport;
import java.util.function.BooleanSupplier;
import java.util.logging.Logger;

/**
 * What a recorded pool refuses, and what ends its record and never the pool: {@code FOLDER}, in a process whose files may have 100,000
 * bytes. A line 'passed ..' or 'failed ..' for each, for tools/check_recorder, which judges the files.
 */
public final class RecorderFaults {
    private static final ThreadFactory THREADS = Thread::new;
    private static final Logger LOGGER = Logger.getLogger("RecordedThreadPoolExecutor"); // which would be collected otherwise
    private static final List<String> TOLD = Collections.synchronizedList(new ArrayList<>());
    private static Path folder;

    private interface Step { void run() throws Exception; }

    private static RecordedThreadPoolExecutor open(Path folder, String name, int core, int max, int capacity, int keep) {
        return new RecordedThreadPoolExecutor(core, max, 1, TimeUnit.MILLISECONDS, queue(capacity), THREADS, new AbortPolicy(), folder, name, keep, 0);
    }

    private static RecordedThreadPoolExecutor open(String name, int core, int max, int capacity) { return open(folder, name, core, max, capacity, 0); }
    private static BlockingQueue<Runnable> queue(int capacity) { return capacity == 0 ? new SynchronousQueue<>() : new LinkedBlockingQueue<>(capacity); }

    private static void end(ThreadPoolExecutor pool) throws InterruptedException {
        pool.shutdown();
        demand(pool.awaitTermination(30, TimeUnit.SECONDS), "it hangs");
    }

    private static void demand(boolean holds, String told) { if (!holds) throw new IllegalStateException(told); }
    private static void goesOn(RecordedThreadPoolExecutor pool) { demand(pool.endRecord() == null, "the record ended: " + pool.endRecord()); }

    private static void tell(String name, Step step) {
        String told = "passed " + name;
        try { step.run(); } catch (Throwable thrown) { told = "failed " + name + ": " + thrown; }
        System.out.println(told);
    }

    private static void refuses(Class<?> wanted, Step step) {
        tell("refused by " + wanted.getSimpleName(), () -> {
            Object found = "nothing";
            try { step.run(); } catch (RuntimeException thrown) { found = thrown; }
            demand(wanted.isInstance(found), "it throws " + found);
        });
    }

    /** Runs this many tasks one after the other, and returns how many were completed. */
    private static long runs(ThreadPoolExecutor pool, int tasks) throws Exception {
        for (int i = 0; i < tasks; i++) {
            CountDownLatch ran = new CountDownLatch(1);
            pool.execute(ran::countDown);
            demand(ran.await(30, TimeUnit.SECONDS), "a task isn't run");
        }
        end(pool);
        return pool.getCompletedTaskCount();
    }

    /** Checks that this many were completed in all, and that the record hasn't ended. */
    private static void whole(RecordedThreadPoolExecutor pool, int tasks, long all) throws Exception {
        demand(runs(pool, tasks) == all, "tasks are lost");
        goesOn(pool);
    }

    private static List<String> files(String name) {
        String[] found = folder.toFile().list((in, file) -> file.startsWith(name + "-"));
        Arrays.sort(found);
        return List.of(found);
    }

    private static void has(String file, String... texts) throws IOException {
        for (String text : texts) demand(Files.readString(folder.resolve(file)).contains(text), file + " has no " + text);
    }

    private static void eventually(BooleanSupplier holds, String told) throws InterruptedException {
        for (int i = 0; i < 3000 && !holds.getAsBoolean(); i++) Thread.sleep(10);
        demand(holds.getAsBoolean(), told);
    }

    private static void eventually(String file, String text) throws InterruptedException {
        eventually(() -> { try { return Files.readString(folder.resolve(file)).contains(text); } catch (IOException none) { return false; } }, file);
    }

    private static void hold(CountDownLatch gate) {
        try { gate.await(); } catch (InterruptedException ended) { Thread.currentThread().interrupt(); }
    }

    private static RecordedThreadPoolExecutor like(ExecutorService pool, String name) { return RecordedThreadPoolExecutor.like(pool, folder, name); }

    private static void refusals() {
        Class<?> illegal = IllegalArgumentException.class;
        for (int[] sizes : new int[][] {{-1, 1}, {0, 0}, {0, -1}, {2, 1}, {0, 1 << 29}, {6, (1 << 29) + 5}})
            refuses(illegal, () -> open("none", sizes[0], sizes[1], 1));
        refuses(illegal, () -> open("../none", 1, 1, 1));
        for (BlockingQueue<Runnable> queue : List.of(new PriorityBlockingQueue<Runnable>(), new LinkedBlockingDeque<Runnable>(),
            new LinkedTransferQueue<Runnable>(), new LinkedBlockingQueue<Runnable>(List.of(() -> { })))) 
            refuses(illegal, () -> new RecordedThreadPoolExecutor(1, 1, 1, TimeUnit.SECONDS, queue, folder, "none"));
        refuses(NullPointerException.class, () -> new RecordedThreadPoolExecutor(1, 1, 1, TimeUnit.SECONDS, null, folder, "none"));
        ThreadPoolExecutor used = new ThreadPoolExecutor(1, 1, 0, TimeUnit.SECONDS, queue(1));
        ExecutorService shut = Executors.newCachedThreadPool();
        used.prestartCoreThread();
        shut.shutdown();
        for (ExecutorService pool : List.of(used, shut, Executors.newSingleThreadExecutor(), Executors.newScheduledThreadPool(1), ForkJoinPool.commonPool()))
            refuses(illegal, () -> like(pool, "none"));
        used.shutdown();
        RecordedThreadPoolExecutor pool = open("refused", 1, Integer.MAX_VALUE, 65_536);
        for (Step step : List.<Step>of(() -> pool.setCorePoolSize(-1), () -> pool.setMaximumPoolSize(0), () -> pool.setMaximumPoolSize(1 << 29)))
            refuses(illegal, step);
        for (Step step : List.<Step>of(() -> pool.execute(null), () -> pool.getQueue().put(null))) refuses(NullPointerException.class, step);
        tell("nothing of a refusal is left", () -> {
            whole(pool, 10, 10);
            demand(files("refused").size() == 1 && files("none").isEmpty(), "files " + files("refused") + files("none"));
            has("refused-00001.csv", "\nmax = 536870911\nqueue = 65536\n", "\nresize,,,,1,536870911,,");
        });
        tell("a pool like another one", () -> {
            ThreadPoolExecutor one = new ThreadPoolExecutor(2, 3, 9, TimeUnit.DAYS, new ArrayBlockingQueue<>(7), THREADS, new DiscardPolicy());
            one.allowCoreThreadTimeOut(true);
            RecordedThreadPoolExecutor cached = like(Executors.newCachedThreadPool(), "cached"), like = like(one, "like");
            like.setThreadFactory(like.getThreadFactory());
            demand(like.getThreadFactory() == THREADS && like.getRejectedExecutionHandler() == one.getRejectedExecutionHandler(), "other parts");
            demand(cached.getMaximumPoolSize() == Integer.MAX_VALUE && like.getQueue().remainingCapacity() == 7, "other sizes");
            whole(cached, 10, 10);
            whole(like, 10, 10);
            has("cached-00001.csv", "\nqueue = 0\nidle_for = 60000000\nmade = 1\n");
            has("like-00001.csv", "\nqueue = 7\nidle_for = 777600000000\nmade = 1\n", "\ntime_out,,,,,,on,");
        });
    }

    private static void faults() {
        tell("a folder that can't be made, and one that isn't there", () -> {
            Files.createFile(folder.resolve("a_file"));
            RecordedThreadPoolExecutor none = open(folder.resolve("a_file/none"), "none", 1, 2, 4, 0), made = open(folder.resolve("new/folder"), "made", 1, 2, 4, 0);
            whole(made, 10, 10);
            demand(runs(none, 100) == 100 && none.endRecord() != null && Files.exists(folder.resolve("new/folder/made-00001.csv")), "endRecord doesn't tell, or there is no file");
        });
        tell("a file that can't grow", () -> {
            RecordedThreadPoolExecutor pool = open("limited", 1, 2, 4);
            demand(runs(pool, 4000) == 4000 && pool.endRecord() != null, "tasks are lost, or endRecord doesn't tell");
        });
        tell("a file that is gone", () -> {
            RecordedThreadPoolExecutor pool = open("gone", 1, 2, 4);
            eventually("gone-00001.csv", "core");
            Files.delete(folder.resolve("gone-00001.csv"));
            demand(runs(pool, 500) == 500, "tasks are lost");
            demand(pool.endRecord().contains("has changed since") && files("gone").isEmpty(), "endRecord doesn't tell, or there is a file");
        });
        tell("the end of a record, and its beginning anew", () -> {
            RecordedThreadPoolExecutor pool = open("ended", 1, 1, 4);
            pool.submit(() -> { }).get();
            pool.beginRecord(); // which has not ended
            goesOn(pool);
            long size = Files.size(folder.resolve("ended-00001.csv"));
            pool.submit(() -> { }).get();
            demand(pool.endRecord() != null && Files.size(folder.resolve("ended-00001.csv")) == size, "it goes on");
            pool.beginRecord();
            whole(pool, 5, 7);
            has("ended-00002.csv", ": beginRecord was called.\n");
        });
        tell("why a record ended is told once a pool", () -> {
            eventually(() -> TOLD.stream().anyMatch(line -> line.contains("pool gone in")), "it isn't told");
            demand(TOLD.stream().filter(line -> line.contains("pool gone in") || line.contains("pool ended in")).count() == 1, "told is " + TOLD);
        });
    }

    /** A pool of one thread, which is blocked, with three tasks in its queue. */
    private static RecordedThreadPoolExecutor held(String name, int keep, CountDownLatch gate, List<Runnable> tasks) {
        RecordedThreadPoolExecutor pool = open(folder, name, 1, 1, 8, keep);
        pool.execute(() -> hold(gate));
        for (int i = 0; i < 3; i++) tasks.add(new Thread());
        for (Runnable task : tasks) pool.execute(task);
        return pool;
    }

    private static void again(RecordedThreadPoolExecutor pool) { pool.endRecord(); pool.beginRecord(); }

    private static void hands() {
        tell("other hands on the queue", () -> {
            CountDownLatch gate = new CountDownLatch(1);
            List<Runnable> tasks = new ArrayList<>(), taken = new ArrayList<>();
            RecordedThreadPoolExecutor pool = held("hands", 0, gate, tasks);
            BlockingQueue<Runnable> queue = pool.getQueue();
            demand(queue.peek() == tasks.get(0) && queue.contains(tasks.get(2)) && queue.size() == 3 && queue.remainingCapacity() == 5, "it shows others");
            demand(pool.remove(tasks.get(1)) && !pool.remove(tasks.get(1)) && queue.size() == 2, "remove takes others");
            demand(queue.removeIf(task -> task == tasks.get(2)) && queue.poll() == tasks.get(0) && queue.poll() == null, "others are taken");
            for (Runnable task : tasks) pool.execute(task);
            demand(queue.drainTo(taken, 2) == 2 && taken.equals(tasks.subList(0, 2)), "drainTo takes others");
            queue.clear();
            for (Runnable task : tasks) pool.execute(task);
            demand(pool.shutdownNow().equals(tasks) && queue.isEmpty(), "shutdownNow hands back others");
            end(pool);
            goesOn(pool);
            demand(pool.getCompletedTaskCount() == 1 && files("hands").size() == 1, "a task is run, or a file ended");
        });
        tell("each pool keeps its last files, and takes numbers that are free", () -> {
            for (int round = 0; round < 2; round++) {
                CountDownLatch gate = new CountDownLatch(1);
                RecordedThreadPoolExecutor pool = held("kept", 3, gate, new ArrayList<>());
                for (int i = 0; i < 3; i++) again(pool);
                gate.countDown();
                whole(pool, 0, 4);
            }
            demand(files("kept").toString().matches("\\[(kept-0000[2-7].csv(, )?){6}]"), "there are " + files("kept"));
        });
        tell("more callers than have a number", () -> {
            RecordedThreadPoolExecutor pool = open("callers", 1, 1, 2000);
            ExecutorService threads = Executors.newFixedThreadPool(1100); // one for each task
            for (int i = 0; i < 1100; i++) threads.execute(() -> pool.execute(() -> { }));
            end((ThreadPoolExecutor) threads);
            whole(pool, 0, 1100);
        });
    }

    /** A pool whose thread factory returns a thread for each plus, one that can't start for each dot, and then threads. */
    private static RecordedThreadPoolExecutor givenThreads(String name, int core, int max, int capacity, String given) {
        RecordedThreadPoolExecutor pool = open(name, core, max, capacity);
        AtomicInteger asked = new AtomicInteger();
        pool.setThreadFactory(task -> {
            int turn = asked.getAndIncrement();
            char now = turn < given.length() ? given.charAt(turn) : '+';
            return now == '-' ? null : now == '+' ? new Thread(task) : new Thread(task) {
                @Override public synchronized void start() { throw new OutOfMemoryError("no thread"); }
            };
        });
        return pool;
    }

    private static void writing() {
        ThreadFactory usual = RecordedThreadPoolExecutor.writers;
        tell("a pool that no thread can be started for", () -> { // the first pool here
            RecordedThreadPoolExecutor.writers = work -> { throw new OutOfMemoryError("no thread"); };
            RecordedThreadPoolExecutor pool = open("alone", 1, 2, 4);
            for (int i = 0; i < 300; i++) pool.submit(() -> { }).get();
            demand(Files.size(folder.resolve("alone-00001.csv")) > 8000, "nothing is written");
            RecordedThreadPoolExecutor.writers = usual;
            whole(pool, 10, 310);
        });
        tell("a quiet pool, and its end", () -> {
            RecordedThreadPoolExecutor pool = open("quiet", 1, 2, 4);
            pool.execute(() -> { });
            eventually("quiet-00001.csv", "\nfinish,1,1,");
            end(pool);
            eventually("quiet-00001.csv", "\nidle");
        });
        tell("the thread that writes goes, and so can the class", () -> {
            eventually(() -> Thread.getAllStackTraces().keySet().stream().noneMatch(t -> t.getName().equals("RecordedThreadPoolExecutor")), "it stays");
            URL[] classes = {RecorderFaults.class.getProtectionDomain().getCodeSource().getLocation()};
            URLClassLoader loader = new URLClassLoader(classes, ClassLoader.getPlatformClassLoader());
            WeakReference<ClassLoader> gone = new WeakReference<>(loader);
            ThreadPoolExecutor pool = (ThreadPoolExecutor) loader.loadClass("RecordedThreadPoolExecutor")
                .getConstructor(int.class, int.class, long.class, TimeUnit.class, BlockingQueue.class, Path.class, String.class)
                .newInstance(1, 2, 1, TimeUnit.SECONDS, queue(4), folder, "dropped");
            demand(runs(pool, 100) == 100, "a task isn't run");
            pool = null;
            loader = null;
            eventually(() -> { System.gc(); return gone.get() == null; }, "the class stays");
            has("dropped-00001.csv", "\nidle");
        });
        tell("a disk that is too slow", () -> {
            CountDownLatch gate = new CountDownLatch(1);
            RecordedThreadPoolExecutor.writers = work -> new Thread(() -> { hold(gate); work.run(); });
            RecordedThreadPoolExecutor pool = open("slow", 1, 2, 1);
            for (int i = 0; i < 150_000; i++) try { pool.execute(() -> { }); } catch (RejectedExecutionException full) { Thread.onSpinWait(); }
            RecordedThreadPoolExecutor.writers = usual;
            gate.countDown();
            demand("4 MiB of it wait for the disk".equals(pool.endRecord()), "the record goes on");
            end(pool);
        });
        tell("the bytes of its files are bounded, and one stays", () -> {
            for (int bytes : new int[] {2000, 1}) {
                String name = "bytes" + bytes;
                RecordedThreadPoolExecutor pool = new RecordedThreadPoolExecutor(1, 1, 1, TimeUnit.SECONDS, queue(9), THREADS, new AbortPolicy(), folder, name, 0, bytes);
                for (int i = 0; i < 30; i++) again(pool);
                whole(pool, 3, 3);
                long sum = 0;
                for (String file : files(name)) sum += Files.size(folder.resolve(file));
                demand(bytes == 1 ? files(name).size() == 1 : sum > 1000 && sum <= bytes, "there are " + files(name) + " with " + sum);
            }
        });
        tell("two pools of one name", () -> {
            RecordedThreadPoolExecutor one = open("twin", 1, 1, 4), other = open("twin", 1, 1, 4);
            whole(one, 10, 10);
            whole(other, 10, 10);
            demand(files("twin").equals(List.of("twin-00001.csv", "twin-00002.csv")), "there are " + files("twin"));
        });
    }

    /** Ends the program at once, without a shutdown. */
    private static void exit() throws InterruptedException {
        RecordedThreadPoolExecutor pool = open("exit", 1, 2, 400);
        CountDownLatch ran = new CountDownLatch(300);
        for (int i = 0; i < 300; i++) pool.execute(ran::countDown);
        ran.await();
        System.exit(0);
    }

    private static void hooks() {
        tell("hooks get the callers' own tasks, without the lock", () -> {
            List<Object> seen = Collections.synchronizedList(new ArrayList<>());
            AtomicInteger turn = new AtomicInteger();
            RecordedThreadPoolExecutor pool = new RecordedThreadPoolExecutor(1, 1, 1, TimeUnit.SECONDS, queue(9), THREADS, new DiscardPolicy(), folder, "hooks", 0, 0) {
                private void see(Object what) throws RuntimeException {
                    seen.add(what);
                    Thread other = new Thread(() -> getQueue().peek()); // which takes the lock
                    other.start();
                    try { other.join(20_000); } catch (InterruptedException never) { throw new IllegalStateException(never); }
                    if (other.isAlive()) seen.add("it has the lock");
                }
                private void fail(boolean now) { if (now) throw new IllegalStateException("a hook that throws"); }
                @Override protected void beforeExecute(Thread thread, Runnable task) { see(task); fail(turn.incrementAndGet() == 2); }
                @Override protected void afterExecute(Runnable task, Throwable thrown) { see(task); fail(turn.get() == 3 && thrown == null); }
                @Override protected void terminated() { see("terminated"); }
            };
            Runnable task = () -> seen.add("runs");
            for (int i = 0; i < 4; i++) pool.execute(task);
            end(pool);
            goesOn(pool);
            demand(seen.equals(List.of(task, "runs", task, task, task, "runs", task, task, task, "runs", task, "terminated")), "seen is " + seen);
            String text = Files.readString(folder.resolve("hooks-00001.csv"));
            demand(text.split("\nfinish,").length == 5 && text.split("\ntake,").length == 4, "it has " + text);
        });
        tell("every method of the JDK's pool is this one's", () -> {
            for (Method method : ThreadPoolExecutor.class.getDeclaredMethods())
                if (Modifier.isPublic(method.getModifiers())) RecordedThreadPoolExecutor.class.getDeclaredMethod(method.getName(), method.getParameterTypes());
        });
    }

    private static void puts() {
        tell("tasks that other hands put", () -> {
            CountDownLatch gate = new CountDownLatch(1);
            RecordedThreadPoolExecutor pool = open("puts", 2, 2, 2);
            List<Thread> threads = new ArrayList<>();
            pool.setThreadFactory(task -> { threads.add(new Thread(task)); return threads.get(threads.size() - 1); });
            BlockingQueue<Runnable> queue = pool.getQueue();
            queue.put(() -> { });                                                         // without a thread the record ends
            pool.execute(() -> hold(gate));                                               // and begins again
            demand(queue.offer(() -> { }, 1, TimeUnit.MILLISECONDS), "there is a place"); // below the core size: a new file
            pool.execute(() -> hold(gate));
            while (queue.size() < 2) queue.add(() -> { });
            demand(!queue.offer(() -> { }) && !queue.offer(() -> { }, 1, TimeUnit.MILLISECONDS), "there is no place");
            AtomicInteger interrupted = new AtomicInteger();
            Thread waits = new Thread(() -> { try { queue.put(() -> { }); } catch (InterruptedException ended) { interrupted.incrementAndGet(); } });
            waits.start();
            waits.interrupt();
            waits.join(20_000);
            demand(interrupted.get() == 1, "a full queue takes a task, or isn't interrupted");
            demand(queue.poll(1, TimeUnit.SECONDS) != null && queue.take() != null && queue.poll(1, TimeUnit.MILLISECONDS) == null, "it gives others");
            gate.countDown();
            end(pool);
            for (Thread thread : threads) thread.join();
            queue.put(() -> { }); // nobody runs it
            demand("tasks wait, and the pool has no thread".equals(pool.endRecord()), "the record goes on");
            has("puts-00002.csv", ": a thread came.\n");
        });
        tell("a task that other hands put into a stopped pool, which a thread takes whose time is over", () -> {
            CountDownLatch first = new CountDownLatch(1), second = new CountDownLatch(1);
            RecordedThreadPoolExecutor pool = open("stopped", 2, 2, 2);
            pool.setKeepAliveTime(3, TimeUnit.SECONDS);
            pool.allowCoreThreadTimeOut(true);
            pool.execute(first::countDown);
            demand(first.await(20, TimeUnit.SECONDS), "it isn't run");
            eventually(() -> pool.getActiveCount() == 0, "the thread has work");
            pool.setThreadFactory(task -> { // it is called with the lock, without which the thread can't leave
                LockSupport.parkNanos(TimeUnit.SECONDS.toNanos(5));
                pool.shutdownNow();
                demand(pool.getQueue().offer(second::countDown), "there is no place");
                return null;
            });
            pool.prestartCoreThread();
            demand(second.await(20, TimeUnit.SECONDS), "the thread doesn't look once more");
            demand(pool.awaitTermination(20, TimeUnit.SECONDS) && pool.getCompletedTaskCount() == 2, "it hangs, or a task is lost");
            goesOn(pool);
            has("stopped-00003.csv", ": a thread of a stopped pool took a task.\n", "\nfinish,");
        });
        tell("a thread that doesn't come, for a hand-off", () -> {
            CountDownLatch gate = new CountDownLatch(1);
            RecordedThreadPoolExecutor pool = open("late", 1, 3, 0);
            pool.setThreadFactory(task -> new Thread(() -> { hold(gate); task.run(); }));
            pool.prestartCoreThread();
            pool.setThreadFactory(THREADS);
            Thread.currentThread().interrupt();
            pool.submit(() -> { });
            demand(Thread.interrupted() && pool.getPoolSize() == 2, "it waits for ever, or isn't interrupted");
            gate.countDown();
            eventually("late-00002.csv", ": a thread came.\n");
            whole(pool, 3, 4);
        });
        tell("what other hands hand over", () -> {
            CountDownLatch gate = new CountDownLatch(1), ran = new CountDownLatch(3);
            RecordedThreadPoolExecutor pool = open("handed", 1, 1, 0);
            BlockingQueue<Runnable> queue = pool.getQueue();
            pool.setRejectedExecutionHandler((task, to) -> { try { queue.put(task); } catch (InterruptedException ended) { ran.countDown(); } });
            pool.execute(() -> hold(gate));
            demand(!queue.offer(ran::countDown) && !queue.offer(ran::countDown, 1, TimeUnit.MILLISECONDS) && queue.poll() == null, "there is a thread");
            Thread waits = new Thread(() -> pool.execute(() -> { })), other = new Thread(() -> pool.execute(ran::countDown));
            waits.start();
            eventually(() -> waits.getState() == Thread.State.WAITING || waits.getState() == Thread.State.TIMED_WAITING, "it doesn't wait");
            waits.interrupt();
            other.start();
            eventually(() -> ran.getCount() == 2, "it isn't interrupted");
            gate.countDown();
            queue.put(ran::countDown);
            demand(ran.await(20, TimeUnit.SECONDS), "it isn't run");
            end(pool);
            goesOn(pool);
            has("handed-00001.csv", ",handed,");
        });
    }

    private static void failingThreads() {
        tell("a factory that gives no thread at times", () -> {
            AtomicInteger asked = new AtomicInteger();
            RecordedThreadPoolExecutor pool = open("threads", 2, 4, 5);
            pool.setThreadFactory(task -> {
                int turn = asked.incrementAndGet() % 3;
                if (turn == 2) throw new IllegalStateException("no thread");
                return turn == 1 ? null : new Thread(task);
            });
            for (int i = 0; i < 200; i++) {
                try { pool.execute(() -> { throw new IllegalStateException("a task that throws"); }); }
                catch (RejectedExecutionException | IllegalStateException none) { Thread.yield(); }
            }
            pool.setThreadFactory(THREADS);
            pool.prestartAllCoreThreads();
            end(pool);
            pool.endRecord();
        });
        tell("a factory that gives a thread at the second time", () -> {
            demand(runs(givenThreads("second", 1, 1, 2, "-+"), 20) == 20, "a task isn't run");
            RecordedThreadPoolExecutor pool = givenThreads("extra", 2, 4, 1, "+--+");
            CyclicBarrier all = new CyclicBarrier(3);
            for (int i = 0; i < 3; i++) pool.submit(() -> all.await(1, TimeUnit.SECONDS));
            whole(pool, 0, 3);
        });
        tell("a thread that can't start", () -> {
            RecordedThreadPoolExecutor pool = givenThreads("start", 2, 2, 9, "+.+.-");
            pool.execute(() -> { });
            try { pool.execute(() -> { }); } catch (OutOfMemoryError none) { Thread.yield(); }
            pool.execute(() -> { throw new IllegalStateException("a task that throws"); });
            whole(pool, 10, 12);
        });
        tell("a step that throws when it has begun", () -> {
            RecordedThreadPoolExecutor pool = givenThreads("thrown", 1, 4, 9, "+.+.");
            CountDownLatch gate = new CountDownLatch(1);
            pool.execute(() -> hold(gate));
            for (int i = 0; i < 5; i++) pool.execute(() -> { });
            for (Runnable step : List.<Runnable>of(() -> pool.setCorePoolSize(3), pool::prestartAllCoreThreads))
                try { step.run(); } catch (OutOfMemoryError none) { Thread.yield(); }
            gate.countDown();
            demand(pool.getCorePoolSize() == 3, "a size is another");
            whole(pool, 0, 6);
        });
    }

    public static void main(String[] args) throws InterruptedException {
        folder = Path.of(args[0]);
        Thread.setDefaultUncaughtExceptionHandler((thread, thrown) -> { });
        if (args.length > 1) exit();
        LOGGER.setFilter(told -> { TOLD.add(told.getMessage()); return false; });
        for (Step each : List.<Step>of(RecorderFaults::writing, RecorderFaults::puts, RecorderFaults::hooks, RecorderFaults::refusals,
            RecorderFaults::faults, RecorderFaults::hands, RecorderFaults::failingThreads)) tell("all of it", each);
        System.exit(0); // a failed pool may have threads left
    }
}
