import java.io.BufferedReader;
import java.io.IOException;
import java.io.InputStreamReader;
import java.util.ArrayList;
import java.util.List;
import java.util.concurrent.ArrayBlockingQueue;
import java.util.concurrent.ThreadPoolExecutor;
import java.util.concurrent.TimeUnit;
import java.util.concurrent.locks.LockSupport;

/**
 * What the JDK's ThreadPoolExecutor replies to a load: {@code Simulate CORE MAX QUEUE KEEP_ALIVE}, the last in microseconds,
 * over lines {@code at,takes} of standard input. Its jobs sleep. Each submission gives a line: core, queued, extra or full.
 */
public final class Simulate {
    /** How many jobs go through a pool of their own before those that count, while classes are loaded. */
    private static final int WARM_UP = 100;

    /** The ns before a submission at which its thread no longer sleeps. */
    private static final long SPIN = 500_000;

    private record Arrival(long at, long takes) {}

    /** A queue that keeps whether it was asked by a submission, and what it answered. The pool asks it once at most. */
    private static final class Asked extends ArrayBlockingQueue<Runnable> {
        private static final long serialVersionUID = 1;
        private Boolean answer;

        Asked(int capacity) {
            super(capacity);
        }

        @Override
        public boolean offer(Runnable job) {
            answer = super.offer(job);
            return answer;
        }

        /** The reply to the last submission, which wasn't refused: a worker that no place was asked for is of the core. */
        String reply() {
            String reply = answer == null ? "core" : answer ? "queued" : "extra";
            answer = null;
            return reply;
        }
    }

    private static void sleepUntil(long nanos, long less) {
        for (long left; (left = nanos - less - System.nanoTime()) > 0; ) {
            LockSupport.parkNanos(left);
        }
        while (System.nanoTime() - nanos < 0) {
            Thread.onSpinWait();
        }
    }

    private static List<String> replies(String[] sizes, List<Arrival> load) throws InterruptedException {
        Asked queue = new Asked(Integer.parseInt(sizes[2]));
        String[] refused = new String[1];
        ThreadPoolExecutor pool = new ThreadPoolExecutor(Integer.parseInt(sizes[0]), Integer.parseInt(sizes[1]),
                Long.parseLong(sizes[3]), TimeUnit.MICROSECONDS, queue, (job, full) -> refused[0] = "full");
        List<String> replies = new ArrayList<>();
        long start = System.nanoTime();
        for (Arrival arrival : load) {
            sleepUntil(start + arrival.at * 1000, SPIN);
            refused[0] = null;
            pool.execute(() -> sleepUntil(System.nanoTime() + arrival.takes * 1000, 0));
            String reply = queue.reply();
            replies.add(refused[0] == null ? reply : refused[0]);
        }
        pool.shutdown();
        pool.awaitTermination(1, TimeUnit.HOURS);
        return replies;
    }

    public static void main(String[] args) throws IOException, InterruptedException {
        List<Arrival> load = new ArrayList<>();
        BufferedReader lines = new BufferedReader(new InputStreamReader(System.in));
        for (String line = lines.readLine(); line != null; line = lines.readLine()) {
            String[] fields = line.split(",");
            load.add(new Arrival(Long.parseLong(fields[0]), Long.parseLong(fields[1])));
        }
        replies(args, load.subList(0, Math.min(WARM_UP, load.size())));
        replies(args, load).forEach(System.out::println);
    }
}
