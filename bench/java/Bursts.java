import java.io.BufferedReader;
import java.io.IOException;
import java.io.InputStreamReader;
import java.nio.file.Path;
import java.util.ArrayList;
import java.util.List;
import java.util.concurrent.ArrayBlockingQueue;
import java.util.concurrent.BlockingQueue;
import java.util.concurrent.RejectedExecutionException;
import java.util.concurrent.SynchronousQueue;
import java.util.concurrent.TimeUnit;
import java.util.concurrent.locks.LockSupport;

/**
 * A load on a pool of the JDK that records itself: {@code Bursts CORE MAX QUEUE KEEP_ALIVE FOLDER}, the keep-alive in microseconds, over
 * lines {@code at,takes} of standard input. A queue of 0 places hands jobs over. Its jobs sleep. The record is in the folder, as
 * bursts-00001.csv.
 */
public final class Bursts {
    /** The ns before a submission at which its thread no longer sleeps. */
    private static final long SPIN = 500_000;

    private record Arrival(long at, long takes) {}

    private static void sleepUntil(long nanos, long less) {
        for (long left; (left = nanos - less - System.nanoTime()) > 0; ) {
            LockSupport.parkNanos(left);
        }
        while (System.nanoTime() - nanos < 0) {
            Thread.onSpinWait();
        }
    }

    private static BlockingQueue<Runnable> queueOf(int places) {
        return places == 0 ? new SynchronousQueue<>() : new ArrayBlockingQueue<>(places);
    }

    private static void submit(RecordedThreadPoolExecutor pool, long takes) {
        try {
            pool.execute(() -> sleepUntil(System.nanoTime() + takes * 1000, 0));
        } catch (RejectedExecutionException full) {
            // The record has it.
        }
    }

    public static void main(String[] args) throws IOException, InterruptedException {
        List<Arrival> load = new ArrayList<>();
        BufferedReader lines = new BufferedReader(new InputStreamReader(System.in));
        for (String line = lines.readLine(); line != null; line = lines.readLine()) {
            String[] fields = line.split(",");
            load.add(new Arrival(Long.parseLong(fields[0]), Long.parseLong(fields[1])));
        }
        RecordedThreadPoolExecutor pool = new RecordedThreadPoolExecutor(Integer.parseInt(args[0]), Integer.parseInt(args[1]),
                Long.parseLong(args[3]), TimeUnit.MICROSECONDS, queueOf(Integer.parseInt(args[2])), Path.of(args[4]), "bursts");
        long start = System.nanoTime();
        for (Arrival arrival : load) {
            sleepUntil(start + arrival.at * 1000, SPIN);
            submit(pool, arrival.takes);
        }
        pool.shutdown();
        pool.awaitTermination(1, TimeUnit.HOURS);
    }
}
