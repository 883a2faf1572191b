import java.nio.file.Path;
import java.util.concurrent.ArrayBlockingQueue;
import java.util.concurrent.RejectedExecutionException;
import java.util.concurrent.TimeUnit;
import java.util.concurrent.locks.LockSupport;

/** Runs a pool of 2 to 5 threads with a queue of 20 for three seconds, with a burst, and records it in the folder named by the argument. */
public final class RecordedPoolDemo {
    public static void main(String[] args) throws InterruptedException {
        RecordedThreadPoolExecutor pool = new RecordedThreadPoolExecutor(2, 5, 100, TimeUnit.MILLISECONDS, new ArrayBlockingQueue<>(20),
            Path.of(args[0]), "demo");
        for (int millis = 0, pause; millis < 3000; millis += pause) {
            pause = millis >= 1000 && millis < 1600 ? 5 : 40;
            try { pool.execute(() -> LockSupport.parkNanos(30_000_000)); } catch (RejectedExecutionException full) { System.out.print("full "); }
            LockSupport.parkNanos(pause * 1_000_000L);
        }
        pool.shutdown();
        pool.awaitTermination(1, TimeUnit.MINUTES);
        String ended = pool.endRecord();
        System.out.println(ended == null ? "\nthe record is in " + args[0] : "\nthe record ended: " + ended);
    }
}
