import java.io.BufferedReader;
import java.io.IOException;
import java.io.InputStreamReader;
import java.util.concurrent.Semaphore;

/** Pairs of taking and giving back a permit, by the JDK's Semaphore: {@code permits THREADS PAIRS} asks for a round. */
public final class Permits {
    private static void pairs(Semaphore permits, long pairs) {
        for (long pair = 0; pair < pairs; pair++) {
            if (!permits.tryAcquire()) {
                throw new IllegalStateException("no permit is free");
            }
            permits.release();
        }
    }

    private static void run(int count, long pairs) throws InterruptedException {
        Semaphore permits = new Semaphore(count);
        Thread[] threads = new Thread[count];
        for (int i = 0; i < count; i++) {
            threads[i] = new Thread(() -> pairs(permits, pairs));
            threads[i].start();
        }
        for (Thread thread : threads) {
            thread.join();
        }
    }

    public static void main(String[] args) throws IOException, InterruptedException {
        BufferedReader lines = new BufferedReader(new InputStreamReader(System.in));
        for (String line = lines.readLine(); line != null; line = lines.readLine()) {
            String[] words = line.split(" ");
            int threads = Integer.parseInt(words[1]);
            long pairs = Long.parseLong(words[2]);
            run(threads, pairs);
            System.out.println("permits: " + threads * pairs + " pairs");
        }
    }
}
