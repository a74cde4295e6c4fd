import java.util.concurrent.ArrayBlockingQueue;
import java.util.concurrent.BlockingQueue;
import java.util.concurrent.ExecutorService;
import java.util.concurrent.Executors;
import java.util.concurrent.Semaphore;
import java.util.concurrent.atomic.AtomicLong;

/** A press whose printer waits for room, and whose folder waits for a permit of the printer. A monitor hands small tasks to
    a pool: they count, or one of them makes room. */
public class Presser {
    final BlockingQueue<String> tray = new ArrayBlockingQueue<>(1);
    final Semaphore plates = new Semaphore(1);
    final AtomicLong beats = new AtomicLong();

    void print() throws Exception {
        plates.acquire();
        try {
            for (int page = 0; page < 10; page++) {
                tray.put("page " + page);
            }
        } finally {
            plates.release();
        }
    }

    void fold() throws Exception {
        Thread.sleep(100);
        plates.acquire();
        tray.take();
    }

    void monitor(ExecutorService pool) throws Exception {
        for (;;) {
            Thread.sleep(200);
            pool.submit(() -> String.valueOf(beats.incrementAndGet()).length());
        }
    }

    void sweep(ExecutorService pool) throws Exception {
        for (;;) {
            Thread.sleep(3_600_000);
            pool.submit(() -> {
                tray.poll();
            });
        }
    }

    void monitor(String word, ExecutorService pool) throws Exception {
        for (;;) {
            Thread.sleep(word.equals("plain") ? 200 : 3_600_000);
            if (word.equals("plain")) pool.submit(() -> String.valueOf(beats.incrementAndGet()).length());
        }
    }
    void frees(ExecutorService pool) throws Exception { for (;;) { Thread.sleep(3_600_000); pool.submit(() -> { tray.poll(); }); } }
    interface Work {
        void run() throws Exception;
    }

    static void start(String name, Work work) {
        new Thread(() -> {
            try {
                work.run();
            } catch (Exception error) {
                error.printStackTrace();
            }
        }, name).start();
    }

    public static void main(String[] words) throws Exception {
        Presser press = new Presser();
        start("printer", press::print);
        start("folder", press::fold);
        ExecutorService pool = Executors.newFixedThreadPool(2);
        if (words[0].equals("stuck")) {
            start("monitor", () -> press.monitor(pool));
        } else {
            start("monitor", () -> press.sweep(pool));
        }
    }
}
