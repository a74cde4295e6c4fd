import java.util.concurrent.CountDownLatch;
import java.util.concurrent.ExecutorService;
import java.util.concurrent.Executors;
import java.util.concurrent.atomic.AtomicInteger;
import java.util.concurrent.locks.ReentrantLock;
import java.util.concurrent.locks.ReentrantReadWriteLock;

/** A loader has a lock when it meets a price that is none, and dies of that with the lock. Three tills of a pool wait
 * for it, and a clerk who may be interrupted. It also reads under another lock: a pricer wants to write there, and a
 * viewer behind that to read. In "alive" it reads for long. */
public class Till {
    static final ReentrantLock STOCK = new ReentrantLock();
    static final ReentrantReadWriteLock PRICES = new ReentrantReadWriteLock();
    static final CountDownLatch STARTED = new CountDownLatch(1);

    static void load(String price, boolean isLong) throws Exception {
        STOCK.lock();
        PRICES.readLock().lock();
        STARTED.countDown();
        if (isLong) {
            Thread.sleep(300_000);
        }
        Integer.parseInt(price);
        PRICES.readLock().unlock();
        STOCK.unlock();
    }

    static void sell() {
        STOCK.lock();
        try {
            System.out.println("sold");
        } finally {
            STOCK.unlock();
        }
    }

    static void count() throws Exception {
        STOCK.lockInterruptibly();
        STOCK.unlock();
    }

    interface Work {
        void run() throws Exception;
    }

    static void start(String name, Work work) {
        new Thread(() -> {
            try {
                work.run();
            } catch (Exception error) {
                System.out.println(error);
            }
        }, name).start();
    }

    public static void main(String[] words) throws Exception {
        start("loader", () -> load("12 EUR", words[0].equals("alive")));
        STARTED.await();
        AtomicInteger number = new AtomicInteger();
        ExecutorService tills = Executors.newFixedThreadPool(
            3, work -> new Thread(work, "till-" + number.incrementAndGet()));
        for (int at = 0; at < 4; at++) {
            tills.submit(Till::sell);
        }
        start("clerk", Till::count);
        start("pricer", () -> PRICES.writeLock().lock());
        Thread.sleep(200);
        start("viewer", () -> PRICES.readLock().lock());
        start("heartbeat", () -> {
            for (;;) {
                Thread.sleep(700);
            }
        });
    }
}
