import java.util.concurrent.CountDownLatch;
import java.util.concurrent.locks.ReentrantLock;

/**
 * A virtual thread has a monitor and waits for a lock, which a thread of the platform has that waits for the monitor.
 * With a word the virtual one gives the monitor back in time. It needs JDK 24.
 */
public class Mixed {
    static final Object SHELF = new Object();
    static final ReentrantLock TILL = new ReentrantLock();
    static final CountDownLatch BOTH = new CountDownLatch(2);

    static void meet() {
        BOTH.countDown();
        try {
            BOTH.await();
        } catch (InterruptedException error) {
            throw new IllegalStateException(error);
        }
    }

    static void pack(boolean isSlow) {
        synchronized (SHELF) {
            meet();
            if (isSlow) rest();
            TILL.lock();
        }
    }

    static void rest() {
        try {
            Thread.sleep(600_000);
        } catch (InterruptedException error) {
            throw new IllegalStateException(error);
        }
    }

    static void sell() {
        TILL.lock();
        meet();
        synchronized (SHELF) {
            System.out.println("sold");
        }
    }

    public static void main(String[] words) throws InterruptedException {
        Thread packer = Thread.ofVirtual().name("packer").start(() -> pack(words.length > 0));
        Thread seller = new Thread(Mixed::sell, "seller");
        seller.start();
        packer.join();
    }
}
