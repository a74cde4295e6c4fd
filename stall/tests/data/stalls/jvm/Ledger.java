import java.util.concurrent.CountDownLatch;
import java.util.concurrent.locks.ReentrantReadWriteLock;

/**
 * An entry is to be written to a ledger that another one reads, by a lock that an interrupt gives up. "slow": who reads
 * goes on after a while, and gives the lock back. "stuck": he wants to see what is written, and keeps the lock.
 */
public class Ledger {
    final ReentrantReadWriteLock lock = new ReentrantReadWriteLock();
    final CountDownLatch isRead = new CountDownLatch(1);
    long entries;

    void write() {
        try {
            isRead.await();
            lock.writeLock().lockInterruptibly();
            entries++;
            lock.writeLock().unlock();
        } catch (InterruptedException e) {
            Thread.currentThread().interrupt();
        }
    }

    void read(Thread writer) {
        lock.readLock().lock();
        try {
            isRead.countDown();
            if (writer == null) {
                Thread.sleep(Integer.getInteger("rests", 3_600_000));
            } else {
                writer.join();
            }
        } catch (InterruptedException e) {
            Thread.currentThread().interrupt();
        } finally {
            lock.readLock().unlock();
        }
    }

    public static void main(String[] words) throws InterruptedException {
        Ledger ledger = new Ledger();
        Thread writer = new Thread(ledger::write, "writer");
        new Thread(() -> ledger.read(words[0].equals("stuck") ? writer : null), "reader").start();
        writer.start();
        writer.join();
        System.out.println(ledger.entries);
    }
}
