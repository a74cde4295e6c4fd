import java.util.ArrayDeque;
import java.util.concurrent.CountDownLatch;
import java.util.concurrent.locks.Condition;
import java.util.concurrent.locks.ReentrantLock;

/** A pool has two connections, as DBCP keeps them. Two payers have them, and want a ledger that an auditor has, who
 * waits for a connection. Three visitors wait for one too, and have nothing. In "slow" the second payer takes long with
 * its connection. */
public class Teller {
    static final class Pool {
        private final ReentrantLock lock = new ReentrantLock();
        private final Condition given = lock.newCondition();
        private final ArrayDeque<Integer> idle = new ArrayDeque<>();

        Integer borrow() throws InterruptedException {
            lock.lockInterruptibly();
            try {
                while (idle.isEmpty()) {
                    given.await();
                }
                return idle.pollFirst();
            } finally {
                lock.unlock();
            }
        }

        void giveBack(Integer connection) {
            lock.lock();
            try {
                idle.addFirst(connection);
                given.signal();
            } finally {
                lock.unlock();
            }
        }
    }

    static final Pool POOL = new Pool();
    static final Object LEDGER = new Object();
    static final CountDownLatch BORROWED = new CountDownLatch(2), AUDITED = new CountDownLatch(1);

    interface Work {
        void run() throws Exception;
    }

    static void start(String name, Work work, boolean isDaemon) {
        Thread thread = new Thread(() -> {
            try {
                work.run();
            } catch (Exception error) {
                throw new IllegalStateException(error);
            }
        }, name);
        thread.setDaemon(isDaemon);
        thread.start();
    }

    static void pay(boolean isSlow) throws Exception {
        Integer connection = POOL.borrow();
        BORROWED.countDown();
        AUDITED.await();
        if (isSlow) {
            Thread.sleep(300_000);
        }
        synchronized (LEDGER) {
            POOL.giveBack(connection);
        }
    }

    static void audit() throws Exception {
        BORROWED.await();
        synchronized (LEDGER) {
            AUDITED.countDown();
            POOL.giveBack(POOL.borrow());
        }
    }

    static void visit() throws Exception {
        AUDITED.await();
        POOL.giveBack(POOL.borrow());
    }

    static void beat() throws Exception {
        while (true) {
            Thread.sleep(500);
        }
    }

    public static void main(String[] words) {
        POOL.giveBack(1);
        POOL.giveBack(2);
        start("beat", Teller::beat, true);
        for (int number = 1; number <= 3; number++) {
            start("visitor-" + number, Teller::visit, false);
        }
        start("payer-1", () -> pay(false), false);
        start("payer-2", () -> pay(words[0].equals("slow")), false);
        start("auditor", Teller::audit, false);
    }
}
