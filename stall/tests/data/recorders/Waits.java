import java.io.IOException;
import java.io.PipedInputStream;
import java.io.PipedOutputStream;
import java.net.ServerSocket;
import java.net.Socket;
import java.nio.channels.Selector;
import java.util.List;
import java.util.Timer;
import java.util.TimerTask;
import java.util.concurrent.*;
import java.util.concurrent.locks.*;

/**
 * Has a thread for each kind of wait. The first word of a thread's name is what is right of it ('unknown', 'runs',
 * 'idle', which is left out, or 'any', by one that the state shows), the second the call that it waits in.
 */
public class Waits {
    interface Work {
        void run() throws Exception;
    }

    static final CountDownLatch NEVER = new CountDownLatch(1);
    static final Object OUTER = new Object(), INNER = new Object(), NOTIFIED = new Object();
    static final ReentrantLock LOCK = new ReentrantLock();
    static final ReentrantReadWriteLock WRITTEN = new ReentrantReadWriteLock(), READ = new ReentrantReadWriteLock();
    static final StampedLock STAMPED = new StampedLock();
    static Socket accepted;

    static class Slow {
        static {
            pause(1_000_000);
        }

        static void touch() {
        }
    }

    static void pause(long milliseconds) {
        try {
            Thread.sleep(milliseconds);
        } catch (InterruptedException error) {
            throw new IllegalStateException(error);
        }
    }

    static Thread start(String name, Work work) {
        Thread thread = new Thread(() -> {
            try {
                work.run();
            } catch (Exception error) {
                throw new IllegalStateException(error);
            }
        }, name);
        thread.setDaemon(true);
        thread.start();
        pause(20);
        return thread;
    }

    static void locks() {
        start("unknown await lock's owner", () -> {
            LOCK.lock();
            NEVER.await();
        });
        start("any lock", LOCK::lock);
        start("runs tryLock", () -> LOCK.tryLock(1, TimeUnit.HOURS));
        start("unknown await writer", () -> {
            WRITTEN.writeLock().lock();
            NEVER.await();
        });
        start("any lock of a reader behind a writer", () -> WRITTEN.readLock().lock());
        start("unknown await reader", () -> {
            READ.readLock().lock();
            NEVER.await();
        });
        start("unknown lock of a writer behind a reader", () -> READ.writeLock().lock());
        start("any lock of a reader behind that writer", () -> READ.readLock().lock());
        STAMPED.writeLock();
        start("unknown readLock", STAMPED::readLock);
        start("unknown writeLock", STAMPED::writeLock);
        start("unknown await of a condition", () -> {
            ReentrantLock lock = new ReentrantLock();
            lock.lock();
            lock.newCondition().await();
        });
    }

    static void monitors() {
        start("unknown wait that keeps the inner monitor", () -> {
            synchronized (OUTER) {
                synchronized (INNER) {
                    OUTER.wait();
                }
            }
        });
        start("any synchronized of the inner monitor", () -> {
            synchronized (INNER) {
                pause(1);
            }
        });
        start("runs wait", () -> {
            synchronized (OUTER) {
                OUTER.wait(1_000_000);
            }
        });
        start("unknown await who has the outer monitor", () -> {
            synchronized (OUTER) {
                NEVER.await();
            }
        });
        start("any wait to enter again", () -> {
            synchronized (NOTIFIED) {
                NOTIFIED.wait();
            }
        });
        start("unknown await who has notified", () -> {
            synchronized (NOTIFIED) {
                NOTIFIED.notifyAll();
                NEVER.await();
            }
        });
        start("runs sleep in an initialiser", Slow::touch);
        start("any - of an initialiser", Slow::touch);
    }

    static void queues() {
        start("unknown put", () -> {
            BlockingQueue<String> queue = new ArrayBlockingQueue<>(1);
            queue.put("");
            queue.put("");
        });
        start("rests take", () -> new LinkedBlockingQueue<String>().take());
        start("rests take of a priority", () -> new PriorityBlockingQueue<String>().take());
        start("rests take of a delay", () -> new DelayQueue<Delayed>().take());
        start("rests take of a deque", () -> new LinkedBlockingDeque<String>().take());
        start("unknown put hand to hand", () -> new SynchronousQueue<String>().put(""));
        start("unknown transfer", () -> new LinkedTransferQueue<String>().transfer(""));
        start("unknown exchange", () -> new Exchanger<String>().exchange(""));
        start("runs poll", () -> new LinkedBlockingQueue<String>().poll(1, TimeUnit.HOURS));
    }

    static void others() {
        start("unknown await latch", NEVER::await);
        start("unknown await barrier", () -> new CyclicBarrier(2).await());
        start("unknown arriveAndAwaitAdvance", () -> new Phaser(2).arriveAndAwaitAdvance());
        start("unknown acquire", () -> new Semaphore(0).acquire());
        start("unknown get", () -> new FutureTask<>(() -> "").get());
        start("unknown get completable", () -> new CompletableFuture<String>().get());
        start("unknown join completable", () -> new CompletableFuture<String>().join());
        start("runs get", () -> new CompletableFuture<String>().get(1, TimeUnit.HOURS));
        Thread sleeper = start("runs sleep", () -> pause(1_000_000));
        start("unknown join", sleeper::join);
        start("unknown park", LockSupport::park);
        start("runs parkNanos", () -> LockSupport.parkNanos(1_000_000_000_000L));
        start("unknown waitFor", () -> new ProcessBuilder("sleep", "60").start().waitFor());
        start("runs -", () -> {
            for (double x = 1; x > 0; ) {
                x = Math.sin(x) + 1.1;
            }
        });
        ExecutorService pool = Executors.newFixedThreadPool(1, work -> new Thread(work, "unknown await in a pool"));
        start("unknown invokeAll", () -> pool.invokeAll(List.of(() -> {
            NEVER.await();
            return 1;
        })));
    }

    static void devices() throws IOException {
        ServerSocket door = new ServerSocket(0);
        start("rests accept", () -> {
            accepted = door.accept();
            door.accept();
        });
        start("rests read", () -> new Socket("127.0.0.1", door.getLocalPort()).getInputStream().read());
        start("rests read of a pipe", () -> new PipedInputStream(new PipedOutputStream()).read());
        start("rests read of standard input", System.in::read);
        start("rests select", () -> Selector.open().select());
    }

    static void pools() {
        Executors.newFixedThreadPool(1, work -> new Thread(work, "idle take")).submit(() -> 1);
        Executors.newCachedThreadPool(work -> new Thread(work, "idle poll")).submit(() -> 1);
        Executors.newScheduledThreadPool(1, work -> new Thread(work, "idle take of a schedule")).submit(() -> 1);
        ScheduledExecutorService later = Executors.newScheduledThreadPool(1, work -> new Thread(work, "runs awaitNanos"));
        later.schedule(() -> 1, 1, TimeUnit.HOURS);
        new Timer("idle wait of a timer").schedule(new TimerTask() {
            @Override
            public void run() {
            }
        }, 0);
        new Timer("runs wait of a timer").schedule(new TimerTask() {
            @Override
            public void run() {
            }
        }, 1_000_000);
    }

    public static void main(String[] words) throws Exception {
        Thread.currentThread().setName("unknown await main");
        locks();
        monitors();
        queues();
        others();
        devices();
        pools();
        System.out.println("ready");
        NEVER.await();
    }
}
