import java.net.ServerSocket;
import java.net.Socket;
import java.util.concurrent.ArrayBlockingQueue;
import java.util.concurrent.BlockingQueue;
import java.util.concurrent.CountDownLatch;
import java.util.concurrent.ExecutorService;
import java.util.concurrent.Executors;
import java.util.concurrent.LinkedBlockingQueue;
import java.util.concurrent.TimeUnit;
import java.util.concurrent.locks.ReentrantLock;

/** Has a virtual thread for each kind of wait, named as those of Waits.java. It needs JDK 21. */
public class Virtual {
    interface Work {
        void run() throws Exception;
    }

    static final CountDownLatch NEVER = new CountDownLatch(1);
    static final ReentrantLock LOCK = new ReentrantLock();
    static final Object MONITOR = new Object();
    static Socket accepted;

    static void start(String name, Work work) throws InterruptedException {
        Thread.ofVirtual().name(name).start(() -> {
            try {
                work.run();
            } catch (Exception error) {
                throw new IllegalStateException(error);
            }
        });
        Thread.sleep(20);
    }

    static void await() throws InterruptedException {
        NEVER.await();
    }

    public static void main(String[] words) throws Exception {
        Thread.currentThread().setName("unknown close");
        start("unknown put", () -> {
            BlockingQueue<String> queue = new ArrayBlockingQueue<>(1);
            queue.put("");
            queue.put("");
        });
        start("unknown await lock's owner", () -> {
            LOCK.lock();
            await();
        });
        start("unknown lock", () -> LOCK.lock());
        start("unknown await in a monitor", () -> {
            synchronized (MONITOR) {
                await();
            }
        });
        start("any synchronized", () -> {
            synchronized (MONITOR) {
                await();
            }
        });
        start("unknown wait", () -> {
            Object monitor = new Object();
            synchronized (monitor) {
                monitor.wait();
            }
        });
        start("runs wait", () -> {
            Object monitor = new Object();
            synchronized (monitor) {
                monitor.wait(1_000_000);
            }
        });
        start("runs sleep", () -> Thread.sleep(1_000_000));
        start("runs poll", () -> new LinkedBlockingQueue<String>().poll(1, TimeUnit.HOURS));
        start("runs -", () -> {
            for (double x = 1; x > 0; ) {
                x = Math.sin(x) + 1.1;
            }
        });
        ServerSocket door = new ServerSocket(0);
        start("rests accept", () -> {
            accepted = door.accept();
            door.accept();
        });
        start("rests read", () -> new Socket("127.0.0.1", door.getLocalPort()).getInputStream().read());
        System.out.println("ready");
        try (ExecutorService pool = Executors.newVirtualThreadPerTaskExecutor()) {
            pool.submit(() -> {
                Thread.currentThread().setName("unknown await in a pool");
                await();
                return 1;
            });
        }
    }
}
