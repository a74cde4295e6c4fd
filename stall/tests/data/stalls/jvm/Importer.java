import com.sun.net.httpserver.HttpServer;
import java.net.InetSocketAddress;
import java.util.concurrent.CountDownLatch;
import java.util.concurrent.ExecutorService;
import java.util.concurrent.Executors;
import java.util.concurrent.TimeUnit;
import java.util.concurrent.atomic.AtomicInteger;

/**
 * An importer that exits from a thread of its pool, while the shutdown hook waits for that pool, as many a job of
 * Hadoop or Spring did. `stuck`: the thread that reads the broken file calls System.exit. `healthy`: operations do so
 * while one file is still being read, for 45 seconds.
 */
public class Importer {
    final boolean healthy;
    final ExecutorService readers = readers();
    final CountDownLatch imported = new CountDownLatch(3);

    Importer(boolean healthy) {
        this.healthy = healthy;
    }

    static ExecutorService readers() {
        AtomicInteger number = new AtomicInteger();
        return Executors.newFixedThreadPool(3, task -> new Thread(task, "reader-" + number.incrementAndGet()));
    }

    void read(int file) {
        try {
            Thread.sleep(500 * file);
            if (file == 3) {
                if (healthy) {
                    Thread.sleep(45_000);
                } else {
                    throw new IllegalStateException("broken file");
                }
            }
            imported.countDown();
        } catch (InterruptedException error) {
            Thread.currentThread().interrupt();
        } catch (IllegalStateException error) {
            fail(error);
        }
    }

    /** Nothing can be done: exit, so that the supervisor starts us again. */
    void fail(Exception error) {
        System.out.println("fatal: " + error.getMessage());
        System.exit(1);
    }

    /** The hook: let the files that are being read come to an end. */
    void drain() {
        readers.shutdown();
        try {
            readers.awaitTermination(Long.MAX_VALUE, TimeUnit.NANOSECONDS);
        } catch (InterruptedException error) {
            Thread.currentThread().interrupt();
        }
        System.out.println("drained");
    }

    interface Work {
        void run() throws Exception;
    }

    static void start(String name, Work work) {
        new Thread(() -> {
            try {
                work.run();
            } catch (Exception error) {
                error.printStackTrace();
            }
        }, name).start();
    }

    void open(int port) throws Exception {
        HttpServer status = HttpServer.create(new InetSocketAddress("127.0.0.1", port), 0);
        status.createContext("/", exchange -> {
            exchange.sendResponseHeaders(200, -1);
            exchange.close();
        });
        status.start();
        Runtime.getRuntime().addShutdownHook(new Thread(this::drain, "drain"));
        for (int file = 1; file <= 3; file++) {
            int number = file;
            readers.submit(() -> read(number));
        }
        start("publisher", () -> {
            imported.await();
            System.out.println("all files imported");
        });
        Executors.newScheduledThreadPool(1, task -> new Thread(task, "progress"))
            .scheduleAtFixedRate(() -> System.out.println("open: " + imported.getCount()), 1, 15, TimeUnit.SECONDS);
        start("stop-order", () -> {
            Thread.sleep(3000);
            System.exit(0);
        });
        start("second-stop-order", () -> {
            Thread.sleep(4000);
            System.exit(0);
        });
    }

    public static void main(String[] words) throws Exception {
        new Importer(words[0].equals("healthy")).open(Integer.parseInt(words[1]));
    }
}
