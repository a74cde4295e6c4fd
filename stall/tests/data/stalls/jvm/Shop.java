import java.net.ServerSocket;
import java.util.ArrayList;
import java.util.List;
import java.util.concurrent.BlockingQueue;
import java.util.concurrent.CountDownLatch;
import java.util.concurrent.ExecutorService;
import java.util.concurrent.Executors;
import java.util.concurrent.Future;
import java.util.concurrent.LinkedBlockingQueue;
import java.util.concurrent.ScheduledExecutorService;
import java.util.concurrent.TimeUnit;
import java.util.concurrent.atomic.AtomicInteger;

/**
 * A shop whose orders write their audit record in a transaction of its own (REQUIRES_NEW): each request needs a second
 * connection while it has the first one. `stuck`: as many connections as workers. `healthy`: one more, and a slow disk.
 */
public class Shop {
    static final int WORKERS = 4;

    /** A connection to the database. */
    static class Connection {
        final int id;

        Connection(int id) {
            this.id = id;
        }

        void execute(long millis) throws InterruptedException {
            Thread.sleep(millis);
        }
    }

    /** The pool of connections: a queue of those that are idle. */
    static class Pool {
        final BlockingQueue<Connection> idle = new LinkedBlockingQueue<>();
        final AtomicInteger borrowed = new AtomicInteger();

        Pool(int size) {
            for (int id = 1; id <= size; id++) {
                idle.add(new Connection(id));
            }
        }

        Connection borrow() throws InterruptedException {
            Connection connection = idle.take();
            borrowed.incrementAndGet();
            return connection;
        }

        void giveBack(Connection connection) {
            borrowed.decrementAndGet();
            idle.add(connection);
        }
    }

    final boolean healthy;
    final Pool pool;
    final CountDownLatch stop = new CountDownLatch(1);

    Shop(boolean healthy) {
        this.healthy = healthy;
        this.pool = new Pool(healthy ? WORKERS + 1 : WORKERS);
    }

    static ExecutorService threads(String name, int size) {
        AtomicInteger number = new AtomicInteger();
        return Executors.newFixedThreadPool(size, task -> new Thread(task, name + "-" + number.incrementAndGet()));
    }

    /** One order: the first transaction stays open while the audit record is written in a second one. */
    String order(int number) throws InterruptedException {
        Connection connection = pool.borrow();
        try {
            boolean slow = healthy && number == 1;
            connection.execute(slow ? 10 : 1000);
            audit(number, slow ? 45_000 : 10);
            return "order " + number;
        } finally {
            pool.giveBack(connection);
        }
    }

    void audit(int number, long millis) throws InterruptedException {
        Connection connection = pool.borrow();
        try {
            connection.execute(millis);
        } finally {
            pool.giveBack(connection);
        }
    }

    /** Expired carts go once a night, and once at the start. */
    void cleanUp() throws InterruptedException {
        Thread.sleep(2000);
        Connection connection = pool.borrow();
        try {
            connection.execute(10);
        } finally {
            pool.giveBack(connection);
        }
    }

    interface Work {
        void run() throws Exception;
    }

    static void start(String name, Work work) {
        new Thread(() -> {
            try {
                work.run();
            } catch (Exception error) {
                error.printStackTrace();
            }
        }, name).start();
    }

    void open(int port) throws Exception {
        ExecutorService http = threads("http", WORKERS);
        List<Future<String>> answers = new ArrayList<>();
        for (int number = 1; number <= 6; number++) {
            int order = number;
            answers.add(http.submit(() -> order(order)));
            Thread.sleep(number == 1 ? 200 : 20);
        }
        for (int number = 1; number <= 6; number++) {
            Future<String> answer = answers.get(number - 1);
            start("checkout-" + number, () -> System.out.println(answer.get()));
        }
        start("cart-cleanup", this::cleanUp);
        ScheduledExecutorService keeper = Executors.newScheduledThreadPool(1, task -> new Thread(task, "pool-stats"));
        keeper.scheduleAtFixedRate(() -> System.out.println("borrowed " + pool.borrowed), 1, 20, TimeUnit.SECONDS);
        start("acceptor", () -> {
            try (ServerSocket door = new ServerSocket(port)) {
                for (;;) {
                    door.accept().close();
                }
            }
        });
        Runtime.getRuntime().addShutdownHook(new Thread(stop::countDown, "on-signal"));
        stop.await();
    }

    public static void main(String[] words) throws Exception {
        new Shop(words[0].equals("healthy")).open(Integer.parseInt(words[1]));
    }
}
