import com.sun.net.httpserver.HttpExchange;
import com.sun.net.httpserver.HttpServer;
import java.io.IOException;
import java.net.InetAddress;
import java.net.InetSocketAddress;
import java.nio.charset.StandardCharsets;
import java.util.List;
import java.util.concurrent.ArrayBlockingQueue;
import java.util.concurrent.BlockingQueue;
import java.util.concurrent.Executors;
import java.util.concurrent.FutureTask;
import java.util.concurrent.LinkedBlockingQueue;
import java.util.concurrent.ScheduledExecutorService;
import java.util.concurrent.ScheduledFuture;
import java.util.concurrent.ThreadFactory;
import java.util.concurrent.ThreadPoolExecutor;
import java.util.concurrent.TimeUnit;
import java.util.concurrent.atomic.AtomicInteger;

/**
 * A shipper puts boxes into a bay that is full, since the loader that took them out has ended. A server of HTTP says how
 * many there are, and a clock prints that once an hour. Its arguments have the words of what differs:
 *
 *   polls    the clock takes a box out
 *   pool     the server has a pool for what it is asked
 *   behind   that pool also ships, and a box is to be taken out by a task that stands in its queue
 *   orders   two clerks of a pool wait for tasks that stand in its queue
 *   again    the clock has these tasks too
 *
 * DepotOpen also clears the bay for who asks, and DepotHires for whom its pool hires. DepotTwice has clerks alone. The
 * stalls of one have no class of the others' names on their class path.
 */
public class Depot {
    protected final BlockingQueue<String> bay = new ArrayBlockingQueue<>(1);
    private final AtomicInteger shipped = new AtomicInteger(), clerks = new AtomicInteger();
    protected final ThreadPoolExecutor pool = new ThreadPoolExecutor(1, 2, 1, TimeUnit.HOURS,
        new LinkedBlockingQueue<>(1), it -> new Thread(it, "answerer"));
    private final ThreadPoolExecutor desk = new ThreadPoolExecutor(2, 2, 0, TimeUnit.SECONDS,
        new LinkedBlockingQueue<>(), it -> new Thread(it, "clerk-" + clerks.incrementAndGet()));
    private final ScheduledExecutorService clock = Executors.newScheduledThreadPool(1, it -> new Thread(it, "clock"));

    void ship() {
        try {
            while (true) {
                bay.put("box " + shipped.incrementAndGet());
            }
        } catch (InterruptedException e) {
            Thread.currentThread().interrupt();
        }
    }

    void tell(HttpExchange asked) throws IOException {
        byte[] text = (bay.size() + " boxes").getBytes(StandardCharsets.UTF_8);
        asked.getResponseHeaders().set("Content-Type", "text/plain");
        asked.sendResponseHeaders(200, text.length);
        asked.getResponseBody().write(text);
        asked.close();
    }

    void serve(List<String> words) throws IOException {
        HttpServer server = HttpServer.create(new InetSocketAddress(InetAddress.getLoopbackAddress(), 0), 0);
        server.createContext("/", this::tell);
        server.setExecutor(words.contains("pool") ? pool : null);
        server.start();
    }

    Integer order(FutureTask<Integer> part) throws Exception {
        desk.execute(part);
        return part.get();
    }

    void take(boolean again) {
        for (int it = 0; it < 2; it++) {
            FutureTask<Integer> part = new FutureTask<>(bay::size);
            desk.execute(() -> {
                try {
                    Thread.sleep(500);
                    System.out.println(order(part));
                } catch (Exception e) {
                    throw new IllegalStateException(e);
                }
            });
            if (again) {
                clock.schedule(part, 1, TimeUnit.HOURS);
            }
        }
    }

    static void begin(Depot depot, List<String> words) throws Exception {
        depot.serve(words);
        depot.clock.scheduleAtFixedRate(words.contains("polls") ? depot.bay::poll
            : () -> System.out.println(depot.bay.size()), 1, 1, TimeUnit.HOURS);
        if (words.contains("orders")) {
            depot.take(words.contains("again"));
        } else if (words.contains("pool")) {
            depot.pool.execute(depot::ship);
        } else {
            new Thread(depot::ship, "shipper").start();
        }
        if (words.contains("behind")) {
            depot.pool.execute(depot.bay::poll);
        }
    }
    public static void main(String[] words) throws Exception {
        begin(new Depot(), List.of(words));
    }
}

class DepotOpen extends Depot {
    @Override void tell(HttpExchange asked) throws IOException {
        bay.poll();
        super.tell(asked);
    }

    public static void main(String[] words) throws Exception {
        begin(new DepotOpen(), List.of(words));
    }
}

/** Makes threads for a pool, by a method that others may have of their own. */
class Hirer {
    Thread hire(Runnable work) {
        return new Thread(work, "hired");
    }

    ThreadFactory factory() {
        return this::hire;
    }
}

/** Who hires a thread for the server's pool takes a box out. */
class DepotHires extends Depot {
    class Taker extends Hirer {
        @Override Thread hire(Runnable work) {
            bay.poll();
            return super.hire(work);
        }
    }

    public static void main(String[] words) throws Exception {
        DepotHires its = new DepotHires();
        its.pool.setThreadFactory(its.new Taker().factory());
        begin(its, List.of(words));
    }
}

/** A clerk waits until what a clock does again and again fails, which stands in the queue of the clerk's pool too. */
class DepotTwice {
    static int halve(AtomicInteger left) {
        return 100 / left.getAndDecrement();
    }

    public static void main(String[] words) {
        ScheduledExecutorService clock = Executors.newScheduledThreadPool(1, it -> new Thread(it, "clock"));
        ThreadPoolExecutor desk = new ThreadPoolExecutor(1, 1, 0, TimeUnit.SECONDS, new LinkedBlockingQueue<>(),
            it -> new Thread(it, "clerk"));
        AtomicInteger left = new AtomicInteger(1);
        desk.execute(() -> {
            try {
                ScheduledFuture<?> part = clock.scheduleAtFixedRate(() -> halve(left), 1, 1, TimeUnit.HOURS);
                desk.execute((Runnable) part);
                part.get();
            } catch (Exception e) {
                System.out.println(e);
            }
        });
    }
}
