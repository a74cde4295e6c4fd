import java.util.ArrayList;
import java.util.List;
import java.util.concurrent.ArrayBlockingQueue;
import java.util.concurrent.BlockingQueue;
import java.util.concurrent.CountDownLatch;
import java.util.concurrent.Executors;
import java.util.concurrent.LinkedBlockingQueue;
import java.util.concurrent.ScheduledExecutorService;
import java.util.concurrent.Semaphore;
import java.util.concurrent.TimeUnit;
import java.util.concurrent.atomic.AtomicLong;

/** A kiosk whose parts stand in static fields, so that each of its threads comes to all of them. With `closes` one will
    give the counters back, with `idle` nobody has called yet. */
public class Kiosk {
    static final Semaphore COUNTERS = new Semaphore(2);
    static final BlockingQueue<String> ORDERS = new ArrayBlockingQueue<>(2);
    static final CountDownLatch OPENED = new CountDownLatch(1);
    static final Object TILL = new Object();
    static final AtomicLong SERVED = new AtomicLong();
    static final List<String> LOG = new ArrayList<>();
    static boolean paid;

    /** Has the counters while it waits for room, which the cook makes once he has a counter. */
    static void order() throws Exception {
        COUNTERS.acquire(2);
        try {
            for (int number = 0; number < 10; number++) {
                ORDERS.put("order " + number);
            }
        } finally {
            COUNTERS.release(2);
        }
    }

    static void cook() throws Exception {
        Thread.sleep(200);
        COUNTERS.acquire();
        ORDERS.take();
        SERVED.incrementAndGet();
    }

    static void pay() throws Exception {
        synchronized (TILL) {
            while (!paid) {
                TILL.wait();
            }
        }
    }

    static void open() throws Exception {
        ORDERS.put("first");
        Thread.sleep(300);
        ORDERS.put("second");
        OPENED.countDown();
    }

    static void welcome() throws Exception {
        OPENED.await();
    }

    static void close(long millis) throws Exception {
        Thread.sleep(millis);
        COUNTERS.release(2);
    }

    static void count() throws Exception {
        for (;;) {
            Thread.sleep(500);
            System.out.println("served " + SERVED.get() + ", " + ORDERS.size() + " left");
        }
    }

    static final CountDownLatch CLOSED = new CountDownLatch(1);
    static final BlockingQueue<String> CALLS = new LinkedBlockingQueue<>();
    static final BlockingQueue<String> MAIL = new LinkedBlockingQueue<>();

    /** Waits for calls, none of which come, and would hand them on. */
    static void answer() throws Exception {
        for (;;) {
            MAIL.put(CALLS.take());
        }
    }

    static void read() throws Exception {
        for (;;) {
            LOG.add(MAIL.take());
        }
    }

    interface Work {
        void run() throws Exception;
    }

    static Thread start(String name, Work work) {
        Thread thread = new Thread(() -> {
            try {
                work.run();
            } catch (Exception error) {
                error.printStackTrace();
            }
        }, name);
        thread.start();
        return thread;
    }

    public static void main(String[] words) throws Exception {
        if (words[0].equals("idle")) {
            start("answer", Kiosk::answer);
            start("read", Kiosk::read);
            start("counter", Kiosk::count);
            CLOSED.await();
        }
        start("order", Kiosk::order);
        start("cook", Kiosk::cook);
        start("pay", Kiosk::pay);
        start("welcome", Kiosk::welcome);
        Thread.sleep(100);
        start("opener", Kiosk::open);
        start("counter", Kiosk::count);
        ScheduledExecutorService clock = Executors.newSingleThreadScheduledExecutor(r -> new Thread(r, "clock"));
        clock.scheduleAtFixedRate(() -> System.out.println("tick " + SERVED.get()), 1, 1, TimeUnit.SECONDS);
        switch (words[0]) {
            case "stuck" -> { }
            case "closes" -> start("closer", () -> close(3_600_000));
            default -> throw new IllegalArgumentException(words[0]);
        }
    }
}
