import java.net.ServerSocket;
import java.util.List;
import java.util.Timer;
import java.util.TimerTask;
import java.util.concurrent.ArrayBlockingQueue;
import java.util.concurrent.BlockingQueue;
import java.util.concurrent.CountDownLatch;
import java.util.concurrent.ExecutorService;
import java.util.concurrent.Executors;
import java.util.concurrent.Future;
import java.util.concurrent.LinkedBlockingQueue;
import java.util.concurrent.TimeUnit;
import java.util.concurrent.atomic.AtomicInteger;
import java.util.concurrent.locks.ReentrantLock;

/** A ticket office. With the word `stuck` it stalls, with the word `slow` it only takes long. */
public class Office {
    static final long MINUTE = 60_000;
    final boolean slow;
    final ExecutorService desks = pool("desk", 3);
    final ReentrantLock till = new ReentrantLock();
    final BlockingQueue<String> tray = new ArrayBlockingQueue<>(2);
    final BlockingQueue<String> mail = new LinkedBlockingQueue<>();
    final BlockingQueue<String> calls = new LinkedBlockingQueue<>();
    final CountDownLatch counted = new CountDownLatch(1);
    final Object ledger = new Object();

    Office(boolean slow) {
        this.slow = slow;
    }

    static ExecutorService pool(String name, int size) {
        AtomicInteger number = new AtomicInteger();
        return Executors.newFixedThreadPool(size, task -> new Thread(task, name + "-" + number.incrementAndGet()));
    }

    /** A booking holds a thread of the pool, and waits for two tasks that need one too. */
    int book(String trip) throws Exception {
        Thread.sleep(200);
        Future<Integer> price = desks.submit(() -> look(trip));
        Future<Integer> seat = desks.submit(() -> look(trip));
        return price.get() + seat.get();
    }

    int look(String trip) throws Exception {
        Thread.sleep(slow ? MINUTE : 10);
        return trip.length();
    }

    /** Holds the till while the tray is full. */
    void print() throws Exception {
        till.lock();
        try {
            for (int ticket = 1; ; ticket++) {
                tray.put("ticket " + ticket);
            }
        } finally {
            till.unlock();
        }
    }

    void collect() throws Exception {
        Thread.sleep(100);
        for (;;) {
            if (slow) {
                Thread.sleep(MINUTE);
            } else {
                till.lock();
                till.unlock();
            }
            tray.take();
        }
    }

    /** Has the ledger while it waits for the count, which is written into the ledger. */
    void close() throws Exception {
        synchronized (ledger) {
            counted.await();
        }
    }

    void count() throws Exception {
        Thread.sleep(slow ? MINUTE : 100);
        synchronized (ledger) {
            counted.countDown();
        }
    }

    void audit() throws Exception {
        Thread.sleep(200);
        synchronized (ledger) {
            System.out.println("audited");
        }
    }

    void send() throws Exception {
        for (;;) {
            mail.take();
        }
    }

    void ring() throws Exception {
        while (calls.poll(10, TimeUnit.MINUTES) == null) {
            System.out.println("nobody calls");
        }
    }

    void listen() throws Exception {
        try (ServerSocket door = new ServerSocket(0)) {
            door.accept();
        }
    }

    interface Work {
        void run() throws Exception;
    }

    static Thread start(String name, Work work) {
        Thread thread = new Thread(() -> {
            try {
                work.run();
            } catch (Exception error) {
                error.printStackTrace();
            }
        }, name);
        thread.start();
        return thread;
    }

    void open() throws Exception {
        for (String trip : slow ? List.of("Rome", "Oslo") : List.of("Rome", "Oslo", "Bern")) {
            desks.submit(() -> book(trip));
        }
        Thread printer = start("printer", this::print);
        start("collector", this::collect);
        start("closer", this::close);
        start("counter", this::count);
        start("auditor", this::audit);
        start("mailer", this::send);
        start("phone", this::ring);
        start("door", this::listen);
        pool("archive", 1).submit(() -> "done");
        new Timer("clock").schedule(new TimerTask() {
            @Override
            public void run() {
                mail.add("the time");
            }
        }, MINUTE, MINUTE);
        printer.join();
    }

    public static void main(String[] words) throws Exception {
        new Office(words[0].equals("slow")).open();
    }
}
