import java.net.ServerSocket;
import java.util.concurrent.ArrayBlockingQueue;
import java.util.concurrent.BlockingQueue;
import java.util.concurrent.CountDownLatch;
import java.util.concurrent.Executors;
import java.util.concurrent.TimeUnit;

/**
 * A gate of a stadium with an asynchronous log, as LOG4J2-1518 had it: the message is formatted by the writer of the
 * log, and the toString() of what it formats logs too, into the queue that only the writer empties.
 * `stuck`: the queue is full by then. `healthy`: the writer waits for a slow disk.
 */
public class Gate {
    /** The log: any thread puts events into the queue, one thread writes them. */
    static class Log {
        final BlockingQueue<Event> queue = new ArrayBlockingQueue<>(16);
        final boolean slowDisk;

        Log(boolean slowDisk) {
            this.slowDisk = slowDisk;
        }

        void info(String text, Object detail) throws InterruptedException {
            queue.put(new Event(text, detail, null));
        }

        /** An event that may be lost: nobody waits longer than this for it. */
        boolean trace(String text) throws InterruptedException {
            return queue.offer(new Event(text, "", null), 30, TimeUnit.SECONDS);
        }

        /** Returns once all is written that was logged before. */
        void flush() throws InterruptedException {
            CountDownLatch written = new CountDownLatch(1);
            queue.put(new Event("flush", "", written));
            written.await();
        }

        void write() throws InterruptedException {
            Thread.sleep(1500);
            for (long lines = 0; ; lines++) {
                Event event = queue.take();
                append(event, lines);
                if (event.written != null) {
                    event.written.countDown();
                }
            }
        }

        void append(Event event, long lines) throws InterruptedException {
            Thread.sleep(slowDisk && lines == 2 ? 45_000 : 5);
            String line = event.text + event.detail;
            if (line.isEmpty()) {
                System.out.println("an empty line");
            }
        }
    }

    static class Event {
        final String text;
        final Object detail;
        final CountDownLatch written;

        Event(String text, Object detail, CountDownLatch written) {
            this.text = text;
            this.detail = detail;
            this.written = written;
        }
    }

    /** A ticket looks up its seat when somebody wants to see it. */
    class Ticket {
        final int number;

        Ticket(int number) {
            this.number = number;
        }

        @Override
        public String toString() {
            if (number == 3 && !healthy) {
                try {
                    log.info("seat looked up late: ", number);
                } catch (InterruptedException error) {
                    Thread.currentThread().interrupt();
                }
            }
            return "ticket " + number;
        }
    }

    final boolean healthy;
    final Log log;

    Gate(boolean healthy) {
        this.healthy = healthy;
        this.log = new Log(healthy);
    }

    void turn(int first) throws InterruptedException {
        for (int number = first; number < first + 200; number++) {
            log.info("turned: ", new Ticket(number));
            Thread.sleep(20);
        }
    }

    interface Work {
        void run() throws Exception;
    }

    static void start(String name, boolean daemon, Work work) {
        Thread thread = new Thread(() -> {
            try {
                work.run();
            } catch (Exception error) {
                error.printStackTrace();
            }
        }, name);
        thread.setDaemon(daemon);
        thread.start();
    }

    void open(int port) throws Exception {
        start("log-writer", true, log::write);
        start("turnstile-a", false, () -> turn(1));
        Thread.sleep(100);
        start("turnstile-b", false, () -> turn(1001));
        start("turnstile-c", false, () -> turn(2001));
        start("tracer", false, () -> {
            for (;;) {
                Thread.sleep(2000);
                log.trace("alive");
            }
        });
        Executors.newScheduledThreadPool(1, task -> new Thread(task, "light"))
            .scheduleAtFixedRate(() -> System.out.println("green"), 1, 10, TimeUnit.SECONDS);
        start("console", false, () -> {
            try (ServerSocket door = new ServerSocket(port)) {
                door.accept();
            }
        });
        Thread.sleep(2500);
        log.flush();
        System.out.println("opened");
    }

    public static void main(String[] words) throws Exception {
        new Gate(words[0].equals("healthy")).open(Integer.parseInt(words[1]));
    }
}
