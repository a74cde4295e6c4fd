import java.util.concurrent.CountDownLatch;
import java.util.concurrent.ExecutionException;
import java.util.concurrent.Executors;
import java.util.concurrent.ScheduledExecutorService;
import java.util.concurrent.ScheduledFuture;
import java.util.concurrent.Semaphore;
import java.util.concurrent.TimeUnit;

/**
 * Potters need a rack of a kiln, and a packer waits for their pots. A gauge comes to all of them, and looks once an
 * hour. Its argument has the words of what differs:
 *
 *   lost    the first potter drops its pot, and ends without giving back the rack
 *   frees   the gauge gives a rack back if it looks and none is free
 *   pool    the gauge is a task of a pool that has a thread of its own
 *   asked   somebody waits for the end of that task
 */
public class Kiln {
    private final Semaphore racks = new Semaphore(1);
    private final CountDownLatch pots = new CountDownLatch(3);
    private final boolean frees;

    Kiln(boolean frees) { this.frees = frees; }

    void fire(long seconds) {
        try {
            racks.acquire();
            if (seconds < 0) {
                throw new IllegalStateException("the pot is dropped");
            }
            TimeUnit.SECONDS.sleep(seconds);
            racks.release();
            pots.countDown();
        } catch (InterruptedException e) {
            Thread.currentThread().interrupt();
        }
    }

    void pack() {
        try {
            pots.await();
        } catch (InterruptedException e) {
            Thread.currentThread().interrupt();
        }
    }

    void look() {
        System.out.println("free racks: " + racks.availablePermits() + ", pots to come: " + pots.getCount());
    }

    void watch() {
        try {
            while (true) {
                look();
                TimeUnit.HOURS.sleep(1);
            }
        } catch (InterruptedException e) {
            Thread.currentThread().interrupt();
        }
    }

    void help() {
        look();
        if (racks.availablePermits() == 0 && frees) {
            racks.release();
        }
    }

    void watchAndHelp() {
        try {
            while (true) {
                TimeUnit.HOURS.sleep(1);
                help();
            }
        } catch (InterruptedException e) {
            Thread.currentThread().interrupt();
        }
    }

    void ask(ScheduledFuture<?> looks) {
        try {
            looks.get();
        } catch (InterruptedException | ExecutionException e) {
            racks.release();
        }
    }

    /** What the pool does: it looks, or also helps. */
    record Task(Kiln kiln) implements Runnable {
        public void run() { kiln.look(); }
    }

    record Helper(Kiln kiln) implements Runnable {
        public void run() { kiln.help(); }
    }

    static void start(String name, Runnable work) { new Thread(work, name).start(); }

    public static void main(String[] args) throws InterruptedException {
        boolean frees = args[0].contains("frees");
        Kiln kiln = new Kiln(frees);
        if (args[0].contains("pool")) {
            ScheduledExecutorService pool = Executors.newScheduledThreadPool(1, work -> new Thread(work, "gauge"));
            Runnable work = frees ? new Helper(kiln) : new Task(kiln);
            ScheduledFuture<?> looks = pool.scheduleAtFixedRate(work, 1, 1, TimeUnit.HOURS);
            if (args[0].contains("asked")) {
                start("asker", () -> kiln.ask(looks));
            }
        } else {
            Runnable work = frees ? kiln::watchAndHelp : kiln::watch;
            start("gauge", work);
        }
        start("potter-0", () -> kiln.fire(args[0].contains("lost") ? -1 : 3600));
        Thread.sleep(500);
        start("potter-1", () -> kiln.fire(1));
        start("potter-2", () -> kiln.fire(1));
        start("packer", kiln::pack);
    }
}
