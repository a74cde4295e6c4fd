import java.util.List;
import java.util.concurrent.ArrayBlockingQueue;
import java.util.concurrent.BlockingQueue;
import java.util.concurrent.CountDownLatch;
import java.util.concurrent.LinkedBlockingQueue;
import java.util.concurrent.TimeUnit;
import java.util.concurrent.locks.Condition;
import java.util.concurrent.locks.ReentrantLock;

/** A press whose printer waits for room in its tray. Whoever would take something out of it waits for the printer, or has
    a limit: by its code it takes from another queue, or from the tray by another way. */
public class Presses {
    static class Desk {
        final BlockingQueue<String> mail = new LinkedBlockingQueue<>();
        final CountDownLatch closed = new CountDownLatch(1);
    }

    static class Press extends Desk implements Cloneable {
        final BlockingQueue<String> tray = new ArrayBlockingQueue<>(1);
        final ReentrantLock lock = new ReentrantLock();
        final Condition dry = lock.newCondition();
        final Condition inked = lock.newCondition();

        void print() throws Exception {
            for (int page = 0; ; page++) {
                tray.put("page " + page);
            }
        }

        void dry() throws Exception {
            lock.lock();
            try {
                dry.await();
            } finally {
                lock.unlock();
            }
        }

        Press copy() {
            try {
                return (Press) clone();
            } catch (CloneNotSupportedException error) {
                throw new IllegalStateException(error);
            }
        }
    }

    static class Shipper {
        final BlockingQueue<String> from;
        final List<BlockingQueue<String>> all;

        Shipper(BlockingQueue<String> from) {
            this.from = from;
            this.all = List.of(from);
        }

        void ship() throws Exception {
            for (;;) {
                Thread.sleep(3_600_000);
                from.poll();
            }
        }

        void shipAll() throws Exception {
            for (;;) {
                Thread.sleep(3_600_000);
                all.get(0).poll();
            }
        }
    }

    /** Takes from the tray of a press that is gone, and whose tray another one has got. */
    static class Heir implements Work {
        private Press press;

        Heir(Press press) {
            this.press = press;
        }

        @Override
        public void run() throws Exception {
            BlockingQueue<String> tray = press.tray;
            press = null;
            for (;;) {
                Thread.sleep(3_600_000);
                tray.poll();
            }
        }
    }

    static class OldPrinter implements Work {
        final BlockingQueue<String> tray;

        OldPrinter(BlockingQueue<String> tray) {
            this.tray = tray;
        }

        @Override
        public void run() throws Exception {
            for (int page = 0; ; page++) {
                tray.put("page " + page);
            }
        }
    }

    static void readMail(Press press) throws Exception {
        for (;;) {
            Thread.sleep(3_600_000);
            press.mail.poll();
        }
    }

    static void ink(Press press) throws Exception {
        for (;;) {
            Thread.sleep(3_600_000);
            press.lock.lock();
            press.inked.signal();
            press.lock.unlock();
        }
    }

    static void dryAll(Press press) throws Exception {
        for (;;) {
            Thread.sleep(3_600_000);
            press.lock.lock();
            press.dry.signalAll();
            press.lock.unlock();
        }
    }

    static void empty(Press press) throws Exception {
        for (;;) {
            Thread.sleep(3_600_000);
            Press other = press.copy();
            other.tray.poll();
        }
    }

    /** Takes from the tray of a press that is gone, which another one has got. */
    static void clear(BlockingQueue<String> tray) throws Exception {
        for (;;) {
            Thread.sleep(3_600_000);
            tray.poll();
        }
    }

    static void inherit(Press press) throws Exception {
        for (;;) {
            Thread.sleep(3_600_000);
            BlockingQueue<String> tray = press.tray;
            tray.poll();
        }
    }

    interface Work {
        void run() throws Exception;
    }

    static Thread start(String name, Work work) {
        Thread thread = new Thread(() -> {
            try {
                work.run();
            } catch (Exception error) {
                error.printStackTrace();
            }
        }, name);
        thread.start();
        return thread;
    }

    public static void main(String[] words) throws Exception {
        Press press = new Press();
        Thread printer = words[0].equals("gone") ? start("printer", new OldPrinter(press.tray))
            : start("printer", press::print);
        if (words[0].equals("gone")) {
            start("shipper", new Heir(press));
            press = null;
            printer.join();
        }
        open(press, words[0], printer);
    }

    static void open(Press press, String word, Thread printer) throws Exception {
        start("dryer", press::dry);
        start("reader", () -> readMail(press));
        switch (word) {
            case "stuck" -> start("inker", () -> ink(press));
            case "injected" -> { Shipper one = new Shipper(press.tray); start("shipper", one::ship); }
            case "listed" -> { Shipper one = new Shipper(press.tray); start("shipper", one::shipAll); }
            case "cloned" -> start("shipper", () -> empty(press));
            case "handed" -> { BlockingQueue<String> tray = press.tray; start("shipper", () -> clear(tray)); }
            case "local" -> start("shipper", () -> inherit(press));
            case "dried" -> start("inker", () -> dryAll(press));
            default -> throw new IllegalArgumentException(word);
        }
        printer.join();
    }
}
