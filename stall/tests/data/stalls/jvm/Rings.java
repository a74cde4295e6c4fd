import java.util.*;
import java.util.concurrent.*;
import java.util.concurrent.locks.*;

/** Two threads that go on once one of them is told to, by one who comes to them in a way that a heap dump hardly shows,
 *  by a word; and "stuck", in which nobody does. The states in ring_* were recorded from it by `take-jvm --heap`. */
class Rings {
    interface Work { void run() throws Exception; }

    static Thread made(ThreadGroup group, String name, Work work) {
        return new Thread(group, () -> { try { work.run(); } catch (Exception e) { System.out.println(e); } }, name);
    }

    static Thread start(String name, Work work) { Thread it = made(null, name, work); it.start(); return it; }

    static void rest() throws Exception { Thread.sleep(3_600_000); }

    static void hand(CountDownLatch mine, CountDownLatch other) throws Exception { mine.await(); other.countDown(); }

    /** Starts two threads, each of which waits for the other, and returns what lets the first go on. */
    static CountDownLatch ring(ThreadGroup group) {
        CountDownLatch first = new CountDownLatch(1), second = new CountDownLatch(1);
        made(group, "one", () -> hand(first, second)).start();
        made(group, "two", () -> hand(second, first)).start();
        return first;
    }

    // One joins another one first, or waits with a limit.
    static void join(CountDownLatch first) throws Exception {
        Thread loader = start("loader", Rings::rest);
        start("foreman", () -> { loader.join(); first.countDown(); });
    }

    static void waitForTime(CountDownLatch first) throws Exception {
        Object own = new Object();
        synchronized (own) { TimeUnit.HOURS.timedWait(own, 1); }
        first.countDown();
    }

    // One interrupts all threads of a group.
    static void group() throws Exception {
        ThreadGroup group = new ThreadGroup("job");
        ring(group);
        start("clock", () -> { rest(); group.interrupt(); });
    }

    // Whoever knows the number of an order comes to the lock of it.
    static void order(int number, String[] turn, String mine) throws Exception {
        String lock = ("order-" + number).intern();
        synchronized (lock) {
            while (!turn[0].equals(mine)) lock.wait();
            turn[0] = "next";
            lock.notifyAll();
        }
    }

    static void orders() {
        String[] turn = {"none"};
        start("one", () -> order(4711, turn, "pack"));
        start("two", () -> order(4711, turn, "next"));
        start("bank", () -> { rest(); turn[0] = "pack"; order(4711, new String[] {"bank"}, "bank"); });
    }

    // One calls a method of a class that isn't initialised yet, with what it has nowhere else.
    static class Report {
        static { try { rest(); } catch (Exception e) { throw new Error(e); } }

        static void open() { }
        static void send(CountDownLatch first) { first.countDown(); }
    }

    static Queue<CountDownLatch> box() { return new ArrayDeque<>(List.of(ring(null))); }

    static void report(Queue<CountDownLatch> box) { Report.send(box.poll()); }

    // One that was signalled at a condition of its own waits until the other one gives the lock back.
    static class Calls {
        final ReentrantLock lock = new ReentrantLock();
        final Map<Integer, Condition> waiting = new HashMap<>();
        boolean isAnswered;

        void call(CountDownLatch first) throws Exception {
            lock.lock();
            try {
                Condition mine = lock.newCondition();
                waiting.put(7, mine);
                while (!isAnswered) mine.await();
                first.countDown();
            } finally { lock.unlock(); }
        }

        void answer() throws Exception {
            Thread.sleep(1000);
            lock.lock();
            try {
                isAnswered = true;
                waiting.remove(7).signal();
                rest();
            } finally { lock.unlock(); }
        }
    }

    static void call(CountDownLatch first) {
        Calls calls = new Calls();
        start("client", () -> calls.call(first));
        start("answerer", calls::answer);
    }

    // Two services send to each other what their full queues don't take.
    static void serve(BlockingQueue<String> from, BlockingQueue<String> to) throws Exception {
        for (;;) {
            String it = from.take();
            to.put(it);
            to.put(it);
        }
    }

    static void stuck() throws Exception {
        BlockingQueue<String> orders = new ArrayBlockingQueue<>(2), stocks = new ArrayBlockingQueue<>(2);
        orders.put("one");
        stocks.put("two");
        start("heartbeat", Rings::rest);
        Thread order = start("order", () -> serve(orders, stocks)), stock = start("stock", () -> serve(stocks, orders));
        order.join();
        stock.join();
    }

    public static void main(String[] words) throws Exception {
        switch (words[0]) {
            case "join": join(ring(null)); break;
            case "timed": CountDownLatch first = ring(null); start("clock", () -> waitForTime(first)); break;
            case "group": group(); break;
            case "named": orders(); break;
            case "class": Queue<CountDownLatch> box = box(); start("reporter", () -> report(box)); break;
            case "class_of_another":
                Queue<CountDownLatch> its = box();
                start("opener", Report::open);
                Thread.sleep(500);
                start("reporter", () -> report(its));
                break;
            case "signalled": call(ring(null)); break;
            default: stuck();
        }
    }
}
