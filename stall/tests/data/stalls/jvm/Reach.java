import java.util.*;
import java.util.concurrent.*;
import java.util.concurrent.atomic.AtomicInteger;

/** Waits of which a heap dump shows who may end them, by a word; the states in reach_* were recorded from it by
 *  `take-jvm --heap`, those in offers* by `take-jvm`. Main ends. */
class Reach {
    /** A log, whose writer logs itself once the queue is full, which it alone empties. */
    static class Log {
        static Log last;
        final BlockingQueue<Object> queue = new ArrayBlockingQueue<>(4);

        void put(Object line) throws Exception { queue.put(line); }

        void write() throws Exception {
            Thread.sleep(1000);
            for (int line = 0; ; line++) {
                queue.take();
                Thread.sleep(5);
                if (line == 6) { while (queue.remainingCapacity() > 0) Thread.sleep(5); put("a line of the log's own"); }
            }
        }

        void fill() throws Exception { for (;;) { put("a line"); Thread.sleep(20); } }
    }

    /** One that empties logs after an hour. */
    static class Keeper implements Work {
        final Map<String, Log> logs = new HashMap<>();
        public void run() throws Exception { rest(); for (Log log : logs.values()) log.queue.clear(); }
    }

    /** One that starts threads, or interrupts them, after an hour. */
    static class Guard implements Work {
        final List<Thread> threads = new ArrayList<>();
        final boolean starts;
        Guard(boolean starts) { this.starts = starts; }
        public void run() throws Exception {
            rest();
            for (Thread it : threads) if (starts) it.start(); else it.interrupt();
        }
    }

    /** One that cancels tasks after an hour. */
    static class Janitor implements Work {
        final Map<String, Future<?>> open = new HashMap<>();
        public void run() throws Exception { rest(); for (Future<?> it : open.values()) it.cancel(true); }
    }

    /** One that gives a pool something to do after an hour. */
    static class Client implements Work {
        final Executor pool;
        Client(Executor pool) { this.pool = pool; }
        public void run() throws Exception { rest(); pool.execute(() -> { }); }
    }

    interface Work { void run() throws Exception; }

    static Thread made(String name, Work work) {
        return new Thread(() -> { try { work.run(); } catch (Exception e) { throw new RuntimeException(e); } }, name);
    }

    static Thread start(String name, Work work) { Thread it = made(name, work); it.start(); return it; }

    static void rest() throws Exception { Thread.sleep(3_600_000); }

    static ExecutorService pool(String name, int size) {
        AtomicInteger number = new AtomicInteger();
        return Executors.newFixedThreadPool(size, it -> new Thread(it, name + "-" + number.incrementAndGet()));
    }

    static List<Thread> startLog(Log log) throws Exception {
        List<Thread> found = new ArrayList<>();
        found.add(start("writer", log::write));
        found.add(start("clerk-a", log::fill));
        found.add(start("clerk-b", log::fill));
        return found;
    }

    // One holds a desk and waits for a task that wants the desk.
    static void ask(Object desk, Future<?> task) throws Exception { synchronized (desk) { Thread.sleep(500); task.get(); } }

    static void want(Object desk) { try { Thread.sleep(200); } catch (Exception e) { } synchronized (desk) { } }

    // One holds a desk and waits for the end of a pool whose thread wants the desk.
    static void stop(Object desk, ExecutorService pool, long seconds) throws Exception {
        synchronized (desk) {
            Thread.sleep(500);
            pool.shutdown();
            pool.awaitTermination(seconds, TimeUnit.SECONDS);
            pool.shutdownNow();
        }
    }

    final CountDownLatch stopped = new CountDownLatch(1), opened = new CountDownLatch(1);

    void open() throws Exception {
        start("opener", opened::await);
        Runtime.getRuntime().addShutdownHook(new Thread(stopped::countDown, "on-signal"));
        Runtime.getRuntime().addShutdownHook(new Thread(() -> opened.countDown(), "on-signal-too"));
        stopped.await();
    }

    // One offers with a limit to the queue that is full, or to another one.
    static void trace(Log log, Log other, boolean takes) throws Exception {
        for (;;) {
            Thread.sleep(1500);
            if (!other.queue.offer("a trace", 60, TimeUnit.SECONDS) && takes) log.queue.poll();
        }
    }

    public static void main(String[] words) throws Exception {
        Log log = new Log();
        if (!words[0].startsWith("offers")) start("clock", Reach::rest);
        switch (words[0]) {
            case "log": startLog(log); break;
            case "log-keeper":
                Keeper keeper = new Keeper();
                keeper.logs.put("gate", log);
                start("keeper", keeper);
                startLog(log);
                break;
            case "log-static": Log.last = log; startLog(log); break;
            case "log-interrupted": case "log-starter":
                Guard guard = new Guard(words[0].equals("log-starter"));
                start("guard", guard);
                List<Thread> threads = startLog(log);
                guard.threads.add(guard.starts ? made("late", () -> log.queue.clear()) : threads.get(1));
                break;
            case "log-pool": case "log-pool-client":
                ExecutorService mailers = Executors.newFixedThreadPool(1, it -> {
                    if (log.queue.remainingCapacity() < 0) System.out.println("a log of the pool's own");
                    return new Thread(it, "mailer-1");
                });
                mailers.execute(() -> { });
                start("clerk-c", () -> { log.fill(); mailers.execute(() -> { }); });
                if (words[0].equals("log-pool-client")) start("client", new Client(mailers));
                startLog(log);
                break;
            case "task": case "task-janitor":
                Object desk = new Object();
                Janitor janitor = new Janitor();
                Future<?> task = pool("worker", 1).submit(() -> want(desk));
                start("asker", () -> ask(desk, task));
                if (words[0].equals("task-janitor")) { janitor.open.put("desk", task); start("janitor", janitor); }
                break;
            case "end": case "end-alive":
                Object table = new Object();
                ExecutorService workers = pool("worker", 1);
                workers.execute(() -> want(table));
                start("stopper", () -> stop(table, workers, words[0].equals("end") ? Long.MAX_VALUE : 60));
                break;
            case "hook": new Reach().open(); break;
            case "offers": case "offers-alive":
                Log other = new Log();
                for (int line = 0; line < 4; line++) other.put("full");
                startLog(log);
                start("tracer", () -> trace(log, words[0].equals("offers") ? log : other, !words[0].equals("offers")));
                break;
            case "log-class":
                start("keeper", () -> { rest(); Logs.ALL.get(Reach.class).queue.clear(); });
                startLog(Logs.ALL.get(Reach.class));
                break;
            case "log-once": case "log-again":
                ScheduledExecutorService later = Executors.newScheduledThreadPool(1, it -> new Thread(it, "later"));
                if (words[0].equals("log-once")) later.schedule(() -> log.queue.clear(), 1, TimeUnit.HOURS);
                else later.scheduleAtFixedRate(() -> System.out.println(log.queue.size()), 1, 1, TimeUnit.HOURS);
                startLog(log);
                break;
        }
    }

    /** What the JVM keeps for a class, where no heap dump shows it. */
    static class Logs extends ClassValue<Log> {
        static final Logs ALL = new Logs();
        protected Log computeValue(Class<?> kind) { return new Log(); }
    }
}
