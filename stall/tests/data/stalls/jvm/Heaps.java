import java.util.Map;
import java.util.concurrent.*;
import java.util.concurrent.locks.*;

/** Waits that a heap dump shows, by a word; the states in heap_* were recorded from it by `take-jvm --heap`. */
class Heaps {
    static final ReentrantReadWriteLock CACHE = new ReentrantReadWriteLock();
    static final Object DESK = new Object();
    static final CountDownLatch HELD = new CountDownLatch(1), READ = new CountDownLatch(2);
    static final CyclicBarrier BOTH = new CyclicBarrier(2);
    static final Map<String, Future<Integer>> OPEN = new ConcurrentHashMap<>();
    static final BlockingQueue<CompletableFuture<Integer>> LATE = new LinkedBlockingQueue<>();

    interface Work { void run() throws Exception; }

    static Thread start(String name, Work work) {
        Thread it = new Thread(() -> { try { work.run(); } catch (Exception e) { throw new RuntimeException(e); } },
            name);
        it.start();
        return it;
    }

    static void rest() throws Exception { Thread.sleep(Integer.getInteger("rests", 3_600_000)); }

    static void pause(int millis) { try { Thread.sleep(millis); } catch (InterruptedException e) { } }

    static int sum(boolean stuck) throws Exception {
        HELD.await();
        if (stuck) synchronized (DESK) { return 1; }
        rest();
        return 1;
    }

    // One holds a desk and waits for a task, which may want the desk.
    static void ask(Future<Integer> task) throws Exception { synchronized (DESK) { HELD.countDown(); task.get(); } }

    static void watch(Future<Integer> task) throws Exception {
        try { task.get(1, TimeUnit.HOURS); } catch (TimeoutException e) { task.cancel(true); }
    }

    static void price(CompletableFuture<Integer> price) throws Exception {
        synchronized (DESK) { HELD.countDown(); price.thenApply(it -> it + 1).join(); }
    }

    // One that runs in a pool waits for a task that the same pool is to run.
    static int nest(ExecutorService pool) throws Exception { BOTH.await(); return pool.submit(() -> 1).get(); }

    static void read(Work then) throws Exception {
        CACHE.readLock().lock();
        READ.countDown();
        then.run();
        CACHE.readLock().unlock();
    }

    static void want() { synchronized (DESK) { } }

    static void writeAtDesk() throws Exception { synchronized (DESK) { HELD.countDown(); READ.await(); write(); } }

    static void write() { CACHE.writeLock().lock(); CACHE.writeLock().unlock(); }

    static void tell(BlockingQueue<String> answers) throws Exception { write(); answers.put("written"); }

    static void join(Thread child) throws Exception { synchronized (DESK) { HELD.countDown(); child.join(); } }

    static void leave(BlockingQueue<String> answers) throws Exception {
        read(() -> Thread.sleep(Integer.getInteger("leaves", 4_000)));
        answers.take();
    }

    static void upgrade() throws Exception { read(() -> { READ.await(); write(); }); }

    public static void main(String[] words) throws Exception {
        int[] threads = {0};
        ExecutorService pool = Executors.newFixedThreadPool(2, it -> new Thread(it, "worker-" + ++threads[0]));
        BlockingQueue<String> answers = new LinkedBlockingQueue<>();
        boolean stuck = !words[0].endsWith("-alive"), alone = words[0].endsWith("-alone");
        switch (words[0].replaceAll("-(alive|alone)", "")) {
            case "watched": case "task":
                Future<Integer> task = pool.submit(() -> sum(stuck));
                start("asker", () -> ask(task));
                if (words[0].startsWith("watched")) start("watcher", () -> watch(task));
                if (alone) pool.submit(() -> 1);
                break;
            case "janitor":
                Future<Integer> figures = pool.submit(() -> sum(stuck));
                OPEN.put("figures", figures);
                start("asker", () -> ask(figures));
                start("janitor", Heaps::sweep);
                break;
            case "future": case "fallback":
                CompletableFuture<Integer> price = CompletableFuture.supplyAsync(() -> {
                    try { return sum(stuck); } catch (Exception e) { return 0; }
                }, pool);
                start("asker", () -> price(price));
                if (words[0].equals("fallback")) { LATE.add(price); start("fallback", Heaps::fallBack); }
                break;
            case "queued": case "tuner":
                pool.submit(() -> nest(pool));
                if (stuck) pool.submit(() -> nest(pool)); else pool.submit(() -> { BOTH.await(); rest(); return 1; });
                if (words[0].equals("tuner")) start("tuner", () -> grow((ThreadPoolExecutor) pool));
                break;
            case "readers":
                Thread writer = new Thread(Heaps::write, "writer");
                start("reader-1", () -> read(() -> { HELD.await(); if (stuck) writer.join(); else rest(); }));
                start("reader-2", () -> read(() -> { HELD.await(); if (alone) writer.join(); else rest(); }));
                READ.await();
                writer.start();
                HELD.countDown();
                break;
            case "desk":
                start("writer", Heaps::writeAtDesk);
                start("reader-1", () -> read(() -> { HELD.await(); if (stuck) want(); else rest(); }));
                start("reader-2", () -> read(Heaps::rest));
                break;
            case "behind":
                start("browser", () -> read(() -> { pause(900); want(); }));
                start("cart", Heaps::readAtDesk);
                pause(200);
                start("refresh", stuck ? Heaps::write : Heaps::tryToWrite);
                pause(500);
                if (!alone) start("import", stuck ? Heaps::tryToWrite : Heaps::write);
                break;
            case "left":
                start("reader-1", () -> leave(answers));
                start("reader-2", () -> read(Heaps::rest));
                READ.await();
                start("writer", () -> tell(answers));
                break;
            case "upgraders": start("reader-1", Heaps::upgrade); start("reader-2", Heaps::upgrade); break;
            case "upgrader": start("reader-1", Heaps::upgrade); start("reader-2", () -> read(Heaps::rest)); break;
            case "join":
                Thread child = start("child", () -> sum(stuck));
                start("parent", () -> join(child));
                break;
            case "bounded":
                ExecutorService other = new ThreadPoolExecutor(2, 3, 1, TimeUnit.HOURS, new LinkedBlockingQueue<>(9),
                    it -> new Thread(it, "worker-" + ++threads[0]));
                other.submit(() -> nest(other));
                other.submit(() -> nest(other));
                break;
            case "stopped":
                Future<Integer> sum = pool.submit(() -> sum(stuck));
                start("asker", () -> ask(sum));
                start("stopper", Heaps::stop);
                break;
            case "offered":
                CompletableFuture<Integer> offer = CompletableFuture.supplyAsync(() -> {
                    try { return sum(stuck); } catch (Exception e) { return 0; }
                }, pool);
                start("asker", () -> price(offer));
                start("helper", () -> offer(offer));
                break;
        }
        if (!alone && !words[0].matches("janitor|fallback|tuner")) rest();
    }

    // One that reads comes after one that writes, and holds a desk meanwhile.
    static void readAtDesk() throws Exception { synchronized (DESK) { pause(400); read(() -> { }); } }

    static void tryToWrite() throws Exception {
        if (CACHE.writeLock().tryLock(1, TimeUnit.HOURS)) CACHE.writeLock().unlock();
    }

    // Those who end waits of others after an hour, and have nothing of these in their frames until then.
    static void sweep() throws Exception { rest(); for (Future<Integer> it : OPEN.values()) it.cancel(true); }

    static void fallBack() throws Exception { rest(); for (CompletableFuture<Integer> it : LATE) it.complete(0); }

    static void grow(ThreadPoolExecutor pool) throws Exception {
        rest();
        pool.setMaximumPoolSize(3);
        pool.setCorePoolSize(3);
    }

    // One cancels a task, and does more once that is done.
    static void stop() {
        new FutureTask<>(() -> 1) {
            protected void done() { try { rest(); } catch (Exception e) { } }
        }.cancel(true);
    }

    static void offer(CompletableFuture<Integer> price) throws Exception { rest(); price.complete(0); }
}
