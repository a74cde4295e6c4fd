import java.lang.management.ManagementFactory;
import java.net.*;
import java.util.concurrent.*;
import java.util.concurrent.locks.*;

/** Stalls and their healthy twins, each by a word; the states beside this were recorded from it by `jstack -l`. */
class Stalls {
    static final ReentrantReadWriteLock CACHE = new ReentrantReadWriteLock();
    static final Object LEFT = new Object(), RIGHT = new Object();
    static volatile boolean one, two;
    static int turn;

    interface Work { void run() throws Exception; }

    static Thread start(String name, Work work) {
        Thread it = new Thread(() -> { try { work.run(); } catch (Exception e) { throw new RuntimeException(e); } },
            name);
        it.start();
        return it;
    }

    static void rest() throws Exception { Thread.sleep(Integer.getInteger("rests", 3_600_000)); }

    static void pause(int millis) { try { Thread.sleep(millis); } catch (InterruptedException e) { } }

    // Two that have read want to write.
    static void upgrade() {
        CACHE.readLock().lock();
        pause(200);
        CACHE.writeLock().lock();
    }

    static void scan() throws Exception { CACHE.readLock().lock(); rest(); }

    // Two that wait for each other's flag.
    static void first() throws Exception { while (!two) Thread.sleep(50); one = true; rest(); }

    static void second() throws Exception { while (!one) Thread.sleep(50); two = true; rest(); }

    // Two that take turns by flags.
    static void ping() throws Exception { for (;;) { while (turn() != 0) Thread.sleep(50); turn(1); } }

    static void pong() throws Exception { for (;;) { while (turn() != 1) Thread.sleep(50); turn(0); } }

    static synchronized int turn() { return turn; }

    static synchronized void turn(int to) { turn = to; }

    // One that hands on what it takes, and looks for it each second.
    static void pass(BlockingQueue<String> in, BlockingQueue<String> out) throws Exception {
        for (;;) {
            String it = in.poll(1, TimeUnit.SECONDS);
            if (it != null) out.put(it);
        }
    }

    // One that hands on what it takes, and waits for it.
    static void hand(BlockingQueue<String> in, BlockingQueue<String> out) throws Exception {
        for (;;) out.put(in.take());
    }

    // A sale waits for a task of the same pool that has begun, and wants the till.
    static void sell(ExecutorService tills, boolean stuck) throws Exception {
        synchronized (LEFT) {
            Future<?> count = tills.submit(() -> { if (stuck) count(); else rest(); return 1; });
            count.get();
        }
    }

    // Each desk waits for its own till, which may want what the desk holds.
    static void serve(BlockingQueue<String> own, Object held) throws Exception { synchronized (held) { own.take(); } }

    static void give(BlockingQueue<String> desk, Object wanted) throws Exception {
        pause(300);
        synchronized (wanted) { desk.put("change"); }
    }

    static void count() { synchronized (LEFT) { turn++; } }

    static void cross(Object one, Object other) { synchronized (one) { pause(300); synchronized (other) { turn++; } } }

    static void meetEarly(CyclicBarrier here) throws Exception { here.await(); }

    static void meetLate(CyclicBarrier here) throws Exception { here.await(); }

    // (It should count down before it waits.)
    static void follow(CountDownLatch end) throws Exception { end.await(); end.countDown(); }

    static void visit(Gate gate) { gate.acquire(1); }

    // A lock that whoever has the key opens, not only who has shut it.
    static class Gate extends AbstractQueuedSynchronizer {
        protected boolean tryAcquire(int n) {
            if (!compareAndSetState(0, 1)) return false;
            setExclusiveOwnerThread(Thread.currentThread());
            return true;
        }

        protected boolean tryRelease(int n) { setExclusiveOwnerThread(null); setState(0); return true; }
    }

    static class Slow {
        static { pause(300); count(); }

        static void use() { }
    }

    static void use() { Slow.use(); }

    static void useWithin() { synchronized (LEFT) { pause(600); Slow.use(); } }

    // Two classes that need each other, and in versions v1 and v2 of the program one needs the other, which is slow.
    static String version() { return Stalls.class.getClassLoader().getName(); }

    static int begin(String slow) {
        try { if (version().equals(slow)) rest(); else pause(300); } catch (Exception e) { }
        return 1;
    }

    static class BaseTaxes { static final int READY = begin("v1"); }

    static class Taxes extends BaseTaxes { static final int SIZE = version().equals("v1") ? 1 : Prices.SIZE; }

    static class BasePrices { static final int READY = begin("v2"); }

    static class Prices extends BasePrices { static final int SIZE = version().equals("v2") ? 1 : Taxes.SIZE; }

    public static class Bill implements Runnable { public void run() { turn = Taxes.SIZE; } }

    public static class Shop implements Runnable { public void run() { turn = Prices.SIZE; } }

    static void load(ClassLoader of, String part, String name) throws Exception {
        start(name, ((Runnable) of.loadClass("Stalls$" + part).getDeclaredConstructor().newInstance())::run);
        pause(600);
    }

    // Two that take two locks, and can be interrupted at the second one; and one that looks for such ones each hour.
    static void take(Lock one, Lock other) throws Exception {
        one.lock();
        try { pause(300); other.lockInterruptibly(); } finally { one.unlock(); }
    }

    static void watch() throws Exception { rest(); breakUp(); }

    static void breakUp() {
        long[] stuck = ManagementFactory.getThreadMXBean().findDeadlockedThreads();
        for (Thread it : Thread.getAllStackTraces().keySet()) if (it.getId() == stuck[0]) it.interrupt();
    }

    // Its pool ends threads that are idle for long, so they look into the queue with a limit.
    static void schedule() {
        ScheduledThreadPoolExecutor pool = new ScheduledThreadPoolExecutor(1, it -> new Thread(it, "breaker"));
        pool.setKeepAliveTime(1, TimeUnit.HOURS);
        pool.allowCoreThreadTimeOut(true);
        pool.schedule(() -> { breakUp(); return 1; }, Integer.getInteger("rests", 3_600_000), TimeUnit.MILLISECONDS);
    }

    // Orders are compared within the lock of their queue. One who does that wants the till, and the one at the till
    // wants to take an order.
    static int compare(Integer one, Integer other) {
        if (one == 1) synchronized (LEFT) { turn++; }
        return one - other;
    }

    static void order(BlockingQueue<Integer> orders) { pause(300); orders.add(1); }

    static void deliver(BlockingQueue<Integer> of) throws Exception { synchronized (LEFT) { pause(900); of.take(); } }

    // One that begins a thread for whoever comes.
    static void accept() throws Exception {
        ServerSocket door = new ServerSocket(Integer.getInteger("port"), 9, InetAddress.getLoopbackAddress());
        for (;;) {
            Socket visitor = door.accept();
            start("visit", () -> visitor.getInputStream().read());
        }
    }

    // A clerk who waits to be called, and then answers the client.
    static final ReentrantLock DESK = new ReentrantLock();
    static final Condition CALLED = DESK.newCondition();

    static void clerk(BlockingQueue<String> answers) throws Exception {
        DESK.lock();
        CALLED.await();
        DESK.unlock();
        answers.put("done");
    }

    static void client(BlockingQueue<String> answers, boolean calls) throws Exception {
        DESK.lock();
        pause(500);
        if (calls) CALLED.signal();
        DESK.unlock();
        answers.take();
    }

    static void audit() throws Exception { DESK.lock(); rest(); DESK.unlock(); }

    // One that waits for a price, and the one that tells it once there is an order.
    static void shop(CompletableFuture<String> price, BlockingQueue<String> orders) throws Exception {
        price.get();
        orders.put("order");
    }

    static void quote(CompletableFuture<String> price, BlockingQueue<String> orders) throws Exception {
        price.complete(orders.take());
    }

    // One that reads, and waits until another thread has read too.
    static void sum(int begin) throws Exception {
        CACHE.readLock().lock();
        pause(begin);
        Thread helper = new Thread(Stalls::get, "helper");
        helper.start();
        helper.join();
    }

    static void get() { CACHE.readLock().lock(); CACHE.readLock().unlock(); }

    static void set() { CACHE.writeLock().lock(); CACHE.writeLock().unlock(); }

    static void count(int[] to) { for (;;) to[0]++; }

    static void meet(CyclicBarrier here) throws Exception { here.await(); }

    public static void main(String[] words) throws Exception {
        BlockingQueue<String> in = new ArrayBlockingQueue<>(9), out = new ArrayBlockingQueue<>(9);
        int[] threads = {0};
        ExecutorService tills = Executors.newFixedThreadPool(3, it -> new Thread(it, "till-" + ++threads[0]));
        CyclicBarrier team = new CyclicBarrier(3);
        ReentrantLock door = new ReentrantLock(), gate = new ReentrantLock();
        CountDownLatch end = new CountDownLatch(words[0].equals("latch") ? 2 : 1);
        Gate free = new Gate();
        CyclicBarrier other = new CyclicBarrier(3);
        CompletableFuture<String> price = new CompletableFuture<>();
        boolean isAlive = words[0].endsWith("-alive");
        switch (words[0]) {
            case "upgraders": start("reader-1", Stalls::upgrade); start("reader-2", Stalls::upgrade); break;
            case "upgrader": start("reader-1", Stalls::upgrade); start("reader-2", Stalls::scan); break;
            case "sleeps": start("first", Stalls::first); start("second", Stalls::second); break;
            case "turns": start("ping", Stalls::ping); start("pong", Stalls::pong); break;
            case "polls": start("east", () -> pass(in, out)); start("west", () -> pass(out, in)); break;
            case "polls-alive":
                in.put("token"); start("east", () -> pass(in, out)); start("west", () -> pass(out, in)); break;
            case "hand": start("east", () -> hand(in, out)); start("west", () -> hand(out, in)); break;
            case "hand-alive":
                in.put("token"); start("east", () -> hand(in, out)); start("west", () -> hand(out, in)); break;
            case "begun": case "begun-alive":
                tills.submit(() -> { rest(); return 1; });
                tills.submit(() -> { sell(tills, words[0].equals("begun")); return 1; });
                break;
            case "cross": start("up", () -> cross(LEFT, RIGHT)); start("down", () -> cross(RIGHT, LEFT)); break;
            case "cross-alive":
                start("up", () -> cross(LEFT, RIGHT)); start("down", () -> { synchronized (RIGHT) { rest(); } });
                break;
            case "barrier":
                start("east", () -> meetEarly(team)); start("west", () -> meetLate(team)); start("late", Stalls::rest);
                break;
            case "interruptible": case "interruptible-alone": case "interruptible-breaker": case "interruptible-served":
            case "interruptible-scheduled":
                start("up", () -> take(door, gate));
                start("down", () -> take(gate, door));
                if (words[0].endsWith("breaker")) start("breaker", Stalls::watch);
                if (words[0].endsWith("served")) start("acceptor", Stalls::accept);
                if (words[0].endsWith("scheduled")) schedule();
                if (words[0].equals("interruptible")) break;
                return;
            case "latch": start("east", () -> follow(end)); start("west", () -> follow(end)); break;
            case "latch-alive":
                start("east", () -> follow(end)); start("west", () -> follow(end));
                start("late", () -> { rest(); end.countDown(); });
                break;
            case "gate":
                start("keeper", () -> { free.acquire(1); in.take(); });
                start("visitor", () -> { synchronized (LEFT) { visit(free); in.put("done"); } });
                start("porter", () -> { rest(); free.release(1); });
                break;
            case "desks": case "desks-alive":
                start("desk-1", () -> serve(in, LEFT)); start("desk-2", () -> serve(out, RIGHT));
                start("till-1", words[0].equals("desks") ? () -> give(in, LEFT) : Stalls::rest);
                start("till-2", Stalls::rest);
                break;
            case "clerk": case "clerk-alive":
                start("clerk", () -> clerk(in));
                pause(300);
                start("client", () -> client(in, isAlive));
                pause(200);
                if (isAlive) start("audit", Stalls::audit);
                break;
            case "price": case "price-alive":
                if (isAlive) price.orTimeout(1, TimeUnit.HOURS);
                start("shop", () -> shop(price, in)); start("quoter", () -> quote(price, in));
                break;
            case "readers": case "readers-alive":
                start("scanner", Stalls::scan); start("summer", () -> sum(isAlive ? 3_600_000 : 600));
                pause(300);
                start("setter", Stalls::set);
                break;
            case "meetings": case "meetings-alive":
                start("east", () -> meet(team)); start("west", () -> meet(isAlive ? team : other));
                start("late", () -> { rest(); meet(team); });
                break;
            case "suspended": case "suspended-alive":
                Thread counter = new Thread(() -> count(new int[1]), "counter");
                counter.start();
                pause(500);
                if (!isAlive) counter.suspend();
                break;
            case "idle": case "idle-alive":
                tills.submit(() -> 1);
                if (isAlive) start("boss", () -> { rest(); tills.submit(() -> 1); });
                return;
            case "inner-lock": case "inner-lock-breaker":
                BlockingQueue<Integer> orders = new PriorityBlockingQueue<>(9, Stalls::compare);
                orders.add(9);
                Thread driver = start("driver", () -> deliver(orders));
                start("buyer", () -> order(orders));
                if (words[0].endsWith("breaker")) start("breaker", () -> { rest(); driver.interrupt(); });
                return;
            case "class-crossed": start("bill", new Bill()::run); start("shop", new Shop()::run); return;
            case "class-versions":
                URL[] here = {Stalls.class.getProtectionDomain().getCodeSource().getLocation()};
                ClassLoader old = new URLClassLoader("v1", here, ClassLoader.getPlatformClassLoader());
                ClassLoader later = new URLClassLoader("v2", here, ClassLoader.getPlatformClassLoader());
                load(old, "Bill", "v1-bill"); load(old, "Shop", "v1-shop");
                load(later, "Shop", "v2-shop"); load(later, "Bill", "v2-bill");
                return;
            case "class": start("within", Stalls::useWithin); pause(100); start("loader", Stalls::use); break;
            case "class-alive":
                start("loader", Stalls::use); start("keeper", () -> { synchronized (LEFT) { rest(); } });
                pause(900);
                start("user", Stalls::use);
                break;
        }
        rest();
    }
}
