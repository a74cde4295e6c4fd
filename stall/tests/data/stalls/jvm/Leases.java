import java.util.concurrent.Semaphore;

/** One that has a lease in a method that the JVM has compiled, and taken apart the lease there: no heap dump says that
 *  it has a reference to the semaphore. It gives the lease back after a minute. reach_lease was recorded from it. */
class Leases {
    static final class Lease {
        final Semaphore permits;
        Lease(Semaphore permits) { this.permits = permits; }
        void giveBack() { permits.release(); }
    }

    interface Starter { void start(Semaphore permits); }

    static int sum;

    static void work(long millis, Starter starter) throws Exception {
        Semaphore permits = new Semaphore(0);
        Lease lease = new Lease(permits);
        starter.start(permits);
        Thread.sleep(millis);
        lease.giveBack();
    }

    static void warmUp(int rounds) throws Exception {
        Starter[] some = {it -> sum++, it -> sum += 2, it -> sum += 3, it -> { if (sum == 1) System.out.println(it); }};
        for (int round = 0; round < rounds; round++) work(0, some[round % 4]);
    }

    static void acquire(Semaphore permits) { try { permits.acquire(); } catch (InterruptedException e) { } }

    static void last() {
        try {
            warmUp(200_000);
            Thread.sleep(2000);
            warmUp(20_000);
            work(60_000, permits -> new Thread(() -> acquire(permits), "waiter").start());
        } catch (Exception e) {
            throw new RuntimeException(e);
        }
    }

    public static void main(String[] words) { new Thread(Leases::last, "owner").start(); }
}
