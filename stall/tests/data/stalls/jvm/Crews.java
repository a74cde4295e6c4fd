import java.util.List;
import java.util.concurrent.BrokenBarrierException;
import java.util.concurrent.CountDownLatch;
import java.util.concurrent.CyclicBarrier;
import java.util.concurrent.ExecutorService;
import java.util.concurrent.Executors;
import java.util.concurrent.ScheduledExecutorService;
import java.util.concurrent.TimeUnit;

/**
 * Three of four crews meet where all four are wanted, and the foreman waits for the end of their pool. A clerk waits
 * until a crew has reported, which none does before the end. The fourth crew sleeps, and with the argument 'lost' it has
 * ended.
 */
public class Crews {
    private final CyclicBarrier gate = new CyclicBarrier(4);
    private final ExecutorService crews = Executors.newFixedThreadPool(4);
    private final ScheduledExecutorService clock = Executors.newScheduledThreadPool(1, it -> new Thread(it, "clock"));

    void work(int number, boolean isLost, CountDownLatch report) throws InterruptedException, BrokenBarrierException {
        Thread.currentThread().setName("crew-" + number);
        if (number == 4 && isLost) {
            throw new IllegalStateException("lost");
        }
        if (number == 4) {
            Thread.sleep(3_600_000);
        }
        gate.await();
        report.countDown();
    }

    static void begin(CountDownLatch report) {
        new Thread(() -> {
            try {
                report.await();
                System.out.println("reported");
            } catch (InterruptedException e) {
                Thread.currentThread().interrupt();
            }
        }, "clerk").start();
    }

    public static void main(String[] words) throws Exception {
        Crews its = new Crews();
        boolean isLost = List.of(words).contains("lost");
        CountDownLatch report = new CountDownLatch(1);
        for (int it = 1; it <= 4; it++) {
            int number = it;
            its.crews.submit(() -> { its.work(number, isLost, report); return number; });
        }
        begin(new CountDownLatch(isLost ? 1 : 0));
        begin(report);
        its.clock.scheduleAtFixedRate(() -> System.out.println(its.gate.getNumberWaiting()), 1, 1, TimeUnit.HOURS);
        its.crews.shutdown();
        its.crews.awaitTermination(1, TimeUnit.DAYS);
        its.clock.shutdownNow();
    }
}
