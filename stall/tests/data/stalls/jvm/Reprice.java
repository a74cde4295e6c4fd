// Nightly repricing. A helper program fetches rates; if it dies, the job is cancelled and main goes on with old prices.
import java.util.concurrent.*;
public class Reprice {
    static final Object prices = new Object(), stock = new Object();
    static void sleep(int ms) { try { Thread.sleep(ms); } catch (InterruptedException e) { } }
    static void reprice() { synchronized (prices) { sleep(1000); synchronized (stock) { System.out.println("new"); } } }
    static void count() { synchronized (stock) { sleep(1000); synchronized (prices) { System.out.println("done"); } } }
    public static void main(String[] a) throws Exception {
        ExecutorService desk = Executors.newFixedThreadPool(1, r -> new Thread(r, "desk"));
        Future<?> job = desk.submit(Reprice::reprice);
        new Thread(Reprice::count, "counter").start();
        Process helper = new ProcessBuilder("sleep", a[1]).start();
        if (a[0].equals("healthy")) helper.onExit().thenRun(() -> job.cancel(true));
        try { job.get(); System.out.println("new prices"); }
        catch (CancellationException e) { System.out.println("old prices, main goes on"); }
        System.exit(0);
    }
}
