import java.util.Timer;
import java.util.TimerTask;
import java.util.concurrent.ArrayBlockingQueue;
import java.util.concurrent.BlockingQueue;
import java.util.concurrent.Executors;
import java.util.concurrent.TimeUnit;

/** A job that puts into a full queue, beside a scheduled pool and a timer that repeat their tasks. */
public class Repeats {
    private static final BlockingQueue<Integer> JOBS = new ArrayBlockingQueue<>(1);

    public static void main(String[] words) throws InterruptedException {
        Executors.newSingleThreadScheduledExecutor(task -> new Thread(task, "pool")).scheduleAtFixedRate(
            () -> { }, 1, 3600, TimeUnit.SECONDS);
        new Timer("timer").schedule(new TimerTask() {
            @Override public void run() { }
        }, 1000, 3600000);
        while (true) {
            JOBS.put(1);
        }
    }
}
