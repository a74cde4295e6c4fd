import java.util.List;
import java.util.Timer;
import java.util.TimerTask;
import java.util.concurrent.ArrayBlockingQueue;
import java.util.concurrent.BlockingQueue;
import java.util.concurrent.CompletableFuture;
import java.util.concurrent.CountDownLatch;
import java.util.concurrent.Executors;
import java.util.concurrent.SynchronousQueue;
import java.util.concurrent.TimeUnit;

/** Fetchers take from a bounded queue and put the links that they find back into it. A caller waits for an answer that
 * one of them gives. Beside them stand those that such a program often has, each of which wakes up too rarely to be
 * seen to do so: a scheduler, a timer, and threads that look on. "alive" has one fetcher that is slow. */
public class Crawler {
    private final BlockingQueue<String> frontier = new ArrayBlockingQueue<>(4);
    private final CompletableFuture<String> answer = new CompletableFuture<>();
    private final boolean isSlow;

    Crawler(boolean isSlow) {
        this.isSlow = isSlow;
    }

    interface Work {
        void run() throws Exception;
    }

    static void start(String name, Work work) {
        new Thread(() -> {
            try {
                work.run();
            } catch (Exception error) {
                error.printStackTrace();
            }
        }, name).start();
    }

    void fetch(int number) throws Exception {
        for (;;) {
            String page = frontier.take();
            for (String link : load(number, page)) {
                frontier.put(link);
            }
            if (frontier.isEmpty()) {
                answer.complete(page);
            }
        }
    }

    List<String> load(int number, String page) throws Exception {
        Thread.sleep(isSlow && number == 1 ? 300_000 : 30);
        return List.of(page + "/a", page + "/b", page + "/c");
    }

    static void pause(long seconds) throws Exception {
        TimeUnit.SECONDS.sleep(seconds);
    }

    void watch() throws Exception {
        CountDownLatch stop = new CountDownLatch(1);
        Executors.newScheduledThreadPool(1, work -> new Thread(work, "pool-stats")).scheduleAtFixedRate(
            () -> System.out.println(frontier.size()), 1, 60, TimeUnit.SECONDS);
        new Timer("flusher").schedule(new TimerTask() {
            public void run() {
                System.out.flush();
            }
        }, 100, 60_000);
        start("queue-monitor", () -> {
            while (!stop.await(60, TimeUnit.SECONDS)) {
                System.out.println(frontier.size());
            }
        });
        start("heartbeat", () -> {
            for (;;) {
                pause(60);
            }
        });
        SynchronousQueue<String> inbox = new SynchronousQueue<>();
        start("archive", () -> {
            for (;;) {
                System.out.println(inbox.poll(60, TimeUnit.SECONDS));
            }
        });
    }

    public static void main(String[] words) throws Exception {
        Crawler crawler = new Crawler(words[0].equals("alive"));
        crawler.watch();
        for (int number = 1; number <= 3; number++) {
            int own = number;
            start("fetcher-" + number, () -> crawler.fetch(own));
            crawler.frontier.put("page " + number);
        }
        start("caller", () -> System.out.println(crawler.answer.get()));
        for (;;) {
            pause(60);
        }
    }
}
