import java.util.concurrent.*;
import java.util.concurrent.atomic.AtomicInteger;

/** Two pools that give each other work by CompletableFuture, by a word: the states in heap_supplied* were recorded from
    it by `take-jvm --heap`. */
class Prices {
    static final CyclicBarrier ALL = new CyclicBarrier(4);

    static ThreadFactory named(String name) {
        AtomicInteger number = new AtomicInteger();
        return it -> new Thread(it, name + "-" + number.incrementAndGet());
    }

    static ExecutorService pool(String name, int most) {
        return new ThreadPoolExecutor(2, most, 1, TimeUnit.HOURS,
            most > 2 ? new LinkedBlockingQueue<>(9) : new LinkedBlockingQueue<>(), named(name));
    }

    static void meet() { try { ALL.await(); } catch (Exception e) { throw new IllegalStateException(e); } }

    static void rest() { try { Thread.sleep(3_600_000); } catch (InterruptedException e) { } }

    // A stock check asks the pool of the requests for a price, or a slow depot.
    static int look(ExecutorService requests, boolean isSlow) {
        meet();
        if (isSlow) rest();
        return isSlow ? 1 : CompletableFuture.supplyAsync(() -> 2, requests).thenApply(it -> it + 1).join();
    }

    static int order(ExecutorService requests, ExecutorService stocks, boolean isSlow) {
        CompletableFuture<Integer> found = CompletableFuture.supplyAsync(() -> look(requests, isSlow), stocks);
        meet();
        return found.join();
    }

    public static void main(String[] words) {
        ExecutorService requests = pool("request", words[0].equals("bounded") ? 3 : 2), stocks = pool("stock", 2);
        CompletableFuture<Integer> first = CompletableFuture.supplyAsync(() -> order(requests, stocks, false), requests);
        CompletableFuture<Integer> second = CompletableFuture.supplyAsync(
            () -> order(requests, stocks, words[0].equals("slow")), requests);
        if (words[0].equals("any")) CompletableFuture.anyOf(first, second, new CompletableFuture<>()).join();
        CompletableFuture.allOf(first, second, CompletableFuture.completedFuture(0)).join();
    }
}
