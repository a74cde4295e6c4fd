import java.util.ArrayList;
import java.util.HashMap;
import java.util.List;
import java.util.Map;
import java.util.stream.Collectors;
import java.util.stream.IntStream;

/** An index is built by a parallel stream, in a synchronized method. The function of the stream asks the index, which
 * that method has locked, so that only the thread that waits for the stream may go on. In "alive" that thread has not
 * locked it, and one page is slow. In "half" one page is, beside those that wait. */
public class Indexer {
    private final Map<Integer, String> known = new HashMap<>();
    private final String mode;

    Indexer(String mode) {
        this.mode = mode;
    }

    synchronized String find(int page) {
        return known.getOrDefault(page, "page " + page);
    }

    String read(int page) {
        if (page == 700 && !mode.equals("stuck")) {
            pause(300_000);
        }
        return find(page);
    }

    List<String> build() {
        return IntStream.range(0, 800).boxed().collect(Collectors.toCollection(ArrayList::new)).parallelStream()
            .map(this::read).collect(Collectors.toList());
    }

    synchronized List<String> rebuild() {
        return build();
    }

    static void pause(long milliseconds) {
        try {
            Thread.sleep(milliseconds);
        } catch (InterruptedException error) {
            throw new IllegalStateException(error);
        }
    }

    public static void main(String[] words) {
        Indexer index = new Indexer(words[0]);
        new Thread(() -> {
            for (;;) {
                pause(700);
            }
        }, "heartbeat").start();
        new Thread(() -> System.out.println(words[0].equals("alive") ? index.build() : index.rebuild()),
            "indexer").start();
        pause(1000);
        System.out.println(index.find(3));
    }
}
