import java.io.BufferedReader;
import java.io.IOException;
import java.io.InputStreamReader;
import java.io.OutputStream;
import java.util.concurrent.CountDownLatch;

public class Convert {
    static final Object LOCK = new Object();
    static final CountDownLatch READS = new CountDownLatch(1);

    static void answer(Process converter) {
        synchronized (LOCK) {
            READS.countDown();
            try {
                System.out.println(new BufferedReader(new InputStreamReader(converter.getInputStream())).readLine());
            } catch (IOException error) {
                throw new RuntimeException(error);
            }
        }
    }

    static void feed(Process converter, String line) throws IOException {
        synchronized (LOCK) {
            OutputStream out = converter.getOutputStream();
            out.write(line.getBytes());
            out.flush();
        }
    }

    public static void main(String[] words) throws Exception {
        Process converter = new ProcessBuilder("./converter", words[0]).start();
        feed(converter, "picture 1\n");
        Thread worker = new Thread(() -> answer(converter), "worker");
        worker.start();
        READS.await();
        feed(converter, "size 80 60\n");
        worker.join();
    }
}
