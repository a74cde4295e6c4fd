import java.io.OutputStream;

/** A service with a script as its filter. A thread of it sends, and has a lock until the script has read all; the other
 * one wants the lock before it reads what the script writes. In the twin the script sleeps first. */
public class Service {
    public static void main(String[] words) throws Exception {
        Process job = new ProcessBuilder("/bin/sh", "-c", words[0].equals("slow") ? "sleep 600" : "exec cat").start();
        new Thread(() -> send(job), "sender").start();
        Thread.sleep(500);
        synchronized (job) {
            job.getInputStream().read();
        }
    }

    static void send(Process job) {
        synchronized (job) {
            try {
                OutputStream out = job.getOutputStream();
                out.write(new byte[1_000_000]);
                out.flush();
            } catch (java.io.IOException error) {
                System.exit(1);
            }
        }
    }
}
