import java.util.List;
import java.util.concurrent.CompletableFuture;

/**
 * A till books on an account while it waits for a reply, and another one wants the account. A closer joins both. With
 * "lost" the terminal drops the reply and ends, or else it answers after an hour.
 */
public class Tills {
    static void rest(long seconds) {
        try {
            Thread.sleep(1000 * seconds);
        } catch (InterruptedException e) {
            Thread.currentThread().interrupt();
        }
    }

    static Thread start(String name, Runnable work) {
        Thread thread = new Thread(work, name);
        thread.start();
        return thread;
    }

    static CompletableFuture<String> ask(boolean loses) {
        CompletableFuture<String> reply = new CompletableFuture<>();
        start("terminal", () -> {
            rest(loses ? 0 : 3600);
            if (!loses) {
                reply.complete("paid");
            }
        });
        return reply;
    }

    static void charge(Object account, boolean loses) {
        synchronized (account) {
            ask(loses).join();
        }
    }

    static void close(List<Thread> tills) {
        try {
            for (Thread till : tills) {
                till.join();
            }
        } catch (InterruptedException e) {
            Thread.currentThread().interrupt();
        }
    }

    static void tick() {
        while (true) {
            System.out.println("open");
            rest(3600);
        }
    }

    public static void main(String[] args) {
        boolean loses = args[0].equals("lost");
        Object account = new Object();
        start("clock", Tills::tick);
        Thread first = start("till-1", () -> charge(account, loses));
        rest(1);
        Thread second = start("till-2", () -> charge(account, loses));
        start("closer", () -> close(List.of(first, second)));
    }
}
