import java.sql.Connection;
import java.sql.DriverManager;
import java.util.concurrent.CountDownLatch;

/** The shop once more: a clerk and a packer, each with a connection of its own, and a cart that both lock. */
public class Shop {
    static final Object CART = new Object();
    static final CountDownLatch BEGUN = new CountDownLatch(2);
    static final String STOCK = "update stock set number = number %s 1 where article = 4711";

    static Connection open(String url) throws Exception {
        Connection connection = DriverManager.getConnection(url);
        connection.setAutoCommit(false);
        return connection;
    }

    static void sell(String how, String url) throws Exception {
        Connection connection = open(url + "&ApplicationName=clerk");
        connection.createStatement().executeUpdate(String.format(STOCK, "-"));
        BEGUN.countDown();
        BEGUN.await();
        if (how.equals("slow")) {
            connection.createStatement().execute("select pg_sleep(900)");
        }
        synchronized (CART) {
            connection.commit();
        }
    }

    static void pack(String url) throws Exception {
        Connection connection = open(url + "&ApplicationName=packer");
        synchronized (CART) {
            BEGUN.countDown();
            BEGUN.await();
            connection.createStatement().executeUpdate(String.format(STOCK, "+"));
            connection.commit();
        }
    }

    interface Work {
        void run() throws Exception;
    }

    static void start(String name, Work work) {
        new Thread(() -> {
            try {
                work.run();
            } catch (Exception error) {
                throw new RuntimeException(error);
            }
        }, name).start();
    }

    public static void main(String[] words) {
        start("clerk", () -> sell(words[0], words[1]));
        start("packer", () -> pack(words[1]));
        start("heartbeat", () -> {
            while (true) {
                Thread.sleep(500);
            }
        });
    }
}
