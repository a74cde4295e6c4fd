import java.sql.Connection;
import java.sql.DriverManager;
import java.sql.Statement;
import java.util.concurrent.ArrayBlockingQueue;
import java.util.concurrent.BlockingQueue;
import java.util.concurrent.CyclicBarrier;

/**
 * The shop of pool_clients.py in Java: a seller has the row of an article, and takes a second connection of the pool; a
 * buyer has that one, and waits for the row.
 *
 * usage: PoolClients stuck|slow URL
 */
public class PoolClients {
    static final BlockingQueue<Connection> pool = new ArrayBlockingQueue<>(2);
    static final CyclicBarrier begun = new CyclicBarrier(2);
    static boolean isSlow;

    static void change(Connection connection) throws Exception {
        try (Statement statement = connection.createStatement()) {
            statement.execute("update stock set number = number + 1 where article = 4711");
        }
    }

    static void sell() throws Exception {
        Connection connection = pool.take();
        change(connection);
        begun.await();
        if (isSlow) {
            connection.createStatement().execute("select pg_sleep(900)");
        }
        begun.await();
        Connection journal = pool.take();
        journal.commit();
        connection.commit();
    }

    static void buy() throws Exception {
        begun.await();
        Connection connection = pool.take();
        if (!isSlow) {
            begun.await();
        }
        change(connection);
        connection.commit();
        pool.put(connection);
    }

    interface Work {
        void run() throws Exception;
    }

    static void start(String name, Work work) {
        new Thread(() -> {
            try {
                work.run();
            } catch (Exception error) {
                throw new RuntimeException(error);
            }
        }, name).start();
    }

    public static void main(String[] words) throws Exception {
        isSlow = words[0].equals("slow");
        for (String name : new String[] {"first", "second"}) {
            Connection connection = DriverManager.getConnection(words[1] + "&ApplicationName=" + name);
            connection.setAutoCommit(false);
            pool.put(connection);
        }
        start("seller", PoolClients::sell);
        start("buyer", PoolClients::buy);
        start("heartbeat", () -> {
            while (true) {
                Thread.sleep(500);
            }
        });
    }
}
