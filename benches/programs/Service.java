import com.sun.net.httpserver.HttpServer;
import java.net.InetAddress;
import java.net.InetSocketAddress;
import java.util.ArrayList;
import java.util.List;
import java.util.concurrent.Executors;

/** Echoes the query of each request by a pool of eight threads, and holds two million objects besides. */
class Service {
    static final List<long[]> HELD = new ArrayList<>();

    public static void main(String[] words) throws Exception {
        for (int at = 0; at < 2_000_000; at++)
            HELD.add(new long[1]);
        HttpServer server = HttpServer.create(new InetSocketAddress(InetAddress.getByName("127.0.0.1"), 0), 100);
        server.setExecutor(Executors.newFixedThreadPool(8));
        server.createContext("/echo", exchange -> {
            byte[] text = exchange.getRequestURI().getRawQuery().getBytes();
            exchange.sendResponseHeaders(200, text.length);
            exchange.getResponseBody().write(text);
            exchange.close();
        });
        server.start();
        System.out.println("ready " + server.getAddress().getPort() + " " + ProcessHandle.current().pid());
    }
}
