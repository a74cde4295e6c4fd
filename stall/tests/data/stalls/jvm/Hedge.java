// A quote is computed locally; the rates server may push a better one first, by a selector loop of our own.
import java.net.*; import java.nio.*; import java.nio.channels.*; import java.util.*; import java.util.concurrent.*;
public class Hedge {
    static final Object rates = new Object(), book = new Object();
    static void sleep(int ms) { try { Thread.sleep(ms); } catch (InterruptedException e) { } }
    static String compute() { synchronized (rates) { sleep(1000); synchronized (book) { return "local"; } } }
    static void post() { synchronized (book) { sleep(1000); synchronized (rates) { System.out.println("posted"); } } }
    static final Map<Integer, CompletableFuture<String>> pending = new ConcurrentHashMap<>();
    static void loop(SocketChannel c) {
        try {
            Selector s = Selector.open(); c.configureBlocking(false); c.register(s, SelectionKey.OP_READ);
            ByteBuffer b = ByteBuffer.allocate(64);
            while (true) {
                s.select();
                for (SelectionKey k : s.selectedKeys()) if (k.isReadable()) {
                    b.clear(); if (((SocketChannel) k.channel()).read(b) <= 0) { k.cancel(); continue; }
                    CompletableFuture<String> f = pending.remove(1); if (f != null) f.complete("pushed");
                }
                s.selectedKeys().clear();
            }
        } catch (Exception e) { e.printStackTrace(); }
    }
    public static void main(String[] a) throws Exception {
        SocketChannel c = SocketChannel.open(new InetSocketAddress("127.0.0.1", Integer.parseInt(a[1])));
        Thread t = new Thread(() -> loop(c), "rates-loop"); t.setDaemon(true); t.start();
        ExecutorService desk = Executors.newFixedThreadPool(2, r -> new Thread(r, "desk"));
        CompletableFuture<String> quote = CompletableFuture.supplyAsync(Hedge::compute, desk);
        if (a[0].equals("healthy")) pending.put(1, quote);
        new Thread(Hedge::post, "poster").start();
        System.out.println("quote " + quote.get());
        System.exit(0);
    }
}
