import com.rabbitmq.client.*;
import java.util.Map;
import java.util.concurrent.*;

/**
 * Services of a broker in one program, each with a connection. NAME:NEXT asks NEXT within its work and waits for the
 * reply, NAME~NEXT asks and then takes its time. Each has work at once. Usage: Desks HOST SERVICE ..
 */
public class Desks {
    final String name, next;
    final boolean waits;
    final Connection connection;
    final Channel work, asking;
    final String replies;
    final BlockingQueue<String> found = new LinkedBlockingQueue<>();

    Desks(String words, String host) throws Exception {
        name = words.split("[:~]")[0];
        next = words.substring(name.length() + 1);
        waits = words.contains(":");
        ConnectionFactory factory = new ConnectionFactory();
        factory.setHost("127.0.0.1");
        factory.setPort(Integer.parseInt(System.getenv("PORT")));
        connection = factory.newConnection(name + "@" + host);
        work = connection.createChannel();
        asking = connection.createChannel();
        work.basicQos(1);
        work.queueDeclare(name, false, false, false, null);
        work.queueDeclare(next, false, false, false, null);
        replies = asking.queueDeclare().getQueue();
        asking.basicConsume(replies, true, new DefaultConsumer(asking) {
            public void handleDelivery(String tag, Envelope envelope, AMQP.BasicProperties more, byte[] body) {
                found.offer("reply");
            }
        });
    }

    void serve() throws Exception {
        work.basicConsume(name, false, new DefaultConsumer(work) {
            public void handleDelivery(String tag, Envelope envelope, AMQP.BasicProperties more, byte[] body)
                    throws java.io.IOException {
                try {
                    handle(more);
                } catch (InterruptedException error) {
                    return;
                }
                work.basicAck(envelope.getDeliveryTag(), false);
            }
        });
    }

    void handle(AMQP.BasicProperties more) throws java.io.IOException, InterruptedException {
        asking.basicPublish("", next, new AMQP.BasicProperties.Builder().replyTo(replies).build(), new byte[1]);
        if (waits) found.take();
        else Thread.sleep(600_000);
        if (more.getReplyTo() != null) work.basicPublish("", more.getReplyTo(), null, new byte[1]);
    }

    public static void main(String[] words) throws Exception {
        Desks[] all = new Desks[words.length - 1];
        for (int at = 1; at < words.length; at++) {
            all[at - 1] = new Desks(words[at], words[0]);
        }
        for (Desks one : all) one.serve();
        Thread.sleep(500);
        for (Desks one : all) one.work.basicPublish("", one.name, null, new byte[1]);
        System.out.println("ready");
    }
}
