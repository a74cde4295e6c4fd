import java.util.List;
import java.util.concurrent.ArrayBlockingQueue;
import java.util.concurrent.BlockingQueue;
import java.util.concurrent.LinkedBlockingQueue;
import java.util.concurrent.Semaphore;
import java.util.concurrent.TimeUnit;

/** Two packers fill racks that stand in a list, and each waits for room before it would clear the other's. What else is
    done there ends no wait of theirs, or it does: by a rack of a class of its own, or by the seats of an old hall. */
public class Racks {
    static final BlockingQueue<String> MAIL = new LinkedBlockingQueue<>();

    static class Rack extends ArrayBlockingQueue<String> {
        Rack() {
            super(1);
        }
    }

    static class Bay {
        final BlockingQueue<String> rack = new Rack();

        void pack() throws Exception {
            for (int box = 0; ; box++) {
                rack.put("box " + box);
            }
        }

        void clear() throws Exception {
            for (;;) {
                Thread.sleep(3_600_000);
                rack.poll();
            }
        }
    }

    static class Hall {
        final Semaphore seats = new Semaphore(2, true);
    }

    /** Wants five seats of a hall that is gone, for an hour: then those behind get theirs. */
    static class Party implements Work {
        private Hall hall;

        Party(Hall hall) {
            this.hall = hall;
        }

        @Override
        public void run() throws Exception {
            leave().seats.tryAcquire(5, 1, TimeUnit.HOURS);
        }

        Hall leave() {
            Hall old = hall;
            hall = null;
            return old;
        }
    }

    static class Guest implements Work {
        final Semaphore seats;

        Guest(Semaphore seats) {
            this.seats = seats;
        }

        @Override
        public void run() throws Exception {
            seats.acquire();
            seats.release();
        }
    }

    static void move(List<BlockingQueue<String>> racks, int from, int to) throws Exception {
        for (int box = 0; ; box++) {
            racks.get(to).put("box " + box);
            if (box > 2) {
                racks.get(from).take();
            }
        }
    }

    static void readMail(List<BlockingQueue<String>> racks) throws Exception {
        for (;;) {
            Thread.sleep(3_600_000);
            MAIL.offer("racks: " + racks.size());
            MAIL.poll();
        }
    }

    interface Work {
        void run() throws Exception;
    }

    static void start(String name, Work work) {
        new Thread(() -> {
            try {
                work.run();
            } catch (Exception error) {
                error.printStackTrace();
            }
        }, name).start();
    }

    public static void main(String[] words) throws Exception {
        switch (words[0]) {
            case "stuck" -> {
                List<BlockingQueue<String>> racks = List.of(new ArrayBlockingQueue<>(1), new ArrayBlockingQueue<>(1),
                    new ArrayBlockingQueue<>(1));
                start("packer", () -> move(racks, 0, 1));
                start("mover", () -> move(racks, 1, 0));
                start("reader", () -> readMail(racks));
            }
            case "own" -> {
                Bay bay = new Bay();
                start("packer", bay::pack);
                start("mover", bay::pack);
                start("clearer", bay::clear);
            }
            case "party" -> {
                Hall hall = new Hall();
                start("party", new Party(hall));
                Thread.sleep(500);
                start("packer", new Guest(hall.seats));
                start("mover", new Guest(hall.seats));
            }
            default -> throw new IllegalArgumentException(words[0]);
        }
    }
}
