import com.lmax.disruptor.BatchEventProcessor;
import com.lmax.disruptor.EventFactory;
import com.lmax.disruptor.EventHandler;
import com.lmax.disruptor.RingBuffer;
import com.lmax.disruptor.YieldingWaitStrategy;
import java.util.Arrays;
import java.util.Scanner;
import java.util.concurrent.atomic.AtomicInteger;

/** LMAX Disruptor: a ring with several producers, each consumer sees every event. It runs and checks as `peers.rs` does. */
public final class Disruptor {
    static final int BATCH = 16;

    /** A message of 8 bytes, which names it: sender << 32 | number ... */
    static class Event {
        long a;

        void set(long id) {
            a = id;
        }

        long sum() {
            return a;
        }
    }

    /** ... and one of 56. */
    static final class Wide extends Event {
        long b, c, d, e, f, g;

        @Override
        void set(long id) {
            a = id; b = id * 3; c = id * 5; d = id * 7; e = id * 9; f = id * 11; g = id * 13;
        }

        @Override
        long sum() {
            return a + b + c + d + e + f + g;
        }
    }

    static final class Receiver implements EventHandler<Event> {
        final int total;
        final int[] next = new int[8];
        BatchEventProcessor<Event> processor;
        int count, disorder;
        long order, sum, end;

        Receiver(int total) {
            this.total = total;
        }

        @Override
        public void onEvent(Event event, long sequence, boolean endOfBatch) {
            int sender = (int) (event.a >> 32), number = (int) event.a;
            disorder |= next[sender] ^ number;
            next[sender] = number + 1;
            order = order * 0x9E3779B97F4A7C15L + event.a;
            sum += event.sum();
            if (++count == total) {
                end = System.nanoTime();
                processor.halt();
            }
        }
    }

    static final class Gate {
        final AtomicInteger waiting = new AtomicInteger();
        volatile boolean open;

        void pass() {
            waiting.incrementAndGet();
            for (int spins = 0; !open; spins++) {
                if (spins < 100) Thread.onSpinWait(); else Thread.yield();
            }
        }

        long release(int threads) {
            while (waiting.get() < threads) Thread.yield();
            long start = System.nanoTime();
            open = true;
            return start;
        }
    }

    static long run(int senders, int receivers, int messages, boolean wide) throws InterruptedException {
        int total = senders * messages;
        Gate gate = new Gate();
        EventFactory<Event> factory = wide ? Wide::new : Event::new;
        int room = Math.min(1 << 16, Integer.highestOneBit(total - 1) << 1);
        RingBuffer<Event> ring = RingBuffer.createMultiProducer(factory, room, new YieldingWaitStrategy());
        Thread[] threads = new Thread[senders + receivers];
        Receiver[] sinks = new Receiver[receivers];
        for (int i = 0; i < receivers; i++) {
            Receiver sink = sinks[i] = new Receiver(total);
            sink.processor = new BatchEventProcessor<>(ring, ring.newBarrier(), sink);
            ring.addGatingSequences(sink.processor.getSequence());
            threads[i] = new Thread(() -> {
                gate.pass();
                sink.processor.run();
            });
        }
        for (int i = 0; i < senders; i++) {
            long sender = (long) i << 32;
            threads[receivers + i] = new Thread(() -> {
                gate.pass();
                for (int number = 0; number < messages; ) {
                    int n = Math.min(BATCH, messages - number);
                    long last = ring.next(n), first = last - n + 1;
                    for (long at = first; at <= last; at++) {
                        ring.get(at).set(sender | number++);
                    }
                    ring.publish(first, last);
                }
            });
        }
        for (Thread thread : threads) thread.start();
        long start = gate.release(threads.length), end = Long.MIN_VALUE;
        for (Thread thread : threads) thread.join();
        for (Receiver sink : sinks) end = Math.max(end, sink.end);
        check(sinks, senders, messages, wide);
        return end - start;
    }

    /** Every message once, each sender's in its order, one order for all, and no word of a message damaged. */
    static void check(Receiver[] receivers, int senders, int messages, boolean wide) {
        int[] next = new int[8];
        Arrays.fill(next, 0, senders, messages);
        long sum = 0;
        for (long sender = 0; sender < senders; sender++) {
            for (int i = 0; i < messages; i++) sum += (sender << 32 | i) * (wide ? 49 : 1);
        }
        for (Receiver receiver : receivers) {
            if (receiver.disorder != 0 || !Arrays.equals(receiver.next, next) || receiver.sum != sum
                    || receiver.count != senders * messages || receiver.order != receivers[0].order) {
                throw new AssertionError("messages lost, damaged, or out of order");
            }
        }
    }

    public static void main(String[] args) throws InterruptedException {
        for (int messages : new int[] {400, 50_000, 400}) { // warm the compiler up
            for (int i = 0; i < (messages == 400 ? 50 : 4); i++) {
                for (int receivers : new int[] {1, 2}) {
                    run(1 + i % 3, receivers, messages, false);
                    run(1 + i % 3, receivers, messages, true);
                }
            }
        }
        Scanner in = new Scanner(System.in);
        while (in.hasNextInt()) {
            int senders = in.nextInt(), receivers = in.nextInt(), messages = in.nextInt();
            System.out.println(run(senders, receivers, messages, in.nextInt() == 56));
        }
    }
}
