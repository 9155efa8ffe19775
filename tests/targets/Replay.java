package poqashem;

import java.io.IOException;
import java.lang.reflect.Method;
import java.nio.ByteBuffer;
import java.nio.file.Files;
import java.nio.file.Paths;
import java.util.ArrayList;
import java.util.HashMap;
import java.util.List;
import java.util.Map;

/**
 * Replays a record of calls by the native methods of Engine: Replay FILE. Every answer, every sum of a written buffer
 * and all bytes kept in the record must come out again. tests/second/src/record.rs writes the record and says how it is
 * laid out.
 */
public final class Replay {
    private static final class Call {
        final String takes;
        final Method method;

        Call(String name, String takes, Map<String, Method> methods) {
            this.takes = takes;
            method = methods.get(name);
            if (method == null) throw new IllegalStateException("Engine has no " + name);
        }
    }

    private final ByteBuffer record;
    private final List<Call> calls = new ArrayList<>();
    private final byte[][] slots = new byte[16][];
    private long made;

    private Replay(byte[] bytes) {
        record = ByteBuffer.wrap(bytes);
        Map<String, Method> methods = new HashMap<>();
        for (Method method : Engine.class.getDeclaredMethods())
            if (java.lang.reflect.Modifier.isNative(method.getModifiers())) methods.put(method.getName(), method);
        for (String line = line(); !line.isEmpty(); line = line()) {
            String[] words = line.split(" ", 2);
            calls.add(new Call(words[0], words.length > 1 ? words[1] : "", methods));
        }
    }

    private String line() {
        StringBuilder line = new StringBuilder();
        for (char c = (char) record.get(); c != '\n'; c = (char) record.get()) line.append(c);
        return line.toString();
    }

    private byte[] bytes(int n) {
        byte[] bytes = new byte[n];
        record.get(bytes);
        return bytes;
    }

    private static int sum(byte[] bytes) {
        int sum = 0x811c9dc5;
        for (byte b : bytes) sum = (sum ^ (b & 255)) * 0x01000193;
        return sum;
    }

    private IllegalStateException wrong(String why) {
        return new IllegalStateException("call " + made + ": " + why);
    }

    private void call() throws ReflectiveOperationException {
        Call call = calls.get(record.get());
        List<Object> given = new ArrayList<>();
        List<Integer> written = new ArrayList<>();
        List<ByteBuffer> buffers = new ArrayList<>();
        for (char kind : call.takes.toCharArray()) {
            if (kind == 'q') given.add(record.getLong());
            else if (kind == 'n') given.add(record.getInt());
            else {
                int slot = record.get();
                ByteBuffer lent = ByteBuffer.allocateDirect(record.getInt());
                lent.duplicate().put(slots[slot], 0, lent.capacity());
                given.add(lent);
                if (kind == 'w') written.add(slot);
                if (kind == 'w') buffers.add(lent);
            }
        }
        Number answer = (Number) call.method.invoke(null, given.toArray());
        long got = answer instanceof Integer ? answer.intValue() & 0xFFFFFFFFL : answer.longValue();
        long want = record.getLong();
        if (got != want) throw wrong(call.method.getName() + " answers " + got + ", not " + want);
        for (int k = 0; k < written.size(); k++) {
            byte[] slot = slots[written.get(k)];
            buffers.get(k).duplicate().get(slot, 0, buffers.get(k).capacity());
            if (sum(slot) != record.getInt()) throw wrong(call.method.getName() + " leaves other bytes");
        }
        made++;
    }

    private void slot(char op) {
        int slot = record.get();
        if (op == 'Y') slots[slot] = slots[record.get()].clone();
        else if (op == 'B') slots[slot] = bytes(record.getInt());
        else if (op == 'P') slots[slot][record.getInt()] = record.get();
        else if (op == 'F') {
            slots[slot] = new byte[record.getInt()];
            java.util.Arrays.fill(slots[slot], record.get());
        } else if (op == 'K') {
            if (!java.util.Arrays.equals(slots[slot], bytes(record.getInt()))) throw wrong("other bytes in a slot");
        } else throw wrong("the record is damaged");
    }

    public static void main(String[] words) throws IOException, ReflectiveOperationException {
        Replay replay = new Replay(Files.readAllBytes(Paths.get(words[0])));
        for (char op = (char) replay.record.get(); op != 'E'; op = (char) replay.record.get()) {
            if (op == 'C') replay.call();
            else replay.slot(op);
        }
        if (replay.record.getLong() != replay.made) throw replay.wrong("the record says another number of calls");
        System.out.println(replay.made + " calls, every answer and byte as recorded");
    }
}
