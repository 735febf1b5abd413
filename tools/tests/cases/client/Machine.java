package client;

import java.util.function.Function;

/** Asks on a Java virtual machine, and answers as a card would. */
public class Machine implements Function<String, String> {
    private final Client core = new Client();

    public String apply(String line) {
        String[] words = line.split(" ");
        short result = core.run(Byte.parseByte(words[0]), Short.parseShort(words[1]));
        return String.format("%04X9000", result & 0xFFFF);
    }
}
