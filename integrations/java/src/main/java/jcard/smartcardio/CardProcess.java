package jcard.smartcardio;

import java.io.BufferedReader;
import java.io.IOException;
import java.io.InputStreamReader;
import java.io.OutputStreamWriter;
import java.io.Writer;
import java.lang.ProcessBuilder.Redirect;
import java.nio.charset.StandardCharsets;
import java.nio.file.Files;
import java.nio.file.Path;
import java.util.HexFormat;
import java.util.List;
import javax.smartcardio.CardException;

/** The program at the other end of a pipe: it is told lines of a script, and answers each by a line. */
final class CardProcess implements AutoCloseable {
    private static final HexFormat HEX = HexFormat.of().withUpperCase();
    /** More word writes than a command makes. */
    static final int NEVER = 65535;
    /** The bytes of lines that one program reads, but for the longest of lines. */
    private static final long MOST_TOLD = 16_777_216 - 262_144;
    /** The bytes of lines after which a power up is by a new program. */
    private static final long RENEWAL = 8_388_608;

    private enum Armed { NOTHING, CUT, NEVER }

    private final List<String> line;
    private final Path temporary;
    private final long renewal;
    private Process process;
    private Writer lines;
    private BufferedReader answers;
    private long told;
    private boolean isUp;
    private Armed armed;

    CardProcess(List<String> line, Path temporary) throws IOException {
        this(line, temporary, RENEWAL);
    }

    /** The same, with a number of bytes of lines after which a power up is by a new program. */
    CardProcess(List<String> line, Path temporary, long renewal) throws IOException {
        this.line = List.copyOf(line);
        this.temporary = temporary;
        this.renewal = renewal;
        if (temporary != null) {
            temporary.toFile().deleteOnExit();
        }
        start();
    }

    /** Begins the program, which powers the card up. */
    private void start() throws IOException {
        told = 0;
        isUp = true;
        armed = Armed.NOTHING;
        process = new ProcessBuilder(line).redirectError(Redirect.INHERIT).start();
        lines = new OutputStreamWriter(process.getOutputStream(), StandardCharsets.US_ASCII);
        answers = new BufferedReader(new InputStreamReader(process.getInputStream(), StandardCharsets.US_ASCII));
    }

    /** Ends the program. */
    private void stop() throws InterruptedException {
        try {
            lines.close();
        } catch (IOException ended) {
            // there is nobody left to tell
        }
        process.waitFor();
    }

    /** The response to a command; null where the card has no power, or loses it within the command. */
    byte[] transmit(byte[] command) throws CardException {
        rearm();
        String answer = ask(command.length == 0 ? " " : HEX.formatHex(command));
        if (answer.equals("down")) {
            losePower();
            return null;
        }
        return HEX.parseHex(answer);
    }

    /** Lets this many further word writes pass. The next one is refused, and the power is gone. */
    void cutAfter(int writes) throws CardException {
        ask("stop " + writes);
        armed = Armed.CUT;
    }

    /** Lets all further word writes pass: more than a command makes, each time. */
    void cutNever() throws CardException {
        cutAfter(NEVER);
        armed = Armed.NEVER;
    }

    /** Brings the power back, and resets the card: whether it powered up, and was not cut as it did. */
    boolean powerUp() throws CardException {
        if (told > renewal && line.get(1).equals("run") && armed != Armed.CUT) {
            renew();
        }
        rearm();
        isUp = true;
        if (!ask("reset").equals("ready")) {
            losePower();
        }
        return isUp;
    }

    /** Goes on with a new program on the same image. */
    private void renew() throws CardException {
        try {
            stop();
            start();
        } catch (IOException error) {
            throw new CardException("the program cannot be begun", error);
        } catch (InterruptedException interrupted) {
            Thread.currentThread().interrupt();
            throw new CardException("interrupted", interrupted);
        }
    }

    private void rearm() throws CardException {
        if (armed == Armed.NEVER) {
            cutNever();
        }
    }

    /** Notes that the card is down, and that a cut is used up where it was up before. */
    private void losePower() {
        if (isUp) {
            isUp = false;
            armed = Armed.NOTHING;
        }
    }

    /** The bytes of lines that the program was told. */
    long told() {
        return told;
    }

    private synchronized String ask(String line) throws CardException {
        told += line.length() + 1;
        if (told > MOST_TOLD) {
            throw new CardException("the session is as long as a script may be; close the terminal, and open another one");
        }
        String answer;
        try {
            lines.write(line + "\n");
            lines.flush();
        } catch (IOException ended) {
            // the program said why
        }
        try {
            answer = answers.readLine();
        } catch (IOException error) {
            throw new CardException("the program cannot be read", error);
        }
        if (answer == null || answer.startsWith("jcard: ")) {
            throw new CardException("the program ended: " + (answer == null ? "it said nothing" : answer));
        }
        return answer;
    }

    @Override
    public void close() {
        try {
            stop();
            if (temporary != null) {
                Files.deleteIfExists(temporary);
            }
        } catch (InterruptedException interrupted) {
            process.destroy();
            Thread.currentThread().interrupt();
        } catch (IOException gone) {
            // the system removes it as this machine ends
        }
    }
}
