import static java.nio.file.StandardCopyOption.REPLACE_EXISTING;

import java.io.BufferedReader;
import java.io.IOException;
import java.io.InputStreamReader;
import java.io.OutputStreamWriter;
import java.io.Writer;
import java.lang.ProcessBuilder.Redirect;
import java.nio.file.Files;
import java.nio.file.Path;
import java.util.HexFormat;
import javax.smartcardio.CardException;
import javax.smartcardio.CommandAPDU;
import javax.smartcardio.ResponseAPDU;

/** A card for tests: jcard at the other end of a pipe, over a copy of an image file. It begins powered up, with no applet selected. */
public final class Jcard implements AutoCloseable {
    private static final int NEVER = 65535; // word writes: more than a command makes
    private static final HexFormat HEX = HexFormat.of().withUpperCase();

    private final Path image;
    private final Process process;
    private final Writer lines;
    private final BufferedReader answers;

    public Jcard(Path program, Path original) throws IOException {
        image = Files.createTempFile("jcard", ".img");
        Files.copy(original, image, REPLACE_EXISTING);
        process = new ProcessBuilder(program.toString(), "run", image.toString(), "/dev/stdin").redirectError(Redirect.INHERIT).start();
        lines = new OutputStreamWriter(process.getOutputStream());
        answers = new BufferedReader(new InputStreamReader(process.getInputStream()));
    }

    /** The response to a command. A CardException where the card has no power, or loses it within the command. */
    public ResponseAPDU transmit(CommandAPDU command) throws CardException {
        ResponseAPDU response = ask(command);
        if (response == null) {
            throw new CardException("the card has no power");
        }
        return response;
    }

    /** Lets so many further word writes pass. The next one is refused, and the power is gone. */
    public void cutAfter(int writes) throws CardException {
        ask("stop " + writes);
    }

    /** Brings the power back, and resets the card. A CardException where the power is cut again within its recovery. */
    public void powerUp() throws CardException {
        if (!ask("reset").equals("ready")) {
            throw new CardException("the card lost its power as it powered up");
        }
    }

    /**
     * Cuts the power after so many word writes of a command, then each of some recoveries after so many of its own, and powers the card
     * up, with no applet selected. The response, where the command makes no more writes and so is not cut; else null.
     */
    public ResponseAPDU tear(int writes, CommandAPDU command, int... recoveries) throws CardException {
        cutAfter(writes);
        ResponseAPDU response = ask(command);
        for (int each : recoveries) {
            cutAfter(each);
            ask("reset");
        }
        cutAfter(NEVER);
        powerUp();
        return response;
    }

    private ResponseAPDU ask(CommandAPDU command) throws CardException {
        String answer = ask(HEX.formatHex(command.getBytes()));
        return answer.equals("down") ? null : new ResponseAPDU(HEX.parseHex(answer));
    }

    /** The program's answer to a line of a script. */
    private String ask(String line) throws CardException {
        try {
            lines.write(line + "\n");
            lines.flush();
            String answer = answers.readLine();
            if (answer != null && !answer.startsWith("jcard: ")) {
                return answer;
            }
            throw new CardException("the program ended: " + answer);
        } catch (IOException error) {
            throw new CardException("the program ended", error);
        }
    }

    @Override
    public void close() throws IOException {
        process.destroy();
        Files.delete(image);
    }
}
