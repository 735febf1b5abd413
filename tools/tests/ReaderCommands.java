import java.nio.file.Files;
import java.nio.file.Path;
import java.util.HexFormat;
import javax.smartcardio.Card;
import javax.smartcardio.CardException;
import javax.smartcardio.CommandAPDU;
import javax.smartcardio.TerminalFactory;

/** Sends the commands in the lines of a file by javax.smartcardio, and prints each response: java ReaderCommands.java READER FILE. */
public class ReaderCommands {
    public static void main(String[] words) throws Exception {
        Card card = TerminalFactory.getInstance("PC/SC", null).terminals().getTerminal(words[0]).connect("T=1");
        HexFormat hexadecimal = HexFormat.of().withUpperCase();
        for (String line : Files.readAllLines(Path.of(words[1]))) {
            CommandAPDU command = new CommandAPDU(hexadecimal.parseHex(line));
            try {
                System.out.println(hexadecimal.formatHex(card.getBasicChannel().transmit(command).getBytes()));
            } catch (CardException refused) {
                System.out.println(refused.getCause().getMessage());
            }
        }
        card.disconnect(false);
    }
}
