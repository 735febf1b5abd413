package jcard.junit;

import java.util.HexFormat;
import javax.smartcardio.CardChannel;
import javax.smartcardio.CardException;
import javax.smartcardio.CommandAPDU;
import javax.smartcardio.ResponseAPDU;
import jcard.smartcardio.JcardTerminal;

/** The card of one test. It is powered up, and an applet is selected where {@link Applet#select} says so. */
public class TestCard {
    private final JcardTerminal terminal;
    private javax.smartcardio.Card card;

    TestCard(JcardTerminal terminal) throws CardException {
        this.terminal = terminal;
        card = terminal.connect("T=1");
    }

    /**
     * The response to a command.
     *
     * @param command the command
     * @return the response
     * @throws CardException where the card has no power, or loses it within the command
     */
    public ResponseAPDU transmit(CommandAPDU command) throws CardException {
        return channel().transmit(command);
    }

    /**
     * The response to a command in hexadecimal digits.
     *
     * @param command the digits; spaces may stand anywhere
     * @return the response
     * @throws CardException where the card has no power, or loses it within the command
     */
    public ResponseAPDU transmit(String command) throws CardException {
        return transmit(new CommandAPDU(bytes(command)));
    }

    /**
     * Selects an applet by its AID.
     *
     * @param aid its hexadecimal digits
     * @return the response
     * @throws CardException where the card has no power, or loses it within the command
     */
    public ResponseAPDU select(String aid) throws CardException {
        return transmit(new CommandAPDU(0x00, 0xA4, 0x04, 0x00, bytes(aid)));
    }

    /**
     * Lets this many further word writes pass. The next one is refused, and the power is gone.
     *
     * @param writes 0 to 65535
     * @throws CardException where the program ended
     */
    public void cutAfter(int writes) throws CardException {
        terminal.cutAfter(writes);
    }

    /**
     * Cuts the power and brings it back: the card recovers, and no applet is selected.
     *
     * @throws CardException where the recovery is cut
     */
    public void powerUp() throws CardException {
        card.disconnect(true);
        card = terminal.connect("T=1");
    }

    /**
     * The channel to the card as it is connected now.
     *
     * @return the basic channel
     */
    public CardChannel channel() {
        return card.getBasicChannel();
    }

    /**
     * The terminal that has the card.
     *
     * @return the terminal, which is closed as the test ends
     */
    public JcardTerminal terminal() {
        return terminal;
    }

    private static byte[] bytes(String digits) {
        return HexFormat.of().parseHex(digits.replace(" ", ""));
    }
}
