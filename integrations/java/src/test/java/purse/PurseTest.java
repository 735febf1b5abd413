package purse;

import static org.junit.jupiter.api.Assertions.assertEquals;
import static org.junit.jupiter.api.Assertions.assertThrows;

import javax.smartcardio.CardChannel;
import javax.smartcardio.CardException;
import javax.smartcardio.CardTerminal;
import javax.smartcardio.CommandAPDU;
import javax.smartcardio.ResponseAPDU;
import jcard.junit.Applet;
import jcard.junit.Card;
import jcard.junit.TestCard;
import jcard.junit.TornAtEachWrite;
import jcard.junit.TornCard;
import jcard.smartcardio.PowerCutException;
import org.junit.jupiter.api.Test;

/** Tests of the purse in examples/purse. */
@Card
@Applet(source = "../../examples/purse/Purse.java", select = PurseTest.PURSE)
class PurseTest {
    static final String PURSE = "F0707572736501";
    private static final CommandAPDU DEBIT = new CommandAPDU(0x80, 0x40, 0, 0, new byte[] {0, 120});
    private static final String BEFORE = "500 after 1 changes, the last one 500 to 500";
    private static final String AFTER = "380 after 2 changes, the last one -120 to 380";

    @Test
    void debit(TestCard card) throws CardException {
        credit(card);
        assertEquals(BEFORE, state(card));
        assertEquals(0x9000, card.transmit(DEBIT).getSW());
        assertEquals(AFTER, state(card));
    }

    @Test
    void beginsWithoutMoneyEachTime(CardChannel channel) throws CardException {
        assertEquals("00000000", hexadecimal(channel.transmit(new CommandAPDU(0x80, 0x50, 0, 0))));
    }

    @Test
    void isCutByTheTerminal(CardTerminal terminal) throws CardException {
        CardChannel channel = terminal.connect("*").getBasicChannel();
        assertEquals(0x9000, channel.transmit(new CommandAPDU(0xFF, 0x53, 0, 0)).getSW());
        CommandAPDU verify = new CommandAPDU(0x80, 0x20, 0, 0, new byte[] {'1', '2', '3', '4'});
        assertThrows(PowerCutException.class, () -> channel.transmit(verify));
    }

    @TornAtEachWrite
    void tornDebit(TornCard card) throws CardException {
        credit(card);
        ResponseAPDU response = card.tear(DEBIT);
        assertEquals(0x9000, card.select(PURSE).getSW());
        assertEquals(response == null ? BEFORE : AFTER, state(card));
    }

    /** Tells the PIN of the purse, and puts 500 into it. */
    private static void credit(TestCard card) throws CardException {
        assertEquals(0x9000, card.transmit("80200000 04 31323334").getSW());
        assertEquals(0x9000, card.transmit("80300000 02 01F4").getSW());
    }

    /** The balance, the number of changes, and the newest line of the log. */
    private static String state(TestCard card) throws CardException {
        byte[] balance = card.transmit("80500000").getData();
        byte[] line = card.transmit("80600000").getData();
        return String.format("%d after %d changes, the last one %d to %d", at(balance, 0), at(balance, 2), at(line, 0), at(line, 2));
    }

    private static short at(byte[] data, int place) {
        return (short) (data[place] << 8 | data[place + 1] & 0xFF);
    }

    private static String hexadecimal(ResponseAPDU response) {
        return java.util.HexFormat.of().formatHex(response.getData());
    }
}
