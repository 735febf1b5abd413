package purse;

import static org.junit.jupiter.api.Assertions.assertEquals;

import javax.smartcardio.CardException;
import javax.smartcardio.ResponseAPDU;
import jcard.junit.Applet;
import jcard.junit.Card;
import jcard.junit.TornAtEachWrite;
import jcard.junit.TornCard;

/** Cuts of a transaction and of its recovery. */
@Card(words = 8192)
@Applet(source = "src/test/applets/counter", select = CounterTest.COUNTER)
class CounterTest {
    static final String COUNTER = "F0636F756E74657201";

    @TornAtEachWrite(recovery = true)
    void tornTransactionAndRecovery(TornCard card) throws CardException {
        assertEquals(0x9000, card.transmit("80010500").getSW());
        ResponseAPDU response = card.tear("80010700");
        assertEquals(0x9000, card.select(COUNTER).getSW());
        assertEquals(response == null ? 5 : 7, card.transmit("80000000").getData()[0]);
    }
}
