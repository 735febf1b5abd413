package jcard.junit;

import java.util.HexFormat;
import javax.smartcardio.CardException;
import javax.smartcardio.CommandAPDU;
import javax.smartcardio.ResponseAPDU;
import jcard.smartcardio.JcardTerminal;
import jcard.smartcardio.PowerCutException;

/** The card of one repetition of a {@link TornAtEachWrite}. */
public final class TornCard extends TestCard {
    private final Sweep sweep;

    TornCard(JcardTerminal terminal, Sweep sweep) throws CardException {
        super(terminal);
        this.sweep = sweep;
    }

    /**
     * Sends the command that is cut in this repetition, and powers the card up: no applet is selected then. A test does it once.
     *
     * @param command the command
     * @return the response; null where the power was cut within the command
     * @throws CardException where the program ended
     */
    public ResponseAPDU tear(CommandAPDU command) throws CardException {
        if (sweep.isTorn()) {
            throw new IllegalStateException("a repetition cuts one command");
        }
        cutAfter(sweep.writes());
        ResponseAPDU response;
        try {
            response = transmit(command);
        } catch (PowerCutException cut) {
            response = null;
        }
        boolean isRecoveryCut = false;
        if (response == null && sweep.cutsRecoveries()) {
            cutAfter(sweep.writesOfRecovery());
            isRecoveryCut = !isPoweredUp();
        }
        terminal().cutNever();
        powerUp();
        sweep.told(response == null, isRecoveryCut);
        return response;
    }

    /**
     * The same for a command in hexadecimal digits.
     *
     * @param command the digits; spaces may stand anywhere
     * @return the response; null where the power was cut within the command
     * @throws CardException where the program ended
     */
    public ResponseAPDU tear(String command) throws CardException {
        return tear(new CommandAPDU(HexFormat.of().parseHex(command.replace(" ", ""))));
    }

    /**
     * The word writes that pass before the cut of this repetition.
     *
     * @return from 0 on
     */
    public int writes() {
        return sweep.writes();
    }

    private boolean isPoweredUp() throws CardException {
        try {
            powerUp();
            return true;
        } catch (PowerCutException cut) {
            return false;
        }
    }
}
