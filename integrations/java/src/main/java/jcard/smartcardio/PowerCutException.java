package jcard.smartcardio;

import javax.smartcardio.CardException;

/** The card has no power, or lost it within a command or as it powered up. */
public final class PowerCutException extends CardException {
    private static final long serialVersionUID = 1;

    PowerCutException(String message) {
        super(message);
    }
}
