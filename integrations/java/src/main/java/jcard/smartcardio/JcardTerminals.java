package jcard.smartcardio;

import java.io.File;
import java.nio.file.Path;
import java.util.ArrayList;
import java.util.Collection;
import java.util.List;
import javax.smartcardio.CardException;
import javax.smartcardio.CardTerminal;
import javax.smartcardio.CardTerminals;
import javax.smartcardio.TerminalFactorySpi;

/** The terminals of a factory. Each has its card in it at all times. */
final class JcardTerminals extends CardTerminals {
    private final List<CardTerminal> terminals = new ArrayList<>();

    private JcardTerminals(List<CardSource> sources) {
        for (CardSource source : sources) {
            terminals.add(new JcardTerminal("jcard " + terminals.size() + ": " + source, source));
        }
    }

    @Override
    public List<CardTerminal> list(State state) throws CardException {
        switch (state) {
            case ALL:
            case CARD_PRESENT:
            case CARD_INSERTION:
                return List.copyOf(terminals);
            default:
                return List.of();
        }
    }

    @Override
    public boolean waitForChange(long timeout) throws CardException {
        JcardTerminal.sleep(timeout);
        return false;
    }

    /** What the provider names as its service; the security classes of Java make it. */
    public static final class Factory extends TerminalFactorySpi {
        private final JcardTerminals terminals;

        /**
         * The terminals of sources.
         *
         * @param parameters null for a new card, or one or a collection of: a {@link CardSource}; a {@link Path}, a {@link File} or
         *     a string, which name an image
         */
        public Factory(Object parameters) {
            List<CardSource> sources = new ArrayList<>();
            if (parameters instanceof Collection) {
                ((Collection<?>) parameters).forEach(each -> sources.add(source(each)));
            } else if (parameters != null) {
                sources.add(source(parameters));
            }
            terminals = new JcardTerminals(sources.isEmpty() ? List.of(CardSource.newCard()) : sources);
        }

        @Override
        protected CardTerminals engineTerminals() {
            return terminals;
        }

        private static CardSource source(Object named) {
            if (named instanceof CardSource) {
                return (CardSource) named;
            }
            if (named instanceof Path) {
                return CardSource.image((Path) named);
            }
            if (named instanceof File || named instanceof String) {
                return CardSource.image(Path.of(named.toString()));
            }
            throw new IllegalArgumentException("neither a card source nor a file: " + named);
        }
    }
}
