package jcard.smartcardio;

import java.security.NoSuchAlgorithmException;
import java.security.Provider;
import java.util.List;
import javax.smartcardio.TerminalFactory;

/**
 * The provider of terminals of the type {@value #TYPE}:
 *
 * <pre>{@code
 * TerminalFactory factory = TerminalFactory.getInstance("jcard", CardSource.image(Path.of("card.img")), new JcardProvider());
 * CardTerminal terminal = factory.terminals().list().get(0);
 * }</pre>
 *
 * <p>Without its own argument the provider has to be registered: {@code Security.addProvider(new JcardProvider())}.
 */
public final class JcardProvider extends Provider {
    /** The type of the terminals. */
    public static final String TYPE = "jcard";

    private static final long serialVersionUID = 1;

    /** A provider with the one service. */
    public JcardProvider() {
        super("jcard", "1.0", "Java cards that jcard simulates");
        putService(new Service(this, "TerminalFactory", TYPE, JcardTerminals.Factory.class.getName(), null, null));
    }

    /**
     * The factory of terminals for cards, one for each source.
     *
     * @param sources the cards; without one there is a terminal with a new card
     * @return the factory
     * @throws NoSuchAlgorithmException never, since this provider has the type
     */
    public static TerminalFactory factory(CardSource... sources) throws NoSuchAlgorithmException {
        return TerminalFactory.getInstance(TYPE, List.of(sources), new JcardProvider());
    }
}
