package jcard.smartcardio;

import static org.junit.jupiter.api.Assertions.assertEquals;
import static org.junit.jupiter.api.Assertions.assertTrue;

import java.nio.file.Path;
import java.util.List;
import org.junit.jupiter.api.Test;
import org.junit.jupiter.api.io.TempDir;

/** Long sessions. */
class CardProcessTest {
    private static final byte[] MANAGER = {0, (byte) 0xA4, 4, 0, 6, (byte) 0xF0, 'J', 'C', 'M', 'G', 'R'};

    @TempDir
    private Path folder;

    @Test
    void goesOnWithANewProgram() throws Exception {
        String image = folder.resolve("card.img").toString();
        assertEquals(0, new ProcessBuilder(Program.command(), "new", image).inheritIO().start().waitFor());
        try (CardProcess card = new CardProcess(List.of(Program.command(), "run", image, "/dev/stdin"), null, 40)) {
            card.transmit(MANAGER);
            card.transmit(MANAGER);
            assertTrue(card.told() > 40);
            card.cutAfter(0);
            assertTrue(card.powerUp());
            assertTrue(card.told() > 40, "a cut to come stays");
            card.cutNever();
            assertTrue(card.powerUp());
            assertEquals("reset\n".length(), card.told());
            assertEquals(2, card.transmit(MANAGER).length);
        }
    }

    @Test
    void staysWithANewCardInMemory() throws Exception {
        try (CardProcess card = new CardProcess(List.of(Program.command(), "try", "/dev/stdin"), null, 0)) {
            card.transmit(MANAGER);
            long told = card.told();
            assertTrue(card.powerUp());
            assertTrue(card.told() > told);
        }
    }
}
