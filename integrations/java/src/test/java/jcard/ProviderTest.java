package jcard;

import static org.junit.jupiter.api.Assertions.assertArrayEquals;
import static org.junit.jupiter.api.Assertions.assertEquals;
import static org.junit.jupiter.api.Assertions.assertFalse;
import static org.junit.jupiter.api.Assertions.assertThrows;
import static org.junit.jupiter.api.Assertions.assertTrue;

import java.io.IOException;
import java.nio.ByteBuffer;
import java.nio.file.Files;
import java.nio.file.Path;
import java.security.Security;
import java.util.List;
import javax.smartcardio.Card;
import javax.smartcardio.CardChannel;
import javax.smartcardio.CardException;
import javax.smartcardio.CardTerminal;
import javax.smartcardio.CardTerminals;
import javax.smartcardio.CommandAPDU;
import javax.smartcardio.TerminalFactory;
import jcard.smartcardio.CardSource;
import jcard.smartcardio.JcardProvider;
import jcard.smartcardio.JcardTerminal;
import jcard.smartcardio.PowerCutException;
import jcard.smartcardio.Program;
import org.junit.jupiter.api.Test;
import org.junit.jupiter.api.io.TempDir;

/** The provider: its terminals, connections, channels and faults. */
class ProviderTest {
    private static final CommandAPDU MANAGER = new CommandAPDU(0, 0xA4, 4, 0, new byte[] {(byte) 0xF0, 'J', 'C', 'M', 'G', 'R'});

    @TempDir
    private Path folder;

    private Path image() throws IOException, InterruptedException {
        Path file = folder.resolve("card.img");
        assertEquals(0, new ProcessBuilder(Program.command(), "new", file.toString()).inheritIO().start().waitFor());
        return file;
    }

    @Test
    void isFoundByItsNameOnceItIsRegistered() throws Exception {
        Security.addProvider(new JcardProvider());
        try {
            TerminalFactory factory = TerminalFactory.getInstance("jcard", null);
            assertEquals("jcard", factory.getType());
            CardTerminal terminal = factory.terminals().list().get(0);
            assertEquals("jcard 0: new card", terminal.getName());
            assertEquals(0x9000, terminal.connect("*").getBasicChannel().transmit(MANAGER).getSW());
            ((JcardTerminal) terminal).close();
        } finally {
            Security.removeProvider("jcard");
        }
    }

    @Test
    void hasATerminalForEachSource() throws Exception {
        CardTerminals terminals = JcardProvider.factory(CardSource.newCard(), CardSource.newCard().words(4096)).terminals();
        assertEquals(2, terminals.list().size());
        assertEquals(2, terminals.list(CardTerminals.State.CARD_PRESENT).size());
        assertEquals(List.of(), terminals.list(CardTerminals.State.CARD_ABSENT));
        assertFalse(terminals.waitForChange(1));
        assertTrue(terminals.getTerminal("jcard 1: new card").isCardPresent());
    }

    @Test
    void takesTheNameOfAnImage() throws Exception {
        Path file = image();
        CardTerminals terminals = TerminalFactory.getInstance("jcard", file.toString(), new JcardProvider()).terminals();
        try (JcardTerminal terminal = (JcardTerminal) terminals.list().get(0)) {
            assertEquals("jcard 0: " + file, terminal.getName());
            assertEquals(0x9000, terminal.connect("T=1").getBasicChannel().transmit(MANAGER).getSW());
        }
        assertThrows(Exception.class, () -> TerminalFactory.getInstance("jcard", 7, new JcardProvider()));
    }

    @Test
    void hasTheImageWhileItIsOpen() throws Exception {
        Path file = image();
        try (JcardTerminal one = new JcardTerminal("one", CardSource.image(file)); JcardTerminal other = new JcardTerminal("other", CardSource.image(file))) {
            one.connect("*");
            String said = assertThrows(CardException.class, () -> other.connect("*")).getMessage();
            assertEquals("the program ended: jcard: image in use", said);
        }
    }

    @Test
    void leavesTheImageOfWhichItTakesACopy() throws Exception {
        Path file = image();
        byte[] before = Files.readAllBytes(file);
        try (JcardTerminal terminal = new JcardTerminal("copy", CardSource.copyOf(file))) {
            // code that runs leaves an image as it is; a load that is begun and dropped does not write either
            assertEquals(0x9000, terminal.connect("*").getBasicChannel().transmit(new CommandAPDU(0x80, 0xB0, 0, 0)).getSW());
        }
        assertArrayEquals(before, Files.readAllBytes(file));
        try (var files = Files.list(folder)) {
            assertEquals(1, files.count());
        }
    }

    @Test
    void connectsAsPcScDoes() throws Exception {
        try (JcardTerminal terminal = new JcardTerminal("new", CardSource.newCard())) {
            assertThrows(CardException.class, () -> terminal.connect("T=0"));
            Card card = terminal.connect("*");
            assertEquals("T=1", card.getProtocol());
            assertEquals(18, card.getATR().getBytes().length);
            assertArrayEquals(new byte[] {(byte) 0x80, 0x73, (byte) 0x80, 1, 0, 0x55, 'J', 'C', 'A', 'R', 'D'}, card.getATR().getHistoricalBytes());
            CardChannel channel = card.getBasicChannel();
            assertEquals(0, channel.getChannelNumber());
            assertThrows(CardException.class, card::openLogicalChannel);
            assertThrows(CardException.class, () -> card.transmitControlCommand(1, new byte[0]));
            assertTrue(terminal.connect("T=1") == card);
            // a load stays open over disconnect(false) and not over a reset
            assertEquals(0x9000, channel.transmit(new CommandAPDU(0x80, 0xB0, 0, 0)).getSW());
            card.disconnect(false);
            assertThrows(IllegalStateException.class, () -> channel.transmit(MANAGER));
            Card again = terminal.connect("*");
            assertEquals(0x9000, again.getBasicChannel().transmit(new CommandAPDU(0x80, 0xB2, 1, 0)).getSW());
            again.disconnect(true);
            assertEquals(0x6985, terminal.connect("*").getBasicChannel().transmit(new CommandAPDU(0x80, 0xB2, 1, 0)).getSW());
        }
    }

    @Test
    void answersIntoBuffers() throws Exception {
        try (JcardTerminal terminal = new JcardTerminal("new", CardSource.newCard())) {
            CardChannel channel = terminal.connect("*").getBasicChannel();
            ByteBuffer response = ByteBuffer.allocate(258);
            // sconst_5, sreturn
            assertEquals(4, channel.transmit(ByteBuffer.wrap(new byte[] {(byte) 0x80, 0x10, 1, 0, 2, 8, 0x78}), response));
            assertEquals(ByteBuffer.wrap(new byte[] {0, 5, (byte) 0x90, 0}), response.flip());
        }
    }

    @Test
    void keepsOtherThreadsOutWhereOneIsExclusive() throws Exception {
        try (JcardTerminal terminal = new JcardTerminal("new", CardSource.newCard())) {
            Card card = terminal.connect("*");
            card.beginExclusive();
            assertThrows(CardException.class, card::beginExclusive);
            Throwable[] thrown = new Throwable[1];
            Thread other = new Thread(() -> thrown[0] = assertThrows(CardException.class, () -> card.getBasicChannel().transmit(MANAGER)));
            other.start();
            other.join();
            assertEquals("another thread has exclusive access", thrown[0].getMessage());
            card.endExclusive();
            assertThrows(IllegalStateException.class, card::endExclusive);
        }
    }

    @Test
    void tellsWhyThereIsNoCard() {
        try (JcardTerminal terminal = new JcardTerminal("none", CardSource.image(folder.resolve("none.img")))) {
            String said = assertThrows(CardException.class, () -> terminal.connect("*")).getMessage();
            assertTrue(said.startsWith("the program ended: jcard: cannot read "), said);
        }
        assertThrows(IllegalStateException.class, () -> CardSource.image(folder).words(4096));
    }

    @Test
    void canBeCutAfterEachWrite() throws Exception {
        try (JcardTerminal terminal = new JcardTerminal("new", CardSource.newCard())) {
            Card card = terminal.connect("*");
            terminal.cutAfter(0);
            terminal.cutNever();
            assertEquals(0x9000, card.getBasicChannel().transmit(MANAGER).getSW());
            assertThrows(IllegalArgumentException.class, () -> terminal.cutAfter(65536));
        }
    }
}
