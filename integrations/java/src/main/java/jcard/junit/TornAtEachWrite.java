package jcard.junit;

import java.lang.annotation.Documented;
import java.lang.annotation.ElementType;
import java.lang.annotation.Retention;
import java.lang.annotation.RetentionPolicy;
import java.lang.annotation.Target;
import org.junit.jupiter.api.TestTemplate;
import org.junit.jupiter.api.extension.ExtendWith;
import org.junit.jupiter.api.parallel.Execution;
import org.junit.jupiter.api.parallel.ExecutionMode;

/**
 * A test that is repeated with the power cut after 0 word writes of one command, after 1, and so on, until the command is not cut.
 * Its class has {@link Card}, and its parameter is a {@link TornCard}, whose {@code tear} sends the command:
 *
 * <pre>{@code
 * @TornAtEachWrite
 * void debit(TornCard card) throws CardException {
 *     int before = balance(card);
 *     ResponseAPDU response = card.tear(DEBIT);
 *     card.select(PURSE);
 *     assertEquals(response == null ? before : before - 120, balance(card));
 * }
 * }</pre>
 */
@Documented
@Retention(RetentionPolicy.RUNTIME)
@Target(ElementType.METHOD)
@TestTemplate
@Execution(ExecutionMode.SAME_THREAD)
@ExtendWith(TornExtension.class)
public @interface TornAtEachWrite {
    /**
     * Whether the recovery after each cut is cut too, after each number of its own word writes.
     *
     * @return true makes more repetitions: some for each cut
     */
    boolean recovery() default false;
}
