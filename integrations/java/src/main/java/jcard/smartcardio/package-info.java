/**
 * Cards of jcard for {@code javax.smartcardio}, without a reader and without pcscd.
 *
 * <p>The program answers at the other end of a pipe. It is the command that the system property {@code jcard.program} or the
 * environment variable {@code JCARD} names, or else {@code jcard} on the path.
 */
package jcard.smartcardio;
