/**
 * Tests of applets by JUnit 5: {@link jcard.junit.Card} and {@link jcard.junit.Applet} say what is on the card, each test gets a
 * card of its own as its argument, and {@link jcard.junit.TornAtEachWrite} repeats a test for each word write of a command.
 */
package jcard.junit;
