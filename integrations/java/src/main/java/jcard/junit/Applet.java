package jcard.junit;

import java.lang.annotation.Documented;
import java.lang.annotation.ElementType;
import java.lang.annotation.Inherited;
import java.lang.annotation.Repeatable;
import java.lang.annotation.Retention;
import java.lang.annotation.RetentionPolicy;
import java.lang.annotation.Target;

/** What is brought onto the card of {@link Card} before the tests of a class: applets in Java source, or a script that loads them. */
@Documented
@Inherited
@Retention(RetentionPolicy.RUNTIME)
@Target(ElementType.TYPE)
@Repeatable(Applets.class)
public @interface Applet {
    /**
     * Java files, or folders of them: the tool {@code applet} of jcard compiles, converts, loads and installs them.
     *
     * @return their names, from the folder in which the tests run
     */
    String[] source() default {};

    /**
     * A script whose commands are all answered 9000, as the tools {@code applet --load} and {@code cap2script} write it.
     *
     * @return its name
     */
    String load() default "";

    /**
     * Further words for the tool {@code applet}, such as {@code --aid} and {@code --data}.
     *
     * @return the words
     */
    String[] options() default {};

    /**
     * The AID of the applet that is selected before each test.
     *
     * @return hexadecimal digits; without any none is selected
     */
    String select() default "";
}
