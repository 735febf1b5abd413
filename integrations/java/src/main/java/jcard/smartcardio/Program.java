package jcard.smartcardio;

import java.io.IOException;
import java.nio.file.Files;
import java.nio.file.Path;
import java.util.Arrays;
import java.util.Optional;

/** Where the program and its tools are. */
public final class Program {
    private Program() {
    }

    /**
     * The command of the program: what the system property {@code jcard.program} or the environment variable {@code JCARD} names,
     * or else {@code jcard}.
     *
     * @return a file, or a name that is looked for on the path
     */
    public static String command() {
        return named("jcard.program", "JCARD").orElse("jcard");
    }

    /**
     * The command of a tool, such as {@code applet}: what the system property {@code jcard.tools} or the environment variable
     * {@code JCARD_TOOLS} names has it; or else the folder {@code tools} beside the launcher; or else it is {@code jcard-applet} on the path.
     *
     * @param name the name of the tool
     * @return a file, or a name that is looked for on the path
     */
    public static String tool(String name) {
        Optional<String> folder = named("jcard.tools", "JCARD_TOOLS");
        if (folder.isPresent()) {
            return Path.of(folder.get(), name).toString();
        }
        Path beside = launcher().resolveSibling("tools").resolve(name);
        return Files.isExecutable(beside) ? beside.toString() : "jcard-" + name;
    }

    private static Path launcher() {
        Path command = Path.of(command());
        if (command.getNameCount() == 1 && !command.isAbsolute()) {
            command = Arrays.stream(Optional.ofNullable(System.getenv("PATH")).orElse("").split(":"))
                    .map(folder -> Path.of(folder, command()))
                    .filter(Files::isExecutable).findFirst().orElse(command);
        }
        try {
            return command.toRealPath();
        } catch (IOException none) {
            return command.toAbsolutePath();
        }
    }

    private static Optional<String> named(String property, String variable) {
        String value = System.getProperty(property);
        return Optional.ofNullable(value != null ? value : System.getenv(variable)).filter(text -> !text.isEmpty());
    }
}
