package driver;

import java.io.BufferedReader;
import java.io.InputStreamReader;
import java.util.HashMap;
import java.util.Map;
import java.util.function.Function;

/** Answers lines of a package's name and words: the class Machine of that package does. */
public class Driver {
    @SuppressWarnings("unchecked")
    public static void main(String[] words) throws Exception {
        Map<String, Function<String, String>> machines = new HashMap<>();
        BufferedReader lines = new BufferedReader(new InputStreamReader(System.in));
        for (String line = lines.readLine(); line != null; line = lines.readLine()) {
            String[] parts = line.split(" ", 2);
            if (!machines.containsKey(parts[0])) {
                Class<?> machine = Class.forName(parts[0] + ".Machine");
                machines.put(parts[0], (Function<String, String>) machine.getDeclaredConstructor().newInstance());
            }
            System.out.println(machines.get(parts[0]).apply(parts[1]));
        }
    }
}
