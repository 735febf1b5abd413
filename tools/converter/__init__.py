"""The parts of tools/convert, tools/applet, tools/exp2table and tools/cap2script.

class_file reads class files, and bytecode the instructions of a method. walk follows the values through a method, and arithmetic
tells what becomes of an int. translation makes the card's instructions, in forms that style chooses, and code lays them out.

library tells what is known of packages and classes; platform reads those of a platform table, export_file those of export files,
and writes such a file. package gives tokens to the classes of one package and finds what its code names, statics makes its static
fields, components its components, cap_file the archive. conversion is the whole way from class files, and compiling is javac's part.

card_components reads the components of a CAP file as the card reads them, card_check tells what a card would refuse, and method_map
where methods stand, in lines of map_lines.

assembly makes the bytes of components from listings, and has the instructions' mnemonics. refusal says why something is refused, words reads
words of a command line. stubs are Java sources of the API."""
