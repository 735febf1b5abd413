package forms;

/** Fields of each type, with the references not at the end. */
class Record {
    Record next;
    short number;
    byte[] bytes;
    byte small;
    boolean is;
}
