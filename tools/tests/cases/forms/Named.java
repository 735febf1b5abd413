package forms;

interface Named extends Sized {
    byte name();
}
