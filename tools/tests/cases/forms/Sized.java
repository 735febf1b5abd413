package forms;

interface Sized {
    short UNIT = 10;

    short size();
}
