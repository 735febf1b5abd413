package forms;

/** What has several forms on a card, and what random Java does not write. Each number of a test answers a short. */
class Forms {
    static byte[] bytes = {1, -2, 3};
    static short[] shorts = {300, -300};
    static boolean[] flags = {true, false};
    static final byte[] EMPTY = {};
    static byte small = -7;
    static short large = 30000;
    static boolean flag = true;
    static short zero;
    static byte[] none;
    static final short CONSTANT = -12345;

    private short number = 11;
    private byte[] kept;

    private short hidden(short value) {
        return (short) (value + number);
    }

    /** A class of its own, which uses private members of the one around it. */
    static class Inside {
        private short own = 4;

        private short both(Forms around) {
            return (short) (around.hidden(own) + around.number);
        }
    }

    /** A class whose objects have one around them. */
    class Bound {
        short twice() {
            number = (short) (number * 2);
            return hidden(number);
        }
    }

    short run(byte which, short a) {
        switch (which) {
            case 0:
                return statics();
            case 1:
                return new Inside().both(this);
            case 2:
                return (short) (new Bound().twice() + bound(a));
            case 3:
                return (short) (farBranch(a) + compared(a));
            case 4:
                return counting(a);
            case 5:
                return order(a);
            case 6:
                return endings(a);
            case 7:
                return arrays(a);
            case 8:
                return types();
            case 9:
                return Shapes.run(a);
            case 10:
                return manyVariables(a);
            case 11:
                return fields(a);
            default:
                return switches(which, a);
        }
    }

    /** Names an object that may be null, and uses nothing of it. */
    private short bound(short a) {
        Forms around = a > 0 ? this : null;
        try {
            return around.new Bound().twice();
        } catch (NullPointerException e) {
            return -1;
        }
    }

    private short statics() {
        short sum = (short) (bytes[0] + bytes[1] + bytes[2] + shorts[0] + shorts[1] + EMPTY.length);
        if (flags[0] && !flags[1] && flag && none == null) {
            sum += small + large + zero + CONSTANT;
        }
        bytes[1]++;
        small--;
        large -= 1000;
        flag = !flag;
        none = bytes;
        zero = (short) none.length;
        return sum;
    }

    /** A loop whose branches do not reach with one byte. */
    private short farBranch(short a) {
        short sum = 0;
        for (short count = 0; count < 3; count++) {
            if ((short) (a + count) > 0) {
                sum = (short) (sum * 3 + a);
                sum = (short) (sum ^ 0x1234);
                sum = (short) (sum - count * 1000);
                sum = (short) (sum * 3 + a);
                sum = (short) (sum ^ 0x4321);
                sum = (short) (sum - count * 2000);
                sum = (short) (sum * 3 + a);
                sum = (short) (sum ^ 0x1234);
                sum = (short) (sum - count * 3000);
                sum = (short) (sum * 3 + a);
                sum = (short) (sum ^ 0x4321);
                sum = (short) (sum - count * 4000);
                if (sum == 17) {
                    continue;
                }
            } else {
                sum += 1000;
            }
            sum = (short) (sum + (sum >> 3 & 0x0F0F));
        }
        return sum;
    }

    /** Intermediate values that stay within 16 bits, since a comparison says so. */
    private short compared(short a) {
        if (a > 0) {
            return (short) ((a - 32767) / 2);
        }
        if (a == -1) {
            return (short) ((a - 32767) / 3);
        }
        if (!(a >= 0)) {
            return (short) ((a + 32767) / 5);
        }
        return (short) ((a + 32767) / 7);
    }

    private short counting(short a) {
        short x = a;
        byte y = (byte) a;
        x++;
        x += 1000;
        x -= 1000;
        x += -129;
        ++x;
        x -= -32768;
        x = (short) (x + 127);
        x = (short) (x - -128);
        x = (short) (x * 100000 + 1000000);
        y++;
        y += 100;
        short before = x++;
        short behind = ++x;
        behind = (short) ((a > 3 ? x : behind) + 1);
        before = (short) ((a > 3 ? before : x) - 1);
        return (short) (before * 7 + behind * 3 + x + y--);
    }

    private short order(short a) {
        short[] values = {1, 2, 3};
        short at = 0;
        values[at++] += at++;
        values[at] = at = 1;
        values[at] <<= at += a & 1;
        kept = new byte[2];
        kept[0] = kept[1] = (byte) a;
        kept[1] += kept[0]++ + number++ + --number;
        return (short) (values[0] * 100 + values[1] * 10 + values[2] + kept[0] + kept[1]);
    }

    private short endings(short a) {
        short sum = 1;
        for (short count = 0; count < 4; count++) {
            try {
                try {
                    sum += (short) (1000 / (short) (a - count));
                    if (count == 2) {
                        continue;
                    }
                    bytes[(short) (a + count)] = 5;
                } catch (ArithmeticException e) {
                    sum += 3;
                    throw new NullPointerException();
                } finally {
                    sum *= 2;
                }
            } catch (ArrayIndexOutOfBoundsException e) {
                sum += 7;
            } catch (NullPointerException | ClassCastException e) {
                sum += 9;
            }
        }
        return sum;
    }

    private short arrays(short a) {
        Object[] things = new Object[3];
        things[0] = this;
        things[1] = new short[] {a, 2};
        boolean[] bits = new boolean[2];
        bits[1] = a > 0;
        short[] row = (short[]) things[1];
        short sum = (short) (row[0] + row.length + things.length + (bits[1] ? 50 : 20));
        for (short each : row) {
            for (boolean bit : bits) {
                sum += bit ? each : 1;
            }
        }
        for (Object thing : things) {
            if (thing == null) {
                continue;
            }
            sum++;
        }
        try {
            Shape[] shapes = new Square[1];
            Object[] any = shapes;
            any[0] = things[0];
        } catch (ArrayStoreException e) {
            sum += 100;
        }
        try {
            sum += ((byte[]) things[1]).length;
        } catch (ClassCastException e) {
            sum += 200;
        }
        try {
            sum += new byte[a < 0 ? a : 1].length;
        } catch (NegativeArraySizeException e) {
            sum += 400;
        }
        return sum;
    }

    private short types() {
        Object[] things = {this, new byte[1], new short[1], new boolean[1], new Square[1], new Square((short) 2), null};
        short sum = 0;
        for (byte at = 0; at < things.length; at++) {
            sum <<= 1;
            Object thing = things[at];
            if (thing instanceof Forms) {
                sum += 1;
            } else if (thing instanceof byte[]) {
                sum += 3;
            } else if (thing instanceof short[]) {
                sum += 5;
            } else if (thing instanceof boolean[]) {
                sum += 7;
            } else if (thing instanceof Shape[]) {
                sum += 9;
            } else if (thing instanceof Sized && thing.equals(thing)) {
                sum += ((Sized) thing).size();
            }
        }
        return sum;
    }

    private short manyVariables(short a) {
        short b = a, c = b, d = c, e = d, f = e, g = f, h = g, i = h, j = i, k = j, l = k, m = l, n = m, o = n, p = o, q = p;
        b++;
        g += 5;
        q -= 200;
        Object r = this, s = r, t = s;
        return t == r ? (short) (a + b + c + d + e + f + g + h + i + j + k + l + m + n + o + p + q) : 0;
    }

    private short fields(short a) {
        Record record = new Record();
        record.number = a;
        record.small = (byte) a;
        record.is = a > 5;
        record.next = record;
        record.next.next.number += 3;
        record.next.small *= 2;
        record.is |= record.next == record;
        return (short) (record.number + record.small + (record.is ? 1 : 0));
    }

    private short switches(byte which, short a) {
        short sum = 0;
        switch (a) {
            case -32768:
                sum = 1;
                break;
            case 32767:
                sum = 2;
            case 100:
                sum += 4;
                break;
            case -1:
                sum = 8;
                break;
        }
        switch (which) {
            case 12:
                sum += 16;
            case 13:
                sum += 32;
                break;
            case 16:
                sum += 64;
                break;
            default:
                sum += 128;
        }
        switch (a) {
            default:
                sum += 256;
        }
        return sum;
    }
}
