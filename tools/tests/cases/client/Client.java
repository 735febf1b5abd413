package client;

import library.Account;
import library.Countable;
import library.Trouble;

/** Uses a library. */
class Client {
    static class Savings extends Account {
        short calls;

        Savings(short first) {
            super(first);
            owner = this;
        }

        protected short bounded(short amount) {
            calls++;
            if (amount < 0) {
                throw new Trouble(amount);
            }
            return amount > LIMIT ? LIMIT : amount;
        }

        /** Has the name of a method of the library's package, and does not override it. */
        short ofThePackage() {
            return 3;
        }

        public short count() {
            return (short) (calls + reached());
        }

        public short add(short amount) {
            return (short) (super.add(amount) + 1);
        }
    }

    short run(byte which, short a) {
        Savings savings = new Savings((short) 7);
        Countable countable = savings;
        try {
            savings.add(a);
            savings.add((short) 600);
        } catch (Trouble trouble) {
            return (short) (trouble.reason + countable.count());
        }
        switch (which) {
            case 0:
                return savings.all();
            case 1:
                return (short) (savings.ofThePackage() + Account.interest(a) + savings.hidden());
            case 2:
                Account.rate += 2;
                Account.opened += 5;
                return (short) (Account.opened + Account.rate + countable.count());
            default:
                return savings.add((short) 1);
        }
    }
}
