class Late extends Exception {
    int after;

    Late(int after) {
        this.after = after;
    }
}

/** Calls and exceptions. */
class Devices {
    static int read(int status, int tries) throws Late {
        if ((status & 7) == 0) {
            throw new Late(tries);
        }
        return status & 7;
    }

    //@ T retry F 1..5
    static int retry(int status, int most) {
        int fails = 0;
        while (true) {
            try {
                return read(status, fails);
            } catch (Late late) {
                if (++fails >= most) {
                    return -late.after;
                }
                status >>>= 1;
            }
        }
    }

    //@ N retryForEver | a status of 0
    static int retryForEver(int status) {
        while (true) {
            try {
                return read(status, 0);
            } catch (Late late) {
                status >>>= 1;
            }
        }
    }
}
