package java.lang;

/** Length and characters. The array is private, never handed out and written only while it is made, so nobody can tell where it came from. */
public final class String {
    private final char[] value;

    public String() {
        value = new char[0];
    }

    public String(char[] characters) {
        char[] copy = new char[characters.length];
        for (int at = 0; at < copy.length; at++) {
            copy[at] = characters[at];
        }
        value = copy;
    }

    public int length() {
        return value.length;
    }

    public boolean isEmpty() {
        return value.length == 0;
    }

    public char charAt(int index) {
        if (index < 0 || index >= value.length) {
            throw new StringIndexOutOfBoundsException(index);
        }
        return value[index];
    }
}
