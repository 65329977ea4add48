package java.lang;

/** Its message can't be asked for here, so it isn't kept. */
public class StringIndexOutOfBoundsException extends IndexOutOfBoundsException {
    public StringIndexOutOfBoundsException() {
    }

    public StringIndexOutOfBoundsException(String message) {
    }

    public StringIndexOutOfBoundsException(int index) {
    }
}
