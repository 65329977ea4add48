package java.lang;

/** Its message can't be asked for here, so it isn't kept. */
public class UnsupportedOperationException extends RuntimeException {
    public UnsupportedOperationException() {
    }

    public UnsupportedOperationException(String message) {
    }
}
