package java.lang;

/** Its message can't be asked for here, so it isn't kept. */
public class IllegalStateException extends RuntimeException {
    public IllegalStateException() {
    }

    public IllegalStateException(String message) {
    }
}
