package java.lang;

/** Its message can't be asked for here, so it isn't kept. */
public class IllegalArgumentException extends RuntimeException {
    public IllegalArgumentException() {
    }

    public IllegalArgumentException(String message) {
    }
}
