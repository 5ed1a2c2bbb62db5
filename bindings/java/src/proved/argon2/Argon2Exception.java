package proved.argon2;

import java.io.Serial;
import java.util.Arrays;

/** A call failed. Nothing was hashed or compared: never let a user in after this exception. */
public final class Argon2Exception extends RuntimeException {
    /** Why a call failed. */
    public enum Reason {
        /** Output is too short. */ OUTPUT_TOO_SHORT(1),
        /** Output is too long. */ OUTPUT_TOO_LONG(2),
        /** Password is too short. */ PWD_TOO_SHORT(3),
        /** Password is too long. */ PWD_TOO_LONG(4),
        /** Salt is too short. */ SALT_TOO_SHORT(5),
        /** Salt is too long. */ SALT_TOO_LONG(6),
        /** Associated data is too short. */ AD_TOO_SHORT(7),
        /** Associated data is too long. */ AD_TOO_LONG(8),
        /** Secret is too short. */ SECRET_TOO_SHORT(9),
        /** Secret is too long. */ SECRET_TOO_LONG(10),
        /** Time cost is too small. */ TIME_TOO_SMALL(11),
        /** Time cost is too large. */ TIME_TOO_LARGE(12),
        /** Memory cost is too small. */ MEMORY_TOO_LITTLE(13),
        /** Memory cost is too large. */ MEMORY_TOO_MUCH(14),
        /** Too few lanes. */ LANES_TOO_FEW(15),
        /** Too many lanes. */ LANES_TOO_MANY(16),
        /** There is no such type of Argon2. */ INCORRECT_TYPE(17),
        /** There is no such version of Argon2. */ INCORRECT_VERSION(18),
        /** Decoding failed. */ DECODING_FAIL(19),
        /** Out of memory. */ OUT_OF_MEMORY(20),
        /** A worker was refused. */ WORKER_REFUSED(21),
        /** The encoded hash is above the limits. */
        TOO_COSTLY(69),
        /** The caller of {@link HashQueue#run} was interrupted, or the queue was closed. */
        STOPPED(130),
        /** The library has no build for this processor. */
        OLD_PROCESSOR(131),
        /** A queue has no place, or the system denied its first thread: try later. Or the queue is closed. */
        BUSY("The queue has no place, no thread, or is closed"),
        /** There is no pepper with the ID of a stored hash, or the stored hash has no pepper. */
        UNKNOWN_PEPPER("There is no pepper with this ID"),
        /** There is no pepper, a key is empty, an ID is null, or two peppers have the same ID. */
        INVALID_PEPPERS("There are no peppers, one is empty, or two have the same ID"),
        /** The password has half of a surrogate pair, which has no UTF-8. */
        NOT_UNICODE("The password has half of a surrogate pair"),
        /** The library returned a number that it never returns to these calls. The message contains it. */
        UNEXPECTED("The library returned a number that it never returns to these calls");

        /** The library's number for a string with a byte above 127. Such a string is no encoded hash. */
        private static final int NOT_ASCII = 66;
        private static final int NONE = 0;

        /** The library's number, or 0. */
        private final int number;
        /** The message, if the library has none. */
        private final String message;

        Reason(int number) {
            this.number = number;
            this.message = null;
        }

        Reason(String message) {
            this.number = NONE;
            this.message = message;
        }

        private static Reason of(int returned) {
            int number = returned == NOT_ASCII ? DECODING_FAIL.number : returned;
            return Arrays.stream(values()).filter(reason -> reason.number == number && number != NONE).findAny()
                .orElse(UNEXPECTED);
        }

        private String message() {
            return message == null ? Native.message(number) : message;
        }
    }

    @Serial
    private static final long serialVersionUID = 1;

    /** Why the call failed. */
    private final Reason reason;

    Argon2Exception(Reason reason) {
        super(reason.message());
        this.reason = reason;
    }

    private Argon2Exception(Reason reason, String message) {
        super(message);
        this.reason = reason;
    }

    /** {@return why the call failed} */
    public Reason reason() {
        return reason;
    }

    /** The exception for a number that the library returned. */
    static Argon2Exception of(int number) {
        Reason reason = Reason.of(number);
        return reason == Reason.UNEXPECTED
            ? new Argon2Exception(reason, reason.message() + ": " + Integer.toUnsignedString(number))
            : new Argon2Exception(reason);
    }

    /** Throws an exception unless a condition holds. */
    static void require(boolean holds, Reason reason) {
        if (!holds) {
            throw new Argon2Exception(reason);
        }
    }
}
