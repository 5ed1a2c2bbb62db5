import java.nio.charset.StandardCharsets;
import java.util.Optional;
import proved.argon2.Argon2Exception;
import proved.argon2.HashQueue;
import proved.argon2.PasswordHasher;
import proved.argon2.Verdict;

/** The logins of a service, as docs/USE.md describes them. The environment variable PEPPER is a secret key. */
final class LogIn {
    /** The longest password, in characters. */
    private static final int LONGEST = 1024;

    private final PasswordHasher hasher =
        new PasswordHasher().withPepper(System.getenv("PEPPER").getBytes(StandardCharsets.UTF_8));
    /** Two logins compute at a time, and 64 wait. */
    private final HashQueue queue = new HashQueue(2, 64);

    /** Let the user in; or the user or the password is wrong (HTTP status 401); or try again later (503). */
    enum Answer { ACCEPTED, REJECTED, TRY_LATER }

    /**
     * What to answer, and what to store for the user from now on. Replace the stored hash only if it is still the one
     * that was passed: a login may take long, and the user may have changed the password meanwhile.
     */
    record Result(Answer answer, String stored) {}

    /**
     * Logs in a user. If there is no such user, {@code stored} is null. If your server sees that the client left (that of
     * {@code com.sun.net.httpserver} cannot), interrupt the thread.
     */
    Result logIn(String user, String stored, char[] password) {
        if (password.length > LONGEST) {
            return log("too long a password", user, new Result(Answer.REJECTED, stored));
        }
        try {
            Verdict<String> verdict = queue.run(() -> stored == null
                ? new Verdict<>(hasher.verifyUnknown(password), Optional.empty())
                : hasher.verifyAndUpdate(stored, password));
            if (!verdict.matches()) {
                return log("wrong user or password", user, new Result(Answer.REJECTED, stored));
            }
            return log("logged in", user, new Result(Answer.ACCEPTED, verdict.update().orElse(stored)));
        } catch (Argon2Exception error) {
            if (error.reason() == Argon2Exception.Reason.NOT_UNICODE) {
                return log("no text as password", user, new Result(Answer.REJECTED, stored));
            }
            return log("error: " + error.getMessage(), user, new Result(Answer.TRY_LATER, stored));
        }
    }

    /** Writes one line, whatever the user's name is. */
    private static Result log(String says, String user, Result result) {
        System.err.println(says + ": " + user.replaceAll("\\R", "?"));
        return result;
    }
}
