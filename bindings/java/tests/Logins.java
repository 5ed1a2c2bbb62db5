import java.nio.charset.StandardCharsets;
import proved.argon2.PasswordHasher;
import proved.argon2.Settings;

/** What docs/examples/LogIn.java answers to each kind of login. */
final class Logins {
    /** More than the places of its queue: if these kept their places, later logins would be told to try again. */
    private static final int LEAVING = 100;
    private static final LogIn LOG_IN = new LogIn();
    private static final String OLDER = older("password");
    private static final String LONG = "a".repeat(1025);

    /** {@return an encoded hash with older settings} */
    private static String older(String password) {
        return new PasswordHasher(Settings.owasp2().withMemory(4096))
            .withPepper(System.getenv("PEPPER").getBytes(StandardCharsets.UTF_8)).hash(password.toCharArray());
    }

    private static void require(boolean holds, Object what) {
        if (!holds) {
            throw new AssertionError(what);
        }
    }

    /** Requires this answer, and that nothing new has to be stored. */
    private static void expect(LogIn.Answer answer, String stored, String password) {
        LogIn.Result result = LOG_IN.logIn("somebody", stored, password.toCharArray());
        require(result.equals(new LogIn.Result(answer, stored)), result);
    }

    public static void main(String[] none) {
        for (int i = 0; i < LEAVING; i++) {
            Thread.currentThread().interrupt(); // as a server does whose client has left
            expect(LogIn.Answer.TRY_LATER, OLDER, "password");
            require(Thread.interrupted(), i);
        }
        expect(LogIn.Answer.REJECTED, OLDER, "Password");
        expect(LogIn.Answer.REJECTED, null, "password");
        expect(LogIn.Answer.REJECTED, OLDER, "\ud800");
        expect(LogIn.Answer.REJECTED, older(LONG), LONG);
        expect(LogIn.Answer.TRY_LATER, "$argon2id$", "password");
        LogIn.Result renewed = LOG_IN.logIn("x\nlogged in: root", OLDER, "password".toCharArray());
        require(renewed.answer() == LogIn.Answer.ACCEPTED && renewed.stored().contains("m=19456"), renewed);
        expect(LogIn.Answer.ACCEPTED, renewed.stored(), "password");
        System.exit(0); // (without waiting for idle threads of the queue)
    }
}
