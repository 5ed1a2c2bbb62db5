package proved.argon2;

import static org.junit.jupiter.api.Assertions.assertTrue;

import java.io.File;
import java.lang.reflect.Method;
import java.net.*;
import org.junit.jupiter.api.Test;

class LoadingTest {
    @Test
    void eachClassLoaderLoadsTheLibraryAndNoFileIsLeft() throws Exception {
        URL[] jar = {PasswordHasher.class.getProtectionDomain().getCodeSource().getLocation()};
        for (int round = 0; round < 3; round++) {
            try (URLClassLoader loader = new URLClassLoader(jar, null)) {
                Class<?> hasher = loader.loadClass(PasswordHasher.class.getName());
                Method hash = hasher.getMethod("encode", CharSequence.class);
                String stored = (String) hash.invoke(hasher.getConstructor().newInstance(), "password");
                assertTrue(new PasswordHasher().matches("password", stored));
            }
        }
        File temporary = new File(System.getProperty("java.io.tmpdir"));
        String[] left = temporary.list((folder, name) -> name.startsWith("proved-"));
        assertTrue(left.length == 0, String.join(" ", left));
    }
}
