import java.nio.charset.StandardCharsets;
import java.security.KeyStore;
import java.security.MessageDigest;
import java.security.Provider;
import java.security.SecureRandom;
import java.security.Security;
import java.util.HexFormat;
import javax.crypto.Mac;
import javax.crypto.spec.SecretKeySpec;

/** Uses the module by SunPKCS11: a login, digests, HMACs and random bytes. Called with the
 * provider's configuration and the user's PIN. */
public final class JavaClient {
    private static void check(String what, byte[] made, String expected) {
        String text = HexFormat.of().formatHex(made);
        if (!text.equals(expected)) {
            throw new IllegalStateException(what + " is " + text + ", and not " + expected);
        }
    }

    private static byte[] hmac(Provider provider, String algorithm, byte[] message)
            throws Exception {
        Mac mac = Mac.getInstance(algorithm, provider);
        mac.init(new SecretKeySpec("Jefe".getBytes(StandardCharsets.US_ASCII), "Generic"));
        mac.update(message, 0, 10);
        mac.update(message, 10, message.length - 10);
        return mac.doFinal();
    }

    public static void main(String[] arguments) throws Exception {
        Provider provider = Security.getProvider("SunPKCS11").configure(arguments[0]);
        KeyStore store = KeyStore.getInstance("PKCS11", provider);
        store.load(null, arguments[1].toCharArray());
        byte[] abc = "abc".getBytes(StandardCharsets.US_ASCII);
        check("SHA-256", MessageDigest.getInstance("SHA-256", provider).digest(abc),
                "ba7816bf8f01cfea414140de5dae2223b00361a396177a9cb410ff61f20015ad");
        check("SHA-224", MessageDigest.getInstance("SHA-224", provider).digest(abc),
                "23097d223405d8228642a477bda255b32aadbce4bda0b3f7e36c9da7");
        byte[] message = "what do ya want for nothing?".getBytes(StandardCharsets.US_ASCII);
        check("HMAC with SHA-256", hmac(provider, "HmacSHA256", message),
                "5bdcc146bf60754e6a042426089575c75a003f089d2739839dec58b964ec3843");
        check("HMAC with SHA-224", hmac(provider, "HmacSHA224", message),
                "a30e01098bc6dbbf45690f3a7e9e6d0f8bbea2a39e6148008fd05e44");
        byte[] random = new byte[16];
        SecureRandom.getInstance("PKCS11", provider).nextBytes(random);
        System.out.println("the token " + provider.getName() + " has " + store.size() + " entries");
    }
}
